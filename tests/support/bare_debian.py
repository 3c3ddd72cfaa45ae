"""The .deb in a bare Debian: a folder that debootstrap fills, entered by chroot. It takes root, a network, minutes."""
import os
import pathlib
import shutil
import subprocess

import installed_tools
from checks import Checks, Failed

SUITE = "bookworm"
# What the package needs and recommends, and what reads the unit and the manual.
THERE = "python3,ffmpeg,systemd,man-db,mandoc"
PAGES = ["rtspd.1", "rtspd.toml.5", *(f"rtspd-{it}.1" for it in installed_tools.NAMES)]
# What whoever runs the server may want: to be seen at its work by the keys that are for that, and stopped.
SEEN = r'''
set -eu
install -d -m 700 -o nobody /var/lib/rtspd
keys='access_log = true\nstatus = "127.0.0.1:29554"\njournal_files = "/var/lib/rtspd"\njournal_period = 50'
sed "s|^\[server\]|&\n$keys|" /etc/rtspd.toml > /tmp/seen.toml
grep -q journal_period /tmp/seen.toml
run="setpriv --reuid=nobody --regid=nogroup --clear-groups env --block-signal=TERM,INT,HUP"
$run rtspd serve --config /tmp/seen.toml --listen 127.0.0.1:28554 > /tmp/out 2> /tmp/errors &
for _ in $(seq 50); do grep -q listening /tmp/out && break; sleep 0.1; done
exec 3<> /dev/tcp/127.0.0.1/28554
printf 'SETUP rtsp://h/tone/a RTSP/2.0\r\nCSeq: 1\r\nTransport: RTP/AVP/TCP;interleaved=0-1\r\n\r\n' >&3
read -r answer <&3
echo "${answer%?}"
exec 4<> /dev/tcp/127.0.0.1/29554
printf 'GET /metrics HTTP/1.1\r\nHost: h\r\n\r\n' >&4
grep -a -e '^rtspd_sessions ' -e '^# EOF' <&4
sleep 0.2
cut -d ' ' -f 2 /var/lib/rtspd/journal-000001.txt | head -n 1
kill %1
wait %1 && echo ended cleanly
cut -d ' ' -f 2- /tmp/errors | sed 's/^\(access 127.0.0.1\) [0-9]*/\1 N/; s/ [0-9a-f]\{8\}$/ ID/'
rm -r /var/lib/rtspd
'''
SHOWN = [
    "RTSP/2.0 200 OK",
    "rtspd_sessions 1",
    "# EOF",
    "open",
    "ended cleanly",
    "info started with 1 presentations",
    'access 127.0.0.1 N "SETUP" "rtsp://h/tone/a" 200 ID',
    "info a signal came: no more connections are let in",
    "info stopped",
]
# The unit with a folder for the journal's files, as docs/OPERATING.md has it.
WITH_STATE = (
    "mkdir /etc/systemd/system/rtspd.service.d && cd /etc/systemd/system/rtspd.service.d"
    " && printf '[Service]\\nStateDirectory=rtspd\\nStateDirectoryMode=0700\\n' > state.conf"
    " && systemd-analyze verify rtspd.service && rm -r /etc/systemd/system/rtspd.service.d"
)
# With processes of its own to be seen, which end with the command.
ENTER = 'mount -t proc proc "$0/proc" && exec chroot "$0" env LC_ALL=C.UTF-8 "$@"'


class Debian:
    """A folder with a Debian in it."""

    def __init__(self, root: pathlib.Path) -> None:
        if os.geteuid() or not shutil.which("debootstrap"):
            raise Failed("a bare Debian takes root and debootstrap")
        self.root = root
        words = ["debootstrap", "--variant=minbase", f"--include={THERE}", SUITE, root]
        made = subprocess.run(words, stdin=subprocess.DEVNULL, capture_output=True, text=True, timeout=1800)
        if made.returncode:
            raise Failed(f"debootstrap ended with status {made.returncode}: {made.stdout[-300:]}")

    def call(self, *words: str) -> subprocess.CompletedProcess:
        entered = ["unshare", "--mount", "--pid", "--fork", "sh", "-c", ENTER, self.root, *words]
        return subprocess.run(entered, stdin=subprocess.DEVNULL, capture_output=True, text=True, timeout=300)

    def run(self, script: str) -> subprocess.CompletedProcess:
        """Runs one of the scripts that try the tools."""
        given = installed_tools.given("/etc/rtspd.toml", True, 28555)
        return self.call("env", *(f"{name}={value}" for name, value in given.items()), "bash", "-c", script)

    def named(self) -> set:
        """What is in it under the program's name, outside of what dpkg and man keep for themselves."""
        own = {"var/lib/dpkg", "var/cache/man", "var/log"}
        found = {str(it.relative_to(self.root)) for it in self.root.rglob("*rtspd*")}
        return {it for it in found if not any(it.startswith(f"{folder}/") for folder in own)}


def test(checks: Checks, deb: pathlib.Path, work: pathlib.Path, is_proved: bool) -> None:
    debian = Debian(work / "debian")
    shutil.copy(deb, debian.root / "tmp/package.deb")
    done = debian.call("dpkg", "--install", "/tmp/package.deb")
    checks.same("dpkg installs the package", (0, ""), (done.returncode, done.stderr))
    for words in (
        ["rtspd", "audit", "--journal", "/dev/null"],
        ["systemd-analyze", "verify", "rtspd.service"],
        ["sh", "-c", WITH_STATE],
        *(["sh", "-c", f"zcat /usr/share/man/man{it[-1]}/{it}.gz | mandoc -Tlint -Wwarning"] for it in PAGES),
        *(["man", "--warnings", it[-1], it[:-2]] for it in PAGES),
        ["dpkg", "--verify", "rtspd"],
    ):
        done = debian.call(*words)
        checks.same(f"in a bare Debian: {' '.join(words)}", (0, ""), (done.returncode, done.stderr))
    done = debian.run(installed_tools.ALONE)
    came = done.returncode, done.stdout, done.stderr
    checks.same("in a bare Debian: the tools", (0, installed_tools.told(True), ""), came)
    if is_proved:
        served = ["rtspd", "serve", "--config", "/etc/rtspd.toml", "--listen", "127.0.0.1:28554"]
        done = debian.call("runuser", "-u", "nobody", "--", "timeout", "2", *served)
        line = "rtspd: listening on 127.0.0.1:28554\n"
        checks.same("in a bare Debian: serve, for two seconds", (124, line), (done.returncode, done.stdout))
        done = debian.call("bash", "-c", SEEN)
        came = done.returncode, done.stdout.splitlines(), done.stderr
        checks.same("in a bare Debian: serve, with its log, figures and journal", (0, SHOWN, ""), came)
        done = debian.run(installed_tools.SERVED)
        came = done.returncode, done.stdout, done.stderr
        checks.same("in a bare Debian: the tools beside the server", (0, installed_tools.served(True), ""), came)
    done = debian.call("dpkg", "--remove", "rtspd")
    checks.same("dpkg removes the package", (0, ""), (done.returncode, done.stderr))
    checks.same("what is left: the configuration", {"etc/rtspd.toml"}, debian.named())
    done = debian.call("dpkg", "--purge", "rtspd")
    checks.same("what is left after a purge", (0, set()), (done.returncode, debian.named()))
