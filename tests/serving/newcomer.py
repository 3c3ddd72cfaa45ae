"""The two shells of README.md, as whoever is new to it types them."""
import os
import pathlib
import re
import shutil
import subprocess

from checks import EXAMPLES, TOP, Checks
from rtsp_client.sound import SAMPLES

from .plays import samples_of
from .runner import serving_test
from .server import HERE, TRIED, Server

# A shell's own limit of descriptors, which the launcher raises.
SOFT_LIMIT = 256
IS_LAUNCHED = "RTSPD_PROGRAM" not in os.environ


class FirstServer(Server):
    """The server of a copy of the examples, with files that make-media wrote, on ports that are free."""

    def write_media(self) -> None:
        folder = self.path / "examples"
        folder.mkdir()
        for name in "make-media", "play", "tone.toml":
            shutil.copy(EXAMPLES / name, folder)
        shutil.copytree(EXAMPLES / "rtsp_client", folder / "rtsp_client")
        (self.path / "tools").mkdir()
        shutil.copy(TOP / "tools/command.py", self.path / "tools")
        text = (folder / "tone.toml").read_text()
        (folder / "tone.toml").write_text(re.sub("first_port = .*", f"first_port = {self.first_port}", text))
        (self.path / "rtspd").symlink_to(TOP / "rtspd" if IS_LAUNCHED else TRIED)
        subprocess.run(["./make-media"], cwd=folder, check=True, timeout=20)

    def start(self) -> "subprocess.Popen[bytes]":
        command = f"ulimit -Sn {SOFT_LIMIT} && exec ../rtspd serve --config tone.toml --listen {HERE}:{self.port}"
        pipes = {"stdout": subprocess.PIPE, "stderr": subprocess.PIPE, "stdin": subprocess.DEVNULL}
        return subprocess.Popen(["bash", "-c", command], cwd=self.path / "examples", **pipes)


@serving_test(limit=40, is_timed=True)
def two_shells(checks: Checks) -> None:
    """make-media, the launcher and examples/play: all of the tone comes, and the .wav has its samples."""
    with FirstServer(checks, pairs=2) as server:
        if IS_LAUNCHED:
            limits = pathlib.Path(f"/proc/{server.process.pid}/limits").read_text()
            soft, hard = re.search(r"(?m)^Max open files +(\S+) +(\S+)", limits).groups()
            checks.same("the launcher raises the limit of descriptors", hard, soft)
        command = ["examples/play", server.uri, "--out", "tone.wav"]
        done = subprocess.run(command, cwd=server.path, capture_output=True, text=True, timeout=25)
        checks.same("play: status and standard error", (0, ""), (done.returncode, done.stderr))
        for name, encoding in ("a", "PCMU"), ("b", "PCMA"):
            counted = rf"(?m)^track {name}: {encoding}, 500 packets, 0 gaps, 0 repeats; late by .* ms"
            checks.that(f"track {name}: what play counts", re.search(counted, done.stdout) is not None, done.stdout)
        files = (("PCMU", "tone-a.raw"), ("PCMA", "tone-b.raw"))
        octets = [(encoding, (server.path / "examples" / name).read_bytes()) for encoding, name in files]
        wanted = [[SAMPLES[encoding][octet] for octet in all_of_it] for encoding, all_of_it in octets]
        checks.that("the samples are those of the files", samples_of(server.path / "tone.wav") == wanted)
