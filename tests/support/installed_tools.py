"""The operator's tools where a package has installed them: each tells its usage, and does a piece of its work."""
import os
import subprocess
from typing import Dict

NAMES = ("explain", "watch", "check-journals", "whole-lines", "picture", "play", "import")
# Work that takes no server. CONFIGURATION is the package's; HAS_FFMPEG is empty where there is nothing to import by.
ALONE = r"""
set -eu
cd "$(mktemp -d)"
for tool in explain watch check-journals whole-lines picture play import; do
    COLUMNS=200 "rtspd-$tool" --help | head -n 1 | cut -d ' ' -f 1-2
done
rtspd-explain "$CONFIGURATION"
sed 's/^uplink/timout = 60\nuplink/' "$CONFIGURATION" > odd.toml
rtspd-explain odd.toml | sed 's/odd.toml:[0-9]*/odd.toml/'
mkdir files
cat > files/journal-000001.txt <<'END'
0 open 2 00000000000000000000000000000001 1 60000
0 hold 2 3 rate 80000
0 hold 2 3 chan 1 0
0 add 2 3 0 0 00000001 0 0 7f000001 0 0
END
printf '1 open 4' >> files/journal-000001.txt
rtspd-check-journals files
rtspd-watch --once --config "$CONFIGURATION" files
rtspd-whole-lines files/journal-000001.txt 2> left-out | wc -l
cut -d ' ' -f 1-5 left-out
rtspd-picture --config "$CONFIGURATION" files | head -c 4
echo
rtspd-play rtsp://127.0.0.1:1/tone 2>&1 || echo "status $?"
rtspd-import none.wav 2>&1 || echo "status $?"
[ "$HAS_FFMPEG" ] || exit 0
ffmpeg -v error -nostdin -f lavfi -i sine=frequency=440:duration=1 sound.wav
rtspd-import --as pcmu sound.wav sound | sed 's/, made in .*//; s/;.*//'
head -n 1 films.toml
rtspd-explain films.toml
"""
TOLD = """\
the program takes it
note: odd.toml: server.timout is unknown and not read: is timeout meant?
the program takes it
journal-000001.txt: cut in line 5, 4 entries before; begins a run; 1 session alive at its end

session  address    from      to
      2  127.0.0.1  000001:1  lives

nothing is missing
journal-000001.txt, 4 entries, in files
uplink [#.......................................] 80,000 of 100,000,000 bit/s
1 session, 0 playing, 1 pair of channels

address       session  phase  where                bit/s  holds
127.0.0.1  2:00000000  Ready  tone 0.0 of 10.0 s  80,000  channels 0-1
4
rtspd-whole-lines: left out 8 bytes
<svg
rtspd-play: 127.0.0.1:1 can't be reached: Connection refused
status 1
rtspd-import: bad command line: none.wav isn't there; rtspd-import --help says how
status 2
"""
IMPORTED = """\
sound.wav as sound: 1.000 s of PCMU in media/sound.pcmu
sound.wav as sound: 0.080 Mbit/s with the headers
next: rtspd serve --config films.toml
# Made by rtspd-import. rtspd.toml(5) says what the keys mean.
the program takes it
"""
# Work beside the proved program, which serves what the package's configuration has, and a sound beside it, on PORT.
SERVED = r"""
set -eu
cd "$(mktemp -d)"
mkdir files media
keys="journal_files = \"$PWD/files\"\njournal_period = 50"
sed "s|^\[server\]|&\n$keys|; s|^media = \"/.*|media = \"$PWD/media\"|" "$CONFIGURATION" > served.toml
if [ "$HAS_FFMPEG" ]; then
    ffmpeg -v error -nostdin -f lavfi -i sine=frequency=440:duration=1 sound.wav
    rtspd-import --config served.toml --as pcmu sound.wav sound > imported
fi
env --block-signal=TERM,INT,HUP,XFSZ rtspd serve --config served.toml --listen "127.0.0.1:$PORT" > out 2> log &
server=$!
trap 'kill -KILL "$server" 2> /dev/null || true' EXIT
for _ in $(seq 100); do grep -q listening out && break; sleep 0.1; done
rtspd-play --tcp --seconds 1 --out tone.wav "rtsp://127.0.0.1:$PORT/tone" | sed 's/;.*//'
if [ "$HAS_FFMPEG" ]; then
    rtspd-play --tcp --out sound.raw "rtsp://127.0.0.1:$PORT/sound" | sed 's/;.*//'
    cmp sound.raw media/sound.pcmu
fi
sleep 0.5
rtspd-watch --once --config served.toml files | sed -n '2,3p'
kill -TERM "$server"
wait "$server"
rtspd-check-journals --config served.toml files | sed -n 's/[0-9,]* entries/N entries/; 1p; $p'
rtspd-whole-lines files/journal-000001.txt | rtspd audit --config served.toml --journal /dev/stdin
"""
PLAYED = """\
playing 0.000 to 1.000 s over TCP
track a: PCMU, 50 packets, 0 gaps, 0 repeats
track b: PCMA, 50 packets, 0 gaps, 0 repeats
wrote tone.wav: 1.000 s, 2 channels of 8,000 samples a second
"""
PLAYED_IMPORT = """\
playing 0.000 to 1.000 s over TCP
track sound: PCMU, 50 packets, 0 gaps, 0 repeats
wrote sound.raw: 8,000 octets of sound, PCMU
"""
LEFT = """\
uplink [........................................] 0 of 100,000,000 bit/s
0 sessions, 0 playing
journal-000001.txt: whole, N entries; begins a run; audited
nothing is missing
rate 0 100000000
pairs 0 200
"""


def told(has_ffmpeg: bool) -> str:
    """What the work without a server prints."""
    usages = "".join(f"usage: rtspd-{it}\n" for it in NAMES)
    return f"{usages}{TOLD}{IMPORTED if has_ffmpeg else ''}"


def served(has_ffmpeg: bool) -> str:
    """What the work beside the server prints."""
    return f"{PLAYED}{PLAYED_IMPORT if has_ffmpeg else ''}{LEFT}"


def given(configuration: str, has_ffmpeg: bool, port: int) -> Dict[str, str]:
    """What these scripts find in their environment."""
    return {"CONFIGURATION": configuration, "HAS_FFMPEG": "1" if has_ffmpeg else "", "PORT": str(port)}


def run_in(script: str, folder: str, environment: Dict[str, str]) -> subprocess.CompletedProcess:
    """Runs one of them with the commands of a folder before all others."""
    path = f"{folder}:{os.environ['PATH']}"
    how = {"stdin": subprocess.DEVNULL, "capture_output": True, "text": True, "timeout": 120}
    return subprocess.run(["bash", "-c", script], env={**os.environ, **environment, "PATH": path}, **how)
