"""Films that tests make by ffmpeg, what examples/import makes of them, and what a command says."""
import pathlib
import re
import subprocess
from typing import Tuple

from checks import EXAMPLES, Checks

IMPORT, PLAY = EXAMPLES / "import", EXAMPLES / "play"
PACKET, UNIT = 188, 1316
SECONDS = 10
# A film of so many seconds, small and with a tone.
SOURCE = ["-f", "lavfi", "-i", f"testsrc=size=320x180:rate=25:duration={SECONDS}"]
TONE = ["-f", "lavfi", "-i", f"sine=frequency=440:duration={SECONDS}"]


def said(*words: object, where: pathlib.Path, **more: object) -> Tuple[int, str, str]:
    done = subprocess.run(list(map(str, words)), cwd=where, capture_output=True, text=True, timeout=120, **more)
    # How far an import is, it tells every ten seconds, which a busy machine comes to.
    complaint = re.sub(r"(?m)^.* as \S+: +\d+%\n", "", done.stderr)
    return done.returncode, done.stdout, complaint


def one_line(checks: Checks, what: str, status: int, pattern: str, came: Tuple[int, str, str]) -> None:
    """A refusal: its status, nothing on standard output, and one line."""
    checks.same(f"{what}: status and standard output", (status, ""), came[:2])
    checks.that(f"{what}: its line", re.fullmatch(f"(?:{pattern})\n", came[2]) is not None, came[2])


def make(folder: pathlib.Path, name: str, *words: str) -> pathlib.Path:
    path = folder / name
    subprocess.run(["ffmpeg", "-v", "error", "-nostdin", *words, "-y", path], check=True, timeout=120)
    return path


def pictures_of(film: pathlib.Path) -> str:
    """A sum of each picture, decoded."""
    words = ["ffmpeg", "-v", "error", "-nostdin", "-i", film, "-map", "0:v", "-f", "framemd5", "-"]
    done = subprocess.run(words, check=True, capture_output=True, text=True, timeout=120)
    return "".join(line.split()[-1] for line in done.stdout.splitlines() if not line.startswith("#"))


def time_of(packet: bytes) -> float:
    """The clock of a transport packet (PCR) in seconds; below 0 where it has none."""
    has_clock = packet[3] & 0x20 and packet[4] >= 7 and packet[5] & 0x10
    if not has_clock:
        return -1.0
    base = int.from_bytes(packet[6:10], "big") << 1 | packet[10] >> 7
    return (base * 300 + ((packet[10] & 1) << 8 | packet[11])) / 27e6
