"""Films played by GStreamer, and compared with what was imported: play_film.py, run by the system's Python."""
import json
import pathlib
import shutil
import subprocess
from typing import List, NamedTuple, Optional, Tuple

SCRIPT = pathlib.Path(__file__).resolve().parent / "play_film.py"
SYSTEM_PYTHON = "/usr/bin/python3"


class Compared(NamedTuple):
    """How a play compares with its film."""

    end: str
    pictures: int
    pictures_wanted: int
    same_pictures: bool
    first_unit: Optional[int]
    sounds: int
    sounds_wanted: int
    first_sound: int
    same_sounds: bool
    # By the time of a picture in the film, how many milliseconds it is shown later than the sound of its time.
    lip_sync: List[Tuple[float, float]]

    def is_whole_from(self, picture: int = 0) -> bool:
        """All pictures from one on, and all sounds from where it begins on, came bit by bit, and then the end. ffmpeg's
        packets lack the last frame of AAC."""
        is_all = self.pictures == self.pictures_wanted - picture and self.first_unit == picture
        has_sounds = self.first_sound + self.sounds >= self.sounds_wanted - 1 and (picture > 0 or self.first_sound == 0)
        return self.end == "the end" and is_all and has_sounds and self.same_pictures and self.same_sounds

    def apart_after(self, seconds: float) -> float:
        """By how many milliseconds picture and sound are apart at most, so long after the first picture."""
        begun = self.lip_sync[0][0] if self.lip_sync else 0.0
        return max((abs(late) for at, late in self.lip_sync if at >= begun + seconds), default=0.0)


def is_there() -> bool:
    """Whether GStreamer and its Python are installed."""
    if not shutil.which("ffprobe") or not pathlib.Path(SYSTEM_PYTHON).exists():
        return False
    load = "import gi; gi.require_version('Gst', '1.0'); gi.require_version('GstApp', '1.0')"
    return subprocess.run([SYSTEM_PYTHON, "-c", load], capture_output=True).returncode == 0


def play(url: str, film: pathlib.Path, protocol: str, *words: str) -> Compared:
    """Plays a film to its end; `words` are those of play_film.py."""
    command = [SYSTEM_PYTHON, str(SCRIPT), url, str(film), protocol, *words]
    done = subprocess.run(command, capture_output=True, text=True)
    if done.returncode:
        raise RuntimeError(done.stderr.strip().splitlines()[-1] if done.stderr.strip() else "GStreamer's player failed")
    said = json.loads(done.stdout)
    said["lip_sync"] = [tuple(it) for it in said["lip_sync"]]
    return Compared(**said)
