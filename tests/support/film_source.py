"""What a film has, for comparing a play with it: each picture's units and each frame of sound, with their times."""
import hashlib
import json
import pathlib
import subprocess
from typing import Dict, List, NamedTuple


def said(*words: str) -> bytes:
    return subprocess.run(words, capture_output=True, stdin=subprocess.DEVNULL).stdout


def digest(content: bytes) -> str:
    return hashlib.md5(content).hexdigest()


def units_of(stream: bytes) -> List[bytes]:
    """The NAL units of a byte stream (ISO 14496-10 annex B)."""
    return [part.rstrip(b"\0") for part in stream.split(b"\0\0\1")[1:]]


def pictures_in(units: List[bytes], codec: str) -> List[bytes]:
    """Those that have a picture's slices."""
    if codec == "h264":
        return [it for it in units if it and 1 <= it[0] & 31 <= 5]
    return [it for it in units if it and it[0] >> 1 & 63 < 32]


def begins_picture(unit: bytes, codec: str) -> bool:
    return bool(unit[1 if codec == "h264" else 2] & 0x80)


def frames_of(stream: bytes) -> List[bytes]:
    """The frames of AAC in ADTS, without their heads."""
    found, at = [], 0
    while at + 7 <= len(stream):
        length = (stream[at + 3] & 3) << 11 | stream[at + 4] << 3 | stream[at + 5] >> 5
        found.append(stream[at + 7 : at + length])
        at += length
    return found


class Film(NamedTuple):
    """A film of H.264 or H.265, and of AAC or another sound, of which only the times are told."""

    picture: str
    sound: str
    picture_times: List[float]
    sound_times: List[float]
    # The digests of the units of pictures and of the frames of sound, and which picture a unit begins.
    units: List[str]
    frames: List[str]
    begins: Dict[str, int]


def times_of(path: pathlib.Path, kind: str) -> List[float]:
    words = ["-select_streams", f"{kind}:0", "-show_entries", "packet=pts_time", "-of", "csv=p=0", str(path)]
    return [float(it.strip(",")) for it in said("ffprobe", "-v", "error", *words).decode().split()]


def stream_of(path: pathlib.Path, kind: str, form: str) -> bytes:
    return said("ffmpeg", "-v", "error", "-i", str(path), "-map", f"0:{kind}:0", "-c", "copy", "-f", form, "-")


def read_film(path: pathlib.Path) -> Film:
    streams = json.loads(said("ffprobe", "-v", "error", "-show_streams", "-of", "json", str(path)))["streams"]
    codec = {it["codec_type"]: it["codec_name"] for it in reversed(streams)}
    picture, sound = codec["video"], codec["audio"]
    form = "h264" if picture == "h264" else "hevc"
    units = pictures_in(units_of(stream_of(path, "v", form)), picture)
    firsts = [digest(it) for it in units if begins_picture(it, picture)]
    frames = [digest(it) for it in frames_of(stream_of(path, "a", "adts"))] if sound == "aac" else []
    begins = {first: number for number, first in enumerate(firsts)}
    return Film(picture, sound, times_of(path, "v"), times_of(path, "a"), [digest(it) for it in units], frames, begins)
