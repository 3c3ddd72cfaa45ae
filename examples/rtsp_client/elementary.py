"""The elementary stream of a track, made of its frames: units behind start codes, AAC in ADTS, and sound that needs
nothing more, as players read them from a pipe."""
from typing import Callable, Dict, Optional

from .frames import Frame
from .parameters import sets_of
from .player import Track

START = b"\0\0\0\1"
ADTS_HEAD = 7


def with_start_codes(frame: Frame) -> bytes:
    return b"".join(START + unit for unit in frame.units)


def joined(frame: Frame) -> bytes:
    return b"".join(frame.units)


class Adts:
    """Frames of AAC behind heads that say what they are (ISO 13818-7)."""

    def __init__(self, config: bytes) -> None:
        kind, rate, channels = config[0] >> 3, (config[0] & 7) << 1 | config[1] >> 7, config[1] >> 3 & 15
        self.fixed = 0xFFF1 << 40 | (kind - 1 & 3) << 38 | rate << 34 | channels << 30

    def __call__(self, frame: Frame) -> bytes:
        content = joined(frame)
        head = self.fixed | len(content) + ADTS_HEAD << 13 | 0x7FF << 2
        return head.to_bytes(ADTS_HEAD, "big") + content


class Elementary:
    """How the elementary stream of a track begins, and what it has of a frame."""

    def __init__(self, before: bytes, form: Callable[[Frame], bytes]) -> None:
        self.before, self.form = before, form


def elementary_of(track: Track, parameters: Dict[str, str]) -> Optional[Elementary]:
    """That of a track, for the encodings that have one."""
    encoding = track.encoding.upper()
    if encoding in ("H264", "H265"):
        return Elementary(b"".join(START + it for it in sets_of(track, parameters)), with_start_codes)
    if encoding == "MPEG4-GENERIC" and len(parameters.get("config", "")) >= 4:
        return Elementary(b"", Adts(bytes.fromhex(parameters["config"])))
    return Elementary(b"", joined) if encoding in ("MPA", "MPV") else None
