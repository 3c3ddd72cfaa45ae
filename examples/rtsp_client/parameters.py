"""What a description says of a picture and a sound: parameters, and a picture's size (ISO 14496-10, 23008-2)."""
import base64
import binascii
import re
from typing import Dict, List, NamedTuple

from .player import Track


def of_track(description: str, track: Track) -> Dict[str, str]:
    """The format parameters of a track, by their names in small letters."""
    line = re.search(rf"(?m)^a=fmtp:{track.payload_type} (.*?)\r?$", description)
    pairs = [it.strip().partition("=") for it in line[1].split(";")] if line else []
    return {name.lower(): value for name, _, value in pairs}


def sets(parameters: Dict[str, str], *names: str) -> List[bytes]:
    """The parameter sets under these names."""
    texts = [one for name in names for one in parameters.get(name, "").split(",") if one]
    try:
        return [base64.b64decode(it) for it in texts]
    except binascii.Error:
        return []


def sets_of(track: Track, parameters: Dict[str, str]) -> List[bytes]:
    """All parameter sets of a picture, in the order in which a decoder wants them."""
    if track.encoding.upper() == "H264":
        return sets(parameters, "sprop-parameter-sets")
    return sets(parameters, "sprop-vps", "sprop-sps", "sprop-pps")


class Bits:
    """The bits of a unit, without the bytes that keep start codes out of it."""

    def __init__(self, unit: bytes) -> None:
        plain = unit.replace(b"\0\0\3", b"\0\0")
        self._bits = "".join(f"{it:08b}" for it in plain)
        self._at = 0

    def take(self, count: int) -> int:
        self._at += count
        return int(self._bits[self._at - count : self._at] or "0", 2)

    def number(self) -> int:
        """A number of changing length (Exp-Golomb)."""
        zeros = 0
        while self._at < len(self._bits) and not self.take(1):
            zeros += 1
        return (1 << zeros) - 1 + (self.take(zeros) if zeros else 0)


class Size(NamedTuple):
    """A picture's size, and how it is sampled."""

    width: int
    height: int
    chroma: int = 1
    luma_depth: int = 0
    chroma_depth: int = 0


def _skip_scaling(bits: Bits, chroma: int) -> None:
    for place in range(12 if chroma == 3 else 8):
        if bits.take(1):
            last = following = 8
            for _ in range(16 if place < 6 else 64):
                if following:
                    coded = bits.number()
                    following = (last + (coded + 1 >> 1) * (1 if coded & 1 else -1)) % 256
                last = following or last


def size_of_h264(unit: bytes) -> Size:
    bits = Bits(unit[1:])
    profile = bits.take(8)
    bits.take(16)
    bits.number()
    chroma = 1
    if profile in (100, 110, 122, 244, 44, 83, 86, 118, 128, 138, 139, 134, 135):
        chroma = bits.number()
        bits.take(chroma == 3)
        bits.number(), bits.number(), bits.take(1)
        if bits.take(1):
            _skip_scaling(bits, chroma)
    bits.number()
    order = bits.number()
    if order == 0:
        bits.number()
    elif order == 1:
        bits.take(1), bits.number(), bits.number()
        for _ in range(bits.number()):
            bits.number()
    bits.number(), bits.take(1)
    columns, rows, has_frames = bits.number() + 1, bits.number() + 1, bits.take(1)
    bits.take(1 - has_frames), bits.take(1)
    cut = [bits.number() for _ in range(4)] if bits.take(1) else [0, 0, 0, 0]
    across, down = (2 if chroma in (1, 2) else 1), (2 if chroma == 1 else 1) * (2 - has_frames)
    width = columns * 16 - across * (cut[0] + cut[1])
    return Size(width, rows * 16 * (2 - has_frames) - down * (cut[2] + cut[3]), chroma)


def size_of_h265(unit: bytes) -> Size:
    bits = Bits(unit[2:])
    bits.take(4)
    layers = bits.take(3)
    bits.take(1 + 96)
    present = [(bits.take(1), bits.take(1)) for _ in range(layers)]
    bits.take(2 * (8 - layers) if layers else 0)
    for has_profile, has_level in present:
        bits.take(88 * has_profile + 8 * has_level)
    bits.number()
    chroma = bits.number()
    bits.take(chroma == 3)
    width, height = bits.number(), bits.number()
    cut = [bits.number() for _ in range(4)] if bits.take(1) else [0, 0, 0, 0]
    across, down = (2 if chroma in (1, 2) else 1), (2 if chroma == 1 else 1)
    size = width - across * (cut[0] + cut[1]), height - down * (cut[2] + cut[3])
    return Size(*size, chroma, bits.number(), bits.number())
