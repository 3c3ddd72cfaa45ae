"""Tracks as one stream of Matroska (RFC 9559), which players read from a pipe and ffmpeg makes other files of."""
import struct
from typing import Callable, Dict, List, NamedTuple, Optional

from .connection import Refused
from .frames import Frame
from .parameters import Size, of_track, sets, sets_of, size_of_h264, size_of_h265
from .player import Track

UNKNOWN_LENGTH = b"\x01" + b"\xff" * 7
PICTURE, SOUND = 1, 2
# A cluster begins anew with a key frame, and after so many milliseconds.
LONGEST_CLUSTER = 5000


def element(name: str, content: bytes) -> bytes:
    """An element: its identity in hexadecimal digits, its length, its content."""
    return bytes.fromhex(name) + (len(content) | 1 << 56).to_bytes(8, "big") + content


def number(name: str, value: int) -> bytes:
    return element(name, value.to_bytes(8, "big"))


def text(name: str, value: str) -> bytes:
    return element(name, value.encode())


class Codec(NamedTuple):
    """How Matroska names an encoding, and what a decoder is told before the first frame."""

    name: str
    private: bytes
    size: Optional[Size] = None


def lengths_before(frame: Frame) -> bytes:
    return b"".join(len(unit).to_bytes(4, "big") + unit for unit in frame.units)


def joined(frame: Frame) -> bytes:
    return b"".join(frame.units)


def listed(units: List[bytes]) -> bytes:
    return b"".join(len(it).to_bytes(2, "big") + it for it in units)


def h264(track: Track, parameters: Dict[str, str]) -> Codec:
    units = sets_of(track, parameters)
    heads = [it for it in units if it and it[0] & 31 == 7]
    others = [it for it in units if it and it[0] & 31 == 8]
    if not heads or not others:
        raise Refused("the description has no parameters of the picture")
    private = b"\1" + heads[0][1:4] + bytes([0xFF, 0xE0 | len(heads)]) + listed(heads)
    private += bytes([len(others)]) + listed(others)
    return Codec("V_MPEG4/ISO/AVC", private, size_of_h264(heads[0]))


def h265(_track: Track, parameters: Dict[str, str]) -> Codec:
    kinds = [(kind, sets(parameters, name)) for kind, name in ((32, "sprop-vps"), (33, "sprop-sps"), (34, "sprop-pps"))]
    if not all(units for _, units in kinds):
        raise Refused("the description has no parameters of the picture")
    first = kinds[1][1][0]
    size = size_of_h265(first)
    profile = first[2:].replace(b"\0\0\3", b"\0\0")[1:13]
    depths = bytes([0xFC | size.chroma, 0xF8 | size.luma_depth, 0xF8 | size.chroma_depth])
    arrays = b"".join(bytes([0x80 | kind]) + struct.pack(">H", len(units)) + listed(units) for kind, units in kinds)
    return Codec("V_MPEGH/ISO/HEVC", b"\1" + profile + b"\xf0\0\xfc" + depths + b"\0\0\x0f\3" + arrays, size)


def opus(track: Track, _parameters: Dict[str, str]) -> Codec:
    return Codec("A_OPUS", b"OpusHead\1" + struct.pack("<BHIhB", track.channels, 0, 48_000, 0, 0))


def telephone(tag: int) -> Callable[[Track, Dict[str, str]], Codec]:
    """Sound by the number that a .wav has for it, of a byte a sample."""

    def codec(track: Track, _parameters: Dict[str, str]) -> Codec:
        octets = track.clock * track.channels
        head = struct.pack("<HHIIHHH", tag, track.channels, track.clock, octets, track.channels, 8, 0)
        return Codec("A_MS/ACM", head)

    return codec


CODECS: Dict[str, Callable[[Track, Dict[str, str]], Codec]] = {
    "H264": h264,
    "H265": h265,
    "MPV": lambda _, __: Codec("V_MPEG2", b""),
    "MPEG4-GENERIC": lambda _, parameters: Codec("A_AAC", bytes.fromhex(parameters.get("config", ""))),
    "MPA": lambda _, __: Codec("A_MPEG/L3", b""),
    "OPUS": opus,
    "L16": lambda _, __: Codec("A_PCM/INT/BIG", b""),
    "PCMU": telephone(7),
    "PCMA": telephone(6),
}


def fits(track: Track) -> bool:
    return track.encoding.upper() in CODECS


def entry(place: int, track: Track, codec: Codec) -> bytes:
    """The description of a track."""
    kind = PICTURE if track.media == "video" else SOUND
    content = number("d7", place) + number("73c5", place) + number("83", kind) + number("9c", 0)
    content += text("86", codec.name) + (element("63a2", codec.private) if codec.private else b"")
    if kind == PICTURE and codec.size:
        content += element("e0", number("b0", codec.size.width) + number("ba", codec.size.height))
    elif kind == SOUND:
        depth = number("6264", 16) if track.encoding.upper() == "L16" else b""
        rate = element("b5", struct.pack(">d", track.clock))
        content += element("e1", rate + number("9f", track.channels) + depth)
    return element("ae", content)


class Matroska:
    """Writes frames of several tracks as they come. The earliest of the tracks' first frames is its time 0: what is
    shown before that can't be decoded."""

    def __init__(self, write: Callable[[bytes], None], description: str, tracks: List[Track]) -> None:
        self._write = write
        self._tracks = tracks
        codecs = [CODECS[it.encoding.upper()](it, of_track(description, it)) for it in tracks]
        entries = [entry(at + 1, it, codec) for at, (it, codec) in enumerate(zip(tracks, codecs))]
        kind = text("4282", "matroska") + number("4287", 4) + number("4285", 2)
        about = number("2ad7b1", 1_000_000) + text("4d80", "rtspd") + text("5741", "rtspd")
        write(element("1a45dfa3", kind) + bytes.fromhex("18538067") + UNKNOWN_LENGTH)
        write(element("1549a966", about) + element("1654ae6b", b"".join(entries)))
        self._first: Optional[int] = None
        self._early: List[List[Frame]] = [[] for _ in tracks]
        self._cluster: Optional[int] = None
        self.frames = [0] * len(tracks)

    def take(self, place: int, frame: Frame) -> None:
        """A frame of the track at a place."""
        if self._first is None:
            self._early[place].append(frame)
            if not all(self._early) and sum(map(len, self._early)) < 500:
                return
            self.begin()
            return
        self._put(place, frame)

    def begin(self) -> None:
        """The first frames of the tracks that have some are there."""
        first = [self._at(at, frames[0]) for at, frames in enumerate(self._early) if frames]
        self._first = min(first, default=0)
        for place, frames in enumerate(self._early):
            for frame in frames:
                self._put(place, frame)
        self._early = []

    def end(self) -> None:
        if self._first is None:
            self.begin()

    def _at(self, place: int, frame: Frame) -> int:
        return round(frame.ticks * 1000 / self._tracks[place].clock)

    def _put(self, place: int, frame: Frame) -> None:
        at = self._at(place, frame) - self._first
        if at < 0:
            return
        is_picture = self._tracks[place].media == "video"
        if self._cluster is None or (is_picture and frame.is_key) or abs(at - self._cluster) > LONGEST_CLUSTER:
            self._cluster = at
            self._write(bytes.fromhex("1f43b675") + UNKNOWN_LENGTH + number("e7", at))
        has_lengths = self._tracks[place].encoding.upper() in ("H264", "H265")
        content = lengths_before(frame) if has_lengths else joined(frame)
        head = bytes([0x81 + place]) + struct.pack(">hB", at - self._cluster, 0x80 if frame.is_key else 0)
        self._write(element("a3", head + content))
        self.frames[place] += 1
