"""Frames made of RTP packets: pictures of H.264, H.265 and MPEG-2, and sound (RFC 6184, 7798, 2250, 3640, 7587)."""
from typing import Callable, Dict, List, NamedTuple, Optional

from .player import Track
from .rtp import TIMESTAMP, Packet

# The samples of a frame of AAC.
AAC_SAMPLES = 1024


class Frame(NamedTuple):
    """A picture or some sound: its time in ticks since the play began, and its units, of which a picture may have many."""

    ticks: int
    units: List[bytes]
    is_key: bool


class Fragments:
    """Units that come in fragments, of which the missing of one costs the whole unit."""

    def __init__(self) -> None:
        self._unit: Optional[bytearray] = None

    def begin(self, head: bytes) -> None:
        self._unit = bytearray(head)

    def lose(self) -> None:
        self._unit = None

    def add(self, piece: bytes, is_last: bool) -> List[bytes]:
        if self._unit is None:
            return []
        self._unit += piece
        if not is_last:
            return []
        whole, self._unit = bytes(self._unit), None
        return [whole]


def aggregated(payload: bytes, at: int) -> List[bytes]:
    """The units of a packet that has several, each behind its length."""
    found = []
    while at + 2 < len(payload):
        length = int.from_bytes(payload[at : at + 2], "big")
        found.append(payload[at + 2 : at + 2 + length])
        at += 2 + length
    return found


def units_of_h264(payload: bytes, fragments: Fragments) -> List[bytes]:
    kind = payload[0] & 31
    if kind == 24:
        return aggregated(payload, 1)
    if kind != 28 or len(payload) < 2:
        return [payload]
    if payload[1] & 0x80:
        fragments.begin(bytes([payload[0] & 0xE0 | payload[1] & 31]))
    return fragments.add(payload[2:], bool(payload[1] & 0x40))


def units_of_h265(payload: bytes, fragments: Fragments) -> List[bytes]:
    kind = payload[0] >> 1 & 63
    if kind == 48:
        return aggregated(payload, 2)
    if kind != 49 or len(payload) < 3:
        return [payload]
    if payload[2] & 0x80:
        fragments.begin(bytes([payload[0] & 0x81 | (payload[2] & 63) << 1, payload[1]]))
    return fragments.add(payload[3:], bool(payload[2] & 0x40))


UnitsOf = Callable[[bytes, Fragments], List[bytes]]


def is_key_h264(units: List[bytes]) -> bool:
    return any(unit and unit[0] & 31 in (5, 7) for unit in units)


def is_key_h265(units: List[bytes]) -> bool:
    return any(unit and 16 <= unit[0] >> 1 & 63 <= 21 for unit in units)


class Pictures:
    """Pictures, of which each is what has one timestamp."""

    def __init__(self, units_of: UnitsOf, is_key: Callable[[List[bytes]], bool]) -> None:
        self.units_of, self.is_key = units_of, is_key
        self._fragments = Fragments()
        self._units: List[bytes] = []
        self._ticks = 0

    def take(self, packet: Packet, ticks: int, is_next: bool) -> List[Frame]:
        found = self.end() if self._units and ticks != self._ticks else []
        if not is_next:
            self._fragments.lose()
        self._ticks = ticks
        self._units += self.units_of(packet.payload, self._fragments)
        return found + (self.end() if packet.marker else [])

    def end(self) -> List[Frame]:
        units, self._units = [it for it in self._units if it], []
        return [Frame(self._ticks, units, self.is_key(units))] if units else []


class Aac:
    """Frames of AAC, each with a head of 16 bits: its length in 13 (RFC 3640, AAC-hbr)."""

    def __init__(self) -> None:
        self._fragments = Fragments()
        self._wanted = 0

    def take(self, packet: Packet, ticks: int, is_next: bool) -> List[Frame]:
        payload = packet.payload
        count = int.from_bytes(payload[:2], "big") // 16
        at = 2 + 2 * count
        lengths = [int.from_bytes(payload[2 + 2 * it : 4 + 2 * it], "big") >> 3 for it in range(count)]
        if count == 1 and lengths[0] > len(payload) - at:
            if not is_next or ticks != self._wanted:
                self._fragments.begin(b"")
            self._wanted = ticks
            return [Frame(ticks, [it], True) for it in self._fragments.add(payload[at:], packet.marker)]
        found = []
        for place, length in enumerate(lengths):
            found.append(Frame(ticks + place * AAC_SAMPLES, [payload[at : at + length]], True))
            at += length
        return found

    def end(self) -> List[Frame]:
        return []


class Behind:
    """What stands behind a head of so many bytes in each packet."""

    def __init__(self, head: int) -> None:
        self.head = head

    def take(self, packet: Packet, ticks: int, is_next: bool) -> List[Frame]:
        rest = packet.payload[self.head :]
        return [Frame(ticks, [rest], True)] if rest else []

    def end(self) -> List[Frame]:
        return []


KINDS: Dict[str, Callable[[], object]] = {
    "H264": lambda: Pictures(units_of_h264, is_key_h264),
    "H265": lambda: Pictures(units_of_h265, is_key_h265),
    "MPV": lambda: Pictures(lambda payload, _: [payload[4:]], lambda units: units[0][:4] == b"\0\0\1\xb3"),
    "MPEG4-GENERIC": Aac,
    "MPA": lambda: Behind(4),
    "OPUS": lambda: Behind(0),
    "L16": lambda: Behind(0),
    "PCMU": lambda: Behind(0),
    "PCMA": lambda: Behind(0),
}


class Frames:
    """The frames of a stream, made of its packets in the order of their numbers, and handed on."""

    def __init__(self, track: Track, first_timestamp: Callable[[], int], hand_on: Callable[[Frame], None]) -> None:
        self._kind = KINDS[track.encoding.upper()]()
        self._first, self._hand_on = first_timestamp, hand_on
        self._next: Optional[int] = None

    def take(self, place: int, packet: Packet) -> None:
        ticks = (packet.timestamp - self._first() + TIMESTAMP // 2) % TIMESTAMP - TIMESTAMP // 2
        if packet.payload:
            for frame in self._kind.take(packet, ticks, place == self._next):
                self._hand_on(frame)
        self._next = place + 1

    def end(self) -> None:
        for frame in self._kind.end():
            self._hand_on(frame)


def has_frames(track: Track) -> bool:
    """Whether the frames of a track are known."""
    return track.encoding.upper() in KINDS
