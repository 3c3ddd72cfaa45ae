"""Slots of a film: which unit each packet is sent in, so that units are as even as a little lateness allows."""
import array
import pathlib
import struct
from typing import BinaryIO, List, NamedTuple, Optional, Tuple

from .configuration import HEADERS, REPORT_RATE, FilmTrack, MadeFilm, Refused
from .media import MOST_UNITS
from .packets import Packets

HEAD = 8
# How long a unit may be, in milliseconds, the longest first: the shorter, the faster a film may be.
UNIT_LENGTHS = 40, 20, 10
# A packet may be late by so much: players put up with it. More would save little of the uplink.
MOST_LATE_MS = 500
# So many milliseconds without packets follow the film, since its end may not overtake what is late.
TAIL_MS = 1000
MOST_OCTETS, MOST_PACKETS, MOST_STARTS = 120_000, 256, 20_000
MOST_FMTP = 1024


class Pace(NamedTuple):
    """How long a unit is, and how late a packet may be sent."""

    unit_ms: int
    late_ms: int


class Plan(NamedTuple):
    """The unit of each packet of a track, and what a unit of it has at most."""

    packets: Packets
    pace: Pace
    units: "array.array[int]"
    most: int
    octets: int

    @property
    def count(self) -> int:
        return self.units[-1] + 1

    @property
    def rate(self) -> int:
        return -(-(self.octets + HEADERS * self.most) * 8000 // self.pace.unit_ms) + REPORT_RATE

    @property
    def mean(self) -> float:
        """Its bits a second with headers, in the mean."""
        return (sum(self.packets.lengths) + HEADERS * len(self.units)) * 8000 / (self.count * self.pace.unit_ms)

    @property
    def ticks(self) -> int:
        return self.packets.clock * self.pace.unit_ms // 1000

    @property
    def size(self) -> int:
        return HEAD * self.most + self.octets


class Frame(NamedTuple):
    """The packets of one timestamp: where they begin and end, and the unit in which they may be sent at the earliest,
    which is when the frame would be decoded."""

    begin: int
    end: int
    unit: int
    is_key: bool


def frames_of(packets: Packets, unit_ms: int) -> List[Frame]:
    stamps, bounds = [], []
    for at, stamp in enumerate(packets.stamps):
        if not stamps or stamp != stamps[-1]:
            stamps.append(stamp)
            bounds.append(at)
    bounds.append(len(packets.stamps))
    is_picture = packets.stream.media == "video"
    per_unit = packets.clock * unit_ms
    frames = []
    for place, shown in enumerate(sorted(stamps)):
        begin, end = bounds[place], bounds[place + 1]
        unit = max(0, (shown + packets.first) * 1000 // per_unit)
        frames.append(Frame(begin, end, unit, is_picture and any(packets.keys[begin:end])))
    return frames


def placed(packets: Packets, frames: List[Frame], budget: int, late: int) -> Optional["array.array[int]"]:
    """The units of the packets, first come first served, where each has room for so many bytes; a key frame begins one.
    None where a packet would be later than it may, in units."""
    units, at, room, lengths = array.array("i"), -1, 0, packets.lengths
    for frame in frames:
        if frame.unit > at:
            at, room = frame.unit, budget
        elif frame.is_key and room < budget:
            at, room = at + 1, budget
        for length in lengths[frame.begin : frame.end]:
            room -= length + HEADERS
            if room < 0:
                at, room = at + 1, budget - length - HEADERS
            units.append(at)
        if at - frame.unit > late:
            return None
    return units


def greatest(packets: Packets, units: "array.array[int]") -> Tuple[int, int]:
    """The most packets that a unit has, and the most octets."""
    most_packets = most_octets = count = octets = 0
    last = -1
    for unit, length in zip(units, packets.lengths):
        if unit != last:
            last, count, octets = unit, 0, 0
        count, octets = count + 1, octets + length
        most_packets, most_octets = max(most_packets, count), max(most_octets, octets)
    return most_packets, most_octets


def plan(packets: Packets, pace: Pace) -> Optional[Plan]:
    """The least budget that makes no packet too late, by halving; None where units of this length don't carry it."""
    if packets.clock * pace.unit_ms % 1000:
        return None
    frames = frames_of(packets, pace.unit_ms)
    # A key frame that begins a unit may be late by one.
    late = max(pace.late_ms // pace.unit_ms, 1)
    low, high = max(packets.lengths) + HEADERS - 1, MOST_OCTETS + HEADERS * MOST_PACKETS
    best = placed(packets, frames, high, late)
    while best is not None and high - low > max(32, low // 500):
        middle = (low + high) // 2
        units = placed(packets, frames, middle, late)
        if units is None:
            low = middle
        else:
            high, best = middle, units
    if best is None:
        return None
    if best[-1] + 1 + TAIL_MS // pace.unit_ms > MOST_UNITS:
        raise Refused(f"it is too long for units of {pace.unit_ms} ms")
    most, octets = greatest(packets, best)
    return Plan(packets, pace, best, most, octets) if most <= MOST_PACKETS and octets <= MOST_OCTETS else None


def plans(streams: List[Packets], late_ms: int) -> List[Plan]:
    """A plan for each track, in units of one length, the longest that carries them all."""
    begins_at = min(it.begins_at for it in streams)
    for packets in streams:
        packets.first = round((packets.begins_at - begins_at) * packets.clock)
        if len(packets.fmtp) > MOST_FMTP:
            many = f"{len(packets.fmtp):,} octets, more than {MOST_FMTP:,}"
            raise Refused(f"the parameters of {packets.stream.codec} have {many}")
    for unit_ms in UNIT_LENGTHS:
        found = [plan(packets, Pace(unit_ms, late_ms)) for packets in streams]
        if all(found):
            return [it for it in found if it]
    raise Refused("it has more within half a second than a track carries; --mbit makes less of it")


def write(one: Plan, units: int, out: BinaryIO) -> None:
    """Writes the slots; what is left of one is a hole of the file, where it is long enough."""
    packets, at = one.packets, 0
    packets.data.seek(0)
    while at < len(one.units):
        unit, slot = one.units[at], bytearray()
        while at < len(one.units) and one.units[at] == unit:
            offset = packets.stamps[at] + packets.first - unit * one.ticks
            slot += struct.pack(">HHi", packets.lengths[at], packets.markers[at], offset)
            slot += packets.data.read(packets.lengths[at])
            at += 1
        out.seek(unit * one.size)
        out.write(slot)
    out.truncate(units * one.size)


def starts_of(found: List[Plan]) -> List[int]:
    """The units of the picture that a decoder may begin with; none where each unit of sound alone may."""
    picture = next((it for it in found if it.packets.stream.media == "video"), None)
    if picture is None:
        return []
    keys = [it for it in frames_of(picture.packets, picture.pace.unit_ms) if it.is_key]
    starts = sorted({0, *(picture.units[it.begin] for it in keys)})
    return starts[:: -(-len(starts) // MOST_STARTS)]


def film_of(name: str, found: List[Plan]) -> MadeFilm:
    """The presentation of a film, with a file for each track."""
    unit_ms = found[0].pace.unit_ms
    units = max(it.count for it in found) + TAIL_MS // unit_ms
    tracks, named = [], {"video": 0, "audio": 0}
    for place, one in enumerate(found):
        of, media = one.packets, one.packets.stream.media
        named[media] += 1
        short = media[0] + (str(named[media]) if named[media] > 1 else "")
        told = of.encoding, of.clock, one.most, one.octets, one.ticks, f"{name}.{short}", of.fmtp, of.channels
        tracks.append(FilmTrack(short, media, 96 + place, *told))
    return MadeFilm(name, unit_ms, units, starts_of(found), tracks)


def write_film(made: MadeFilm, found: List[Plan], files: List[pathlib.Path]) -> None:
    for one, file in zip(found, files):
        with file.open("wb") as out:
            write(one, made.units, out)
