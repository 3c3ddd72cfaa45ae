"""RTP packets as they are received (RFC 3550): which came, which are missing, how late each was."""
import array
import statistics
from typing import Callable, List, NamedTuple, Optional

HEADER = 12
SEQUENCE = 1 << 16
TIMESTAMP = 1 << 32
# A packet of a play has a number so little above its first.
NEAR = 1024
FIRST_BYTE = 0x80
# RTCP's kinds of packets; a sender report (RFC 3550 section 6.4.1), and where it has its stream and its packets.
CONTROL, SENDER_REPORT = range(200, 205), 200


class Packet(NamedTuple):
    """A packet, and the second at which it came, on a clock of the player's."""

    payload_type: int
    sequence: int
    timestamp: int
    ssrc: int
    payload: bytes
    at: float
    marker: bool = False


def read_packet(datagram: bytes, at: float) -> Optional[Packet]:
    """A packet without extensions, contributing sources and padding; None for any other bytes."""
    if len(datagram) < HEADER or datagram[0] != FIRST_BYTE:
        return None
    number = lambda start, end: int.from_bytes(datagram[start:end], "big")
    told = datagram[1] & 0x7F, number(2, 4), number(4, 8), number(8, 12), bytes(datagram[HEADER:])
    return Packet(*told, at, datagram[1] >= 0x80)


class Lateness(NamedTuple):
    """Milliseconds that packets came after the moment that the earliest of them sets for all."""

    middle: float
    most_of_99: float
    greatest: float


class Reception:
    """The packets of one stream, in the order in which they came.

    Places count from the first packet that the server told of (RTP-Info), so they don't wrap round. With a taker each
    packet goes to it with its place, and none is kept: a film would fill the memory.
    """

    def __init__(self, ssrc: int, clock: int) -> None:
        self.ssrc = ssrc
        self.clock = clock
        self.packets: List[Packet] = []
        self.places = array.array("q")
        self.taker: Optional[Callable[[int, Packet], None]] = None
        # The second at which each packet came, less its time in the play.
        self._early = array.array("d")
        self.strangers = 0
        self.first_sequence: Optional[int] = None
        self.first_timestamp = 0
        self.end: Optional[int] = None
        # How many packets its last report counts. A stream with reports has units of several packets, and of these no
        # place but the last packet's tells where a play ends.
        self.reported: Optional[int] = None
        self._last = 0
        # What comes while a PLAY has no answer yet: where it begins only that says.
        self._waiting: Optional[List[Packet]] = None

    def place_of(self, sequence: int) -> int:
        """How many packets a sequence number lies behind the first, taken nearest to the last one that came."""
        assert self.first_sequence is not None
        offset = (sequence - self.first_sequence - self._last + SEQUENCE // 2) % SEQUENCE - SEQUENCE // 2
        return self._last + offset

    def waits(self) -> None:
        """A PLAY is asked for: what comes is judged once it is answered."""
        self._waiting = self._waiting or []

    def starts(self, sequence: int, timestamp: int) -> None:
        """What RTP-Info says of the first packet. Later plays go on from the first one's numbers, or jump there."""
        waiting, self._waiting = self._waiting or [], None
        is_new = lambda packet: (packet.sequence - sequence) % SEQUENCE < NEAR
        begins = next((at for at, packet in enumerate(waiting) if is_new(packet)), len(waiting))
        if self.first_sequence is None:
            self.first_sequence, self.first_timestamp = sequence, timestamp
        for packet in waiting[:begins]:
            self._put(packet)
        if self.reported is not None:
            self.first_sequence = (sequence - self._last - 1) % SEQUENCE
        for packet in waiting[begins:]:
            self._put(packet)

    def goes_on(self) -> None:
        """The PLAY wasn't granted, or told nothing of this stream."""
        waiting, self._waiting = self._waiting or [], None
        for packet in waiting:
            self._put(packet)

    def ends(self, sequence: int) -> None:
        """What the server says of the packet that would come next."""
        if self.reported is None:
            self.end = self.place_of(sequence)

    def hear(self, control: bytes) -> None:
        """Takes an RTCP packet."""
        if len(control) >= 28 and control[1] == SENDER_REPORT and int.from_bytes(control[4:8], "big") == self.ssrc:
            self.reported = int.from_bytes(control[20:24], "big")

    def take(self, datagram: bytes, at: float) -> None:
        if len(datagram) > 1 and datagram[1] in CONTROL:
            self.hear(datagram)
            return
        packet = read_packet(datagram, at)
        if packet is None or packet.ssrc != self.ssrc:
            self.strangers += 1
        elif self._waiting is not None:
            self._waiting.append(packet)
        else:
            self._put(packet)

    def _put(self, packet: Packet) -> None:
        # A packet may overtake the answer to PLAY.
        if self.first_sequence is None:
            self.first_sequence, self.first_timestamp = packet.sequence, packet.timestamp
        place = self.place_of(packet.sequence)
        self._last = max(place, self._last)
        self.places.append(place)
        self._early.append(self._early_of(packet))
        if self.taker:
            self.taker(place, packet)
        else:
            self.packets.append(packet)

    @property
    def repeats(self) -> int:
        return len(self.places) - len(set(self.places))

    @property
    def missing(self) -> List[int]:
        """The places of the packets that didn't come, up to the last that did or that the server told of."""
        came = bytearray(max(self.end or 0, max(self.places, default=-1) + 1))
        for place in self.places:
            if place >= 0:
                came[place] = 1
        return [place for place, has_come in enumerate(came) if not has_come]

    @property
    def gaps(self) -> int:
        """How many runs of missing packets there are."""
        missing = self.missing
        return sum(before != place - 1 for before, place in zip([None, *missing], missing))

    def tick_of(self, packet: Packet) -> int:
        """The clock ticks from the first packet to this one."""
        offset = (packet.timestamp - self.first_timestamp) % TIMESTAMP
        return offset - TIMESTAMP if offset >= TIMESTAMP // 2 else offset

    def _early_of(self, packet: Packet) -> float:
        return packet.at - self.tick_of(packet) / self.clock

    def late(self, packets: Optional[List[Packet]] = None) -> List[float]:
        """Milliseconds that each packet of one play came too late, beside the earliest of them."""
        early = self._early if packets is None else [self._early_of(it) for it in packets]
        base = min(early, default=0.0)
        return [(it - base) * 1000 for it in early]

    def lateness(self) -> Lateness:
        late = sorted(self.late()) or [0.0]
        return Lateness(statistics.median(late), late[(len(late) - 1) * 99 // 100], late[-1])
