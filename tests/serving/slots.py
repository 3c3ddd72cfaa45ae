"""Units of several packets: each packet as its slot has it, what is malformed, and where a play begins."""
import re
import subprocess
import time
from typing import Dict, List, NamedTuple, Sequence, Tuple

from checks import Checks
from rtsp_client.player import Player, Stream, Way
from rtsp_client.rtp import SENDER_REPORT, TIMESTAMP, Packet

from .operator import figures, shown_at
from .plays import set_up_all
from .runner import serving_test
from .server import Presentation, Server, Track

MOST = 1400
# A picture in slots, and sound in equal packets, for four seconds, on a clock of 8,000 ticks a second.
PICTURE = Track("p", 96, "H264", octets=8000, ticks=320, packets=6)
SOUND = Track("s", 8, "PCMA", octets=320, ticks=320, packets=4, packing="equal")
FILM = Presentation("film", units=100, unit_ms=40, tracks=(PICTURE, SOUND), starts=(0, 30, 31, 62))
FAILURES = "rtspd_media_failures_total"
# Packets that came at once may wait in a player's system, in seconds.
AFTERWARDS = 0.3


class Part(NamedTuple):
    """A packet of a unit: what it carries, its marker, and its timestamp less the unit's."""

    payload: bytes
    marker: bool = False
    offset: int = 0

    @property
    def octets(self) -> bytes:
        """As it stands in a slot."""
        return head(len(self.payload), self.marker, self.offset) + self.payload


def head(length: int, flags: int, offset: int) -> bytes:
    return length.to_bytes(2, "big") + flags.to_bytes(2, "big") + (offset % TIMESTAMP).to_bytes(4, "big")


def payload(unit: int, place: int, length: int) -> bytes:
    mark = unit.to_bytes(4, "big") + bytes([place])
    return (mark * (length // len(mark) + 1))[:length]


def picture_at(unit: int) -> List[Part]:
    """A unit of pictures: none in each seventh, else up to six packets, of one octet to 1,400, some timed before it."""
    count = unit % 7
    lengths = [(1 + 467 * (unit + place)) % MOST + 1 for place in range(count)]
    return [Part(payload(unit, at, it), at == count - 1, (at % 3 - 1) * 960) for at, it in enumerate(lengths)]


def sound_at(unit: int) -> List[Part]:
    whole = SOUND.unit(unit)
    return [Part(whole[80 * at : 80 * at + 80], False, 80 * at) for at in range(4)]


def padded(track: Track, slot: bytes) -> bytes:
    """A slot behind whose end anything may stand."""
    return slot + (bytes(8) + b"\xff" * track.unit_octets)[: track.unit_octets - len(slot)]


def slots_of(track: Track, units: Sequence[List[Part]]) -> bytes:
    return b"".join(padded(track, b"".join(part.octets for part in unit)) for unit in units)


def server_of(checks: Checks, film: Presentation, pictures: bytes, **settings: object) -> Server:
    """A server of a film whose first track has these slots."""
    server = Server(checks, film, **{"uplink": 10**10, **settings})
    (server.path / f"{film.tracks[0].name}.raw").write_bytes(pictures)
    return server


class Due(NamedTuple):
    """A packet that has to come: its ticks since the play began, its marker and its payload."""

    ticks: int
    marker: bool
    payload: bytes


def due(track: Track, units: Sequence[List[Part]]) -> List[Due]:
    return [Due(at * track.ticks + it.offset, it.marker, it.payload) for at, unit in enumerate(units) for it in unit]


def is_as_due(checks: Checks, where: str, wanted: List[Due], came: List[Packet], number: int, timestamp: int) -> None:
    """That packets came one after another, by their numbers, with the timestamps, markers and payloads that are due."""
    checks.same(f"{where}: packets", len(wanted), len(came))
    for at, (due_one, packet) in enumerate(zip(wanted, came)):
        fits = packet.sequence == (number + at) % 2**16 and packet.timestamp == (timestamp + due_one.ticks) % TIMESTAMP
        fits = fits and (packet.marker, packet.payload) == (due_one.marker, due_one.payload)
        if not checks.that(f"{where}: packet {at} is as it is due", fits, packet._replace(payload=packet.payload[:8])):
            return


def told(player: Player, answer: object) -> List[Tuple[int, int]]:
    """The number and the timestamp that RTP-Info tells of each stream."""
    found = re.findall(r"seq=(\d+);rtptime=(\d+)", answer.header("RTP-Info") or "")
    return [(int(number), int(timestamp)) for number, timestamp in found]


def is_complete(checks: Checks, where: str, stream: Stream) -> None:
    """That the player, too, counts no packet as missing or repeated."""
    came = stream.reception
    checks.same(f"{where}: packets that are missing, and repeats", (0, 0), (len(came.missing), came.repeats))


class Reports:
    """The sender reports of a stream, with the second of each, beside what its reception takes."""

    def __init__(self, player: Player, stream: Stream) -> None:
        self.found: List[Tuple[float, bytes]] = []
        self.before: List[int] = []
        self.reception = stream.reception
        if stream.ports:
            player.connection.datagrams[stream.ports.rtcp] = self.take
        else:
            player.connection.channels[stream.channel + 1] = self.take

    def take(self, datagram: bytes, at: float) -> None:
        if datagram[1] == SENDER_REPORT:
            self.found.append((at, bytes(datagram)))
            self.before.append(len(self.reception.packets))
        self.reception.take(datagram, at)


def reports_fit(checks: Checks, where: str, reports: Reports, track: Track, units: Sequence[List[Part]]) -> None:
    """That one came behind the first unit that has packets, then one a second, each of what had been sent till then."""
    number = lambda octets, at: int.from_bytes(octets[at : at + 4], "big")
    checks.that(f"{where}: sender reports", 3 <= len(reports.found) <= 5, len(reports.found))
    first_timestamp = reports.reception.first_timestamp
    for at, (_, report) in enumerate(reports.found):
        ticks = (number(report, 16) - first_timestamp) % TIMESTAMP
        sent = [part for unit in units[: ticks // track.ticks + 1] for part in unit]
        checks.same(f"{where}: report {at}: packets and octets", (len(sent), sum(len(it.payload) for it in sent)), (
            number(report, 20),
            number(report, 24),
        ))
        _, before = reports.found[0]
        seconds = number(report, 8) - number(before, 8) + (number(report, 12) - number(before, 12)) / 2**32
        ticks_since = (number(report, 16) - number(before, 16)) % TIMESTAMP
        checks.that(f"{where}: report {at}: its clocks agree", abs(seconds - ticks_since / 8000) < 0.001, seconds)


def whole_film(checks: Checks, server: Server, way: Way) -> None:
    player = server.player(way)
    streams = set_up_all(player)
    reports = [Reports(player, stream) for stream in streams]
    firsts = told(player, player.play(0.0))
    checks.that(f"{way.value}: the play ends", player.listen(10.0))
    player.connection.wait(AFTERWARDS)
    units = [[of(unit) for unit in range(FILM.units)] for of in (picture_at, sound_at)]
    for stream, track, first, of_track, heard in zip(streams, FILM.tracks, firsts, units, reports):
        where = f"{way.value}, {track.name}"
        is_as_due(checks, where, due(track, of_track), stream.reception.packets, *first)
        reports_fit(checks, where, heard, track, of_track)
        is_complete(checks, where, stream)
    player.tear_down()


@serving_test(limit=40, is_timed=True)
def units_of_several_packets(checks: Checks) -> None:
    """Slots and equal packets over UDP and TCP: each packet's number, timestamp, marker and payload; the reports."""
    with server_of(checks, FILM, slots_of(PICTURE, [*map(picture_at, range(FILM.units))])) as server:
        for way in Way.UDP, Way.TCP:
            whole_film(checks, server, way)


BAD = Presentation("bad", units=20, unit_ms=40, tracks=(Track("b", 96, "H264", octets=2796, ticks=320, packets=3),))
# Of bad_slots those that say more than there is, more than a packet has, or flags that there aren't.
MALFORMED = 5


class Slot(NamedTuple):
    """A slot, and what is sent of it."""

    octets: bytes
    sent: List[Part]


def bad_slots() -> Dict[int, Slot]:
    """Slots by their units; the others have one packet each."""
    fine = Part(b"fine", True, -5)
    long, longest = Part(payload(6, 0, 1300)), Part(payload(6, 1, 1400))
    third = [Part(payload(9, at, 932)) for at in range(3)]
    return {
        2: Slot(fine.octets + head(2000, 0, 0) + bytes(2000), [fine]),
        3: Slot(head(1401, 0, 0) + bytes(1401), []),
        4: Slot(fine.octets + head(10, 2, 0) + bytes(10), [fine]),
        5: Slot(fine.octets + head(10, 0xFFFF, 0) + bytes(10), [fine]),
        6: Slot(longest.octets + long.octets + head(300, 0, 0) + bytes(96), [longest, long]),
        # As many packets as there may be, to the last byte; more than these; no room for a head; none.
        9: Slot(b"".join(it.octets for it in third), third),
        10: Slot(fine.octets * 3 + head(5000, 9, 0), [fine] * 3),
        11: Slot(longest.octets * 2 + b"\xff" * 4, [longest] * 2),
        12: Slot(b"", []),
    }


@serving_test(limit=30, is_timed=True)
def malformed_slots(checks: Checks) -> None:
    """A length beyond the slot and beyond 1,400, and flags that there aren't: counted and skipped, what is before them
    is sent, and the play goes on."""
    track, slots = BAD.tracks[0], bad_slots()
    others = [Part(payload(unit, 0, 50), True) for unit in range(BAD.units)]
    found = [slots.get(unit, Slot(others[unit].octets, [others[unit]])) for unit in range(BAD.units)]
    port, address = shown_at()
    octets = b"".join(it.octets + bytes(track.unit_octets - len(it.octets)) for it in found)
    with server_of(checks, BAD, octets, status=address) as server:
        server.may_tell = b"can't be read"
        for way in Way.UDP, Way.TCP:
            before = figures(port)[FAILURES]
            player = server.player(way)
            (stream,) = set_up_all(player)
            (first,) = told(player, player.play(0.0))
            checks.that(f"{way.value}: the play ends", player.listen(5.0))
            player.connection.wait(AFTERWARDS)
            is_as_due(checks, way.value, due(track, [it.sent for it in found]), stream.reception.packets, *first)
            checks.same(f"{way.value}: failures that are counted", MALFORMED, figures(port)[FAILURES] - before)
            player.tear_down()


MANY = Presentation("many", units=60, unit_ms=10, tracks=(Track("m", 96, "H264", octets=2560, ticks=80, packets=256),))


def many_at(unit: int) -> List[Part]:
    """All 256 packets in two units, else one."""
    count = 256 if unit in (3, 50) else 1
    return [Part(payload(unit, place % 256, 10), place == count - 1, place) for place in range(count)]


@serving_test(limit=30, is_timed=True)
def two_hundred_and_fifty_six_packets(checks: Checks) -> None:
    """So many in one unit come; and a play that goes on jumps by more than half of all numbers, of which it tells."""
    track = MANY.tracks[0]
    units = [*map(many_at, range(MANY.units))]
    long = MANY._replace(units=400)
    octets = slots_of(track, [*units, *([[Part(b"x", True)]] * 340)])
    for way in Way.UDP, Way.TCP:
        with server_of(checks, long, octets) as server:
            player = server.player(way, receive_buffer=1 << 20)
            (stream,) = set_up_all(player)
            came = stream.reception.packets
            (first,) = told(player, player.play(0.0, 0.6))
            checks.that(f"{way.value}: the first play ends", player.listen(6.0))
            player.connection.wait(AFTERWARDS)
            is_as_due(checks, f"{way.value}, at first", due(track, units), came, *first)
            sent = len(came)
            # 136 units of up to 256 packets in place of 136.
            player.play(0.6, 1.96)
            checks.that(f"{way.value}: the second play ends", player.listen(9.0))
            second = len(came) - sent
            checks.same(f"{way.value}: the second play's packets", 136, second)
            (again,) = told(player, player.play(0.0, 0.6))
            checks.same(f"{way.value}: by how much the number jumps", (first[0] + 256 * 196) % 2**16, again[0])
            player.listen(6.0)
            player.connection.wait(AFTERWARDS)
            is_as_due(checks, f"{way.value}, again", due(track, units), came[sent + second :], *again)
            is_complete(checks, way.value, stream)
            player.tear_down()


@serving_test(limit=30, is_timed=True)
def plays_begin_where_a_film_may(checks: Checks) -> None:
    """A range from the middle begins at the start before it, one from a start there; PAUSE goes on at its point."""
    with server_of(checks, FILM, slots_of(PICTURE, [*map(picture_at, range(FILM.units))])) as server:
        for way in Way.UDP, Way.TCP:
            player = server.player(way)
            streams = set_up_all(player)
            setup = player.connection.ask("SETUP", streams[0].track.uri, [("Session", player.session or "")])
            checks.that(f"{way.value}: another SETUP isn't taken", setup.status != 200)
            for asked, begins in (1.2, 30), (2.0, 31), (2.479, 31), (2.48, 62), (3.9, 62), (1.199, 0):
                where = f"{way.value}, {asked}"
                # Before the answer, behind which packets may be read with it.
                came = [len(stream.reception.packets) for stream in streams]
                answer = player.play(asked)
                checks.same(f"{where}: its Range", f"npt={begins * 0.04:.3f}-4.000", answer.header("Range"))
                checks.same(f"{where}: its Seek-Style", "RAP", answer.header("Seek-Style"))
                firsts = told(player, answer)
                player.listen(0.3)
                paused = player.pause()
                player.connection.wait(AFTERWARDS)
                point = re.fullmatch(r"npt=([\d.]+)-4\.000", paused.header("Range") or "")
                units = round(float(point[1]) / 0.04) - begins if point else 0
                checks.that(f"{where}: it played", units > 2, units)
                for stream, track, of, before, first in zip(streams, FILM.tracks, (picture_at, sound_at), came, firsts):
                    wanted = due(track, [of(begins + unit) for unit in range(units)])
                    is_as_due(checks, f"{where}, {track.name}", wanted, stream.reception.packets[before:], *first)
            again = player.play()
            checks.same(f"{way.value}: without a Range it goes on", paused.header("Range"), again.header("Range"))
            player.tear_down()


@serving_test(limit=20)
def what_a_film_says_of_itself(checks: Checks) -> None:
    """SETUP tells how far starts are from one another, and SDP the tracks; a track above the uplink is refused 453."""
    for uplink, status in (FILM.whole_rate, 200), (FILM.rate(PICTURE) - 1, 453):
        octets = slots_of(PICTURE, [*map(picture_at, range(FILM.units))])
        with server_of(checks, FILM, octets, uplink=uplink) as server:
            talk = server.connect()
            answer = talk.ask("SETUP", f"{server.uri}/p", [("Transport", "RTP/AVP/TCP;unicast;interleaved=0-1")])
            checks.same(f"SETUP with an uplink of {uplink}", status, answer.status)
            if status == 200:
                said = "Random-Access=1.520, Immutable, Unlimited"
                checks.same("its Media-Properties", said, answer.header("Media-Properties"))
            talk.close()
            server.answers("afterwards")


def start_said(server: Server) -> Tuple[int, bytes]:
    """How a server that doesn't start ends."""
    (server.path / "server.toml").write_text(server.text)
    done = subprocess.run(server.command(), cwd=server.path, capture_output=True, stdin=subprocess.DEVNULL, timeout=10)
    return done.returncode, done.stderr


@serving_test(limit=20)
def a_film_one_byte_short(checks: Checks) -> None:
    """Its slots have to be whole, and nothing may stand behind them."""
    whole = slots_of(PICTURE, [*map(picture_at, range(FILM.units))])
    for what, octets in ("short", whole[:-1]), ("long", whole + b"\0"):
        server = server_of(checks, FILM, octets)
        server.write_media()
        status, said = start_said(server)
        checks.that(f"a file that is a byte too {what}: the status", status != 0, (status, said))
        checks.that(f"a file that is a byte too {what}: its line", b"p.raw" in said or b"track 0" in said, said)
        server.folder.cleanup()


@serving_test(limit=30, is_timed=True)
def a_second_of_slots_unread(checks: Checks) -> None:
    """A reader of a film over TCP that stalls for a second, twice, loses nothing."""
    octets = slots_of(PICTURE, [*map(picture_at, range(FILM.units))])
    with server_of(checks, FILM, octets) as server:
        player = server.player(Way.TCP, receive_buffer=1 << 14)
        streams = set_up_all(player)
        firsts = told(player, player.play(0.0))
        for _ in range(2):
            player.connection.wait(0.7)
            time.sleep(1.0)
        checks.that("the play ends", player.listen(10.0))
        for stream, track, of, first in zip(streams, FILM.tracks, (picture_at, sound_at), firsts):
            wanted = due(track, [*map(of, range(FILM.units))])
            is_as_due(checks, track.name, wanted, stream.reception.packets, *first)
        player.tear_down()
