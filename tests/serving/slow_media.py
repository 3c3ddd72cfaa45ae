"""Films that aren't held in memory, of which one is on a disk that holds each read up: it is late alone, and comes whole."""
import re
import signal
import time
from typing import Callable, Tuple

from checks import Checks
from rtsp_client.player import Player, Way

from .audience import asked
from .bystanders import judge
from .disks import Disk
from .failing_disks import stops, until
from .left_journals import DRAINS, LOOKS
from .operator import figures, shown_at
from .plays import numbers_fit, runs, set_up_all
from .runner import serving_test
from .server import HERE, Presentation, Server, Track, configuration
from .waiting_disks import SECOND, Audience, play_all
from .witness import Punctuality, Witness

# More than 256 MiB together, with holes, which take no room on the disk.
UNITS, UNIT_MS = 150_000, 4
QUICK, SLOW, CUT = (
    Presentation(name, UNITS, UNIT_MS, (Track(name, 96, "MP2T", 1316, 32),)) for name in ("quick", "slow", "cut")
)
STREAMS = 24
# How long each read is held up, and how much is played, in seconds: more than three of the chunks that are read at once.
HELD, PLAYED = 1.5, 1.6
PLAYED_UNITS = int(PLAYED * SECOND) // UNIT_MS
READS = 4
# A second play is left while its first read is held up.
LEFT_AT, LEFT_AFTER = 100.0, 0.4
STOPPED_AT = 200.0
# Of all streams no more than so many seconds may be under way.
SOME = 0.1
STOPS_WITHIN = 3.0
# A stop is over long before such a read comes back.
LONG_HELD = 30.0
STOP_LEAVES = b"warning the stop leaves a read behind of the file of track 0 of presentation 1"
FAILURES = "rtspd_media_failures_total"


def place_of(seconds: float) -> int:
    """The unit that is due at so many seconds of a film."""
    return int(seconds * SECOND) // UNIT_MS


def write_film(server: Server, film: Presentation, *begins: float) -> None:
    """A film that has octets where it is played, from these seconds on."""
    (track,) = film.tracks
    with open(server.path / f"{track.name}.raw", "wb") as file:
        file.truncate(film.units * track.octets)
        for begin in begins:
            first = place_of(begin)
            file.seek(first * track.octets)
            file.write(b"".join(map(track.unit, range(first, first + PLAYED_UNITS))))


def server_of(checks: Checks, *films: Presentation, **more: object) -> Tuple[Server, Disk, int]:
    """A server of films, a disk that makes reads of some late, and where its figures are."""
    port, address = shown_at()
    pairs = STREAMS + 8
    room = {"pairs": pairs, "uplink": pairs * QUICK.whole_rate}
    server = Server(checks, films[0], holds_signals=True, status=address, **room, **more)
    for film in films[1:]:
        _, head, tracks = configuration(film, 0).partition("[[presentation]]")
        server.text += head + tracks
    disk = Disk(server.path)
    server.environment = disk.environment
    return server, disk, port


def on_a_slow_disk(checks: Checks, **more: object) -> Tuple[Server, Disk, int]:
    """A server of all films, the disk of the slow one, and where its figures are."""
    server, disk, port = server_of(checks, QUICK, SLOW, CUT, **more)
    write_film(server, QUICK)
    write_film(server, SLOW, 0.0, LEFT_AT)
    write_film(server, CUT)
    return server, disk, port


def player_of(server: Server, film: Presentation) -> Player:
    """A player who has set a film up."""
    player = Player(f"rtsp://{HERE}:{server.port}/{film.name}", Way.UDP)
    set_up_all(player)
    return player


def comes_whole(checks: Checks, server: Server, disk: Disk) -> None:
    """What is played of the slow film comes, once and in order, as its reads come back."""
    player = player_of(server, SLOW)
    began = time.monotonic()
    player.play(0.0, PLAYED)
    checks.that("the slow play comes to its end", player.listen(4 * READS * HELD))
    numbers_fit(checks, "the slow film", player.streams[0], SLOW.tracks[0], PLAYED_UNITS)
    reads, came = disk.asked("read"), player.streams[0].reception.packets
    checks.that(f"{READS} reads of it at least were held up", reads >= READS, reads)
    checks.that("its first packet waited for one", bool(came) and came[0].at - began >= HELD, len(came))
    player.tear_down()


def is_left_whole(checks: Checks, server: Server) -> None:
    """What is before the point of a PAUSE comes, though it wasn't there when the play was left."""
    player = player_of(server, SLOW)
    player.play(LEFT_AT)
    player.connection.wait(LEFT_AFTER)
    paused = player.pause()
    point = re.search(r"npt=(\d+\.\d+)-", paused.header("Range") or "")
    counted = place_of(float(point[1]) - LEFT_AT + 0.0005) if point else 0
    came = player.streams[0].reception
    checks.same("nothing has come before the PAUSE", 0, len(came.packets))
    checks.that("some units were counted", counted > 0, paused.header("Range"))
    player.connection.wait(HELD + 4 * LEFT_AFTER)
    checks.same("then what was counted comes", runs(list(range(counted))), runs(came.places))
    first = place_of(LEFT_AT)
    fits = [it.payload == SLOW.tracks[0].unit(first + place) for place, it in zip(came.places, came.packets)]
    checks.that("each as the file has it", all(fits))
    player.tear_down()


@serving_test(limit=90, is_alone=True)
def a_slow_disk_holds_up_its_own_film(checks: Checks) -> None:
    """Packets of another film come in time meanwhile, a file that can't be read is told of, and a stop ends."""
    server, disk, port = on_a_slow_disk(checks)
    with Witness() as witness, server, Audience(QUICK) as all:
        play_all(checks, server, all.port, STREAMS)
        began = time.monotonic()
        disk.meet("read", late=int(HELD * SECOND))
        comes_whole(checks, server, disk)
        is_left_whole(checks, server)
        checks.same("what is late is no failure", 0, figures(port)[FAILURES])
        with open(server.path / "cut.raw", "r+b") as file:
            file.truncate(0)
        cut = player_of(server, CUT)
        cut.play(0.0)
        checks.that("a file that can't be read is one", until(lambda: figures(port)[FAILURES] > 10))
        wanted = STREAMS * place_of(time.monotonic() - began - SOME)
        heard = all.heard()
        checks.that("all streams went on", len(heard.arrivals) >= wanted, (len(heard.arrivals), wanted))
        held = [it.late for it in heard.arrivals if it.late > HELD * SECOND / 2]
        checks.same("packets that a read of the slow film held up", 0, len(held))
        # Who hears all streams, and the players beside it, take a core.
        judge(Punctuality(checks, witness.stalls()), heard.arrivals, 1)
        slow, reads = player_of(server, SLOW), disk.asked("read")
        slow.play(STOPPED_AT)
        checks.that("a read is under way", until(lambda: disk.asked("read") > reads))
        stops(checks, server)
        for player in cut, slow:
            player.close()


def leaves_a_read_behind(checks: Checks, within: float, ask: Callable[[Server, int], object], **more: object) -> None:
    """Asked to end so, beside a read that its disk holds up, a server does in time."""
    server, disk, port = on_a_slow_disk(checks, **more)
    with server:
        disk.meet("read", late=int(LONG_HELD * SECOND))
        slow = player_of(server, SLOW)
        slow.play(STOPPED_AT)
        checks.that("a read is under way", until(lambda: disk.asked("read") > 0))
        ask(server, port)
        began = time.monotonic()
        checks.same("the status", 0, server.ends(LONG_HELD + 5.0))
        took = time.monotonic() - began
        checks.that(f"it ends within {within} s", took <= within, took)
        slow.close()
        told = [it.partition(b" ")[2] for it in server.process.stderr.read().splitlines()]
        # What is played is read, and what comes behind it.
        checks.same("the last lines", [STOP_LEAVES, STOP_LEAVES, b"info stopped"], told[-3:])


@serving_test(limit=60)
def a_stop_leaves_a_read_behind(checks: Checks) -> None:
    """It ends in time, and tells of which film a read is under way that its disk holds up."""
    leaves_a_read_behind(checks, STOPS_WITHIN, lambda server, _: server.process.send_signal(signal.SIGTERM))


@serving_test(limit=60)
def a_drain_leaves_a_read_behind(checks: Checks) -> None:
    """Beside a player who waits for the disk it ends after `drain` seconds, in a stop's time."""
    within = DRAINS + LOOKS + STOPS_WITHIN
    leaves_a_read_behind(checks, within, lambda _, port: asked(port, "POST", "/drain"), drain=int(DRAINS))
