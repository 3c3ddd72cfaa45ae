"""A changed configuration on a disk that holds up each read, or media that are to be held in memory, or the opening of
new media: who plays meanwhile, and a stop."""
import concurrent.futures
import contextlib
import signal
import time
from typing import Iterator, List, Tuple

from checks import Checks
from rtsp_client.player import Way

from .clean_stops import is_hung_up
from .disks import Disk
from .events import is_told
from .failing_disks import until
from .floods import seconds_to
from .growth import SHORT, Growing, Play, comes_to, plays_whole
from .histories import FOLDER, audited, files, sessions_in, set_up
from .plays import set_up_all
from .runner import serving_test
from .server import TONE, Presentation, Track
from .slow_users import AT_ONCE, HELD, LONG_HELD, READ, STOPS_WITHIN, stops_in_time

# Films whose files are read slowly, and opened slowly.
SLOW = Presentation("slow", 100, 20, (Track("forgotten"),))
LATE = Presentation("late", 100, 20, (Track("late"),))
OPENING = "opening"


@contextlib.contextmanager
def changed_meanwhile(checks: Checks, film: Presentation, kind: str, first: int, seconds: float) -> Iterator[Tuple[Growing, Disk]]:
    """A server of a film, of whose change to this one too the call of this kind and number, and each after it, is so slow.
    It writes its journal to files."""
    server = Growing(checks, TONE, holds_signals=True, journal_files=f'"{FOLDER}"', journal_period=50)
    (server.path / FOLDER).mkdir()
    disk = Disk(server.path)
    server.environment = disk.environment
    server.put_media(film)
    with server:
        disk.meet(kind, first, late=int(seconds * 1000))
        server.put(server.text_of(TONE, film))
        checks.that(f"a call is under way: {kind}", until(lambda: disk.asked(kind) >= first), disk.asked(kind))
        yield server, disk


def is_written(checks: Checks, server: Growing) -> None:
    """A session that is set up meanwhile comes into the journal's file."""
    talk = server.connect()
    session = set_up(talk, server)
    checks.that("the journal is written", until(lambda: session.encode() in files(server)[-1].read_bytes()), session)
    talk.ask("TEARDOWN", server.uri, [("Session", session)])
    talk.close()


def nobody_waits(checks: Checks, film: Presentation, kind: str, first: int) -> None:
    """Meanwhile everybody is answered at once, and who plays gets each packet; then it is taken up."""
    with changed_meanwhile(checks, film, kind, first, LONG_HELD) as (server, disk):
        with concurrent.futures.ThreadPoolExecutor(2) as pool:
            plays = [Play(pool, server.player(way), 20) for way in (Way.TCP, Way.UDP)]
            began, waits = time.monotonic(), []  # type: Tuple[float, List[float]]
            while time.monotonic() < began + HELD / 2:
                came: List[int] = []
                waits.append(seconds_to(lambda: came.append(server.described(film))))
                checks.same("it isn't there yet", [404], came)
                waits.append(seconds_to(lambda: came.append(server.described(TONE))))
                checks.same("what is there", 200, came[-1])
                time.sleep(0.05)
            checks.that(f"each is answered within {AT_ONCE} s", max(waits) < AT_ONCE, (max(waits), len(waits)))
            is_written(checks, server)
            checks.same("it is still held up", 0, server.number())
            disk.mend()
            checks.same("then it is taken up", 200, comes_to(server, film, 200))
            for play in plays:
                play.fits(checks, f"beside it over {play.player.way.value}", TONE.tracks, TONE.units)
        plays_whole(checks, server, film, Way.TCP)


@serving_test(limit=60, is_timed=True)
def a_slow_configuration_keeps_nobody_waiting(checks: Checks) -> None:
    """A disk that holds up the configuration."""
    nobody_waits(checks, SHORT, READ, 1)


@serving_test(limit=60, is_timed=True)
def slow_media_of_a_change_keep_nobody_waiting(checks: Checks) -> None:
    """A disk that holds up what is to be held in memory."""
    nobody_waits(checks, SLOW, READ, 3)


@serving_test(limit=60, is_timed=True)
def a_slow_opening_keeps_nobody_waiting(checks: Checks) -> None:
    """A disk that holds up the opening of new media."""
    nobody_waits(checks, LATE, OPENING, 1)


@serving_test(limit=60)
def a_stop_leaves_a_read_of_the_configuration_behind(checks: Checks) -> None:
    """Beside a read of the configuration that the disk holds up a stop is over in time."""
    with changed_meanwhile(checks, SHORT, READ, 1, LONG_HELD) as (server, _):
        stops_in_time(checks, server)


@serving_test(limit=60)
def a_stop_leaves_a_read_of_new_media_behind(checks: Checks) -> None:
    """So it is beside a read of what is to be held in memory, with a play under way."""
    with changed_meanwhile(checks, SLOW, READ, 3, LONG_HELD) as (server, _):
        player = server.player(Way.UDP)
        set_up_all(player)
        player.play(0.0)
        stops_in_time(checks, server)


def stops_once_opened(checks: Checks, *asked: signal.Signals) -> None:
    """Beside an opening that the disk holds up all are hung up in time; the stop is over once that has come back, with a
    journal in which nobody lives."""
    with changed_meanwhile(checks, LATE, OPENING, 1, LONG_HELD) as (server, _):
        began, talk = time.monotonic(), server.socket()
        player = server.player(Way.UDP)
        set_up_all(player)
        player.play(0.0)
        for number in asked:
            server.process.send_signal(number)
            time.sleep(0.2)
        hung_up = seconds_to(lambda: checks.that("who is connected is hung up", is_hung_up(talk)))
        checks.that(f"within {STOPS_WITHIN} s", hung_up <= STOPS_WITHIN, hung_up)
        checks.same("it hasn't ended", None, server.process.poll())
        checks.same("the status", 0, server.ends(2 * LONG_HELD))
        took = time.monotonic() - began
        checks.that("it ends once the file is open", LONG_HELD - 2 <= took <= LONG_HELD + 2, took)
        is_told(checks, server, "its end", rb"info stopped")
        status, book, complaint = audited(server, files(server)[-1])
        checks.same("the audit", (0, "", []), (status, complaint, sessions_in(book)))


@serving_test(limit=60)
def a_stop_waits_for_an_opening(checks: Checks) -> None:
    """By one signal."""
    stops_once_opened(checks, signal.SIGTERM)


@serving_test(limit=60)
def two_signals_wait_for_an_opening(checks: Checks) -> None:
    """By a second one too."""
    stops_once_opened(checks, signal.SIGTERM, signal.SIGTERM)
