"""A file of users on a disk that holds up each read of it: who is let through meanwhile, and a stop."""
import contextlib
import os
import signal
import time
from typing import Callable, Dict, Iterator, List, Tuple

from checks import Checks
from rtsp_client.connection import Connection
from rtsp_client.credentials import Credentials

from .changing_users import AT_MOST, TAKEN_UP, put, status_for
from .credentials import NAME, OTHER, OVER_TCP, PASSWORD, guarded, lines_for
from .disks import Disk
from .events import Telling
from .failing_disks import until
from .floods import seconds_to
from .runner import serving_test
from .server import HERE, Server

READ = "read of what is forgotten"
# How long each read is held up, beside requests and beside a stop, and within what each of these is over, in seconds.
HELD, AT_ONCE = 4.0, 1.0
LONG_HELD, STOPS_WITHIN = 8.0, 3.0
# After so many seconds a file that has changed has been looked at.
LOOKED_AT = 2.5


@contextlib.contextmanager
def changed_meanwhile(checks: Checks, seconds: float) -> Iterator[Tuple[Telling, Disk]]:
    """A server of one user, which reads a file of two as slowly as this."""
    server = Telling(checks, users='"users"', holds_signals=True)
    (server.path / "users").write_text(lines_for(NAME, PASSWORD))
    disk = Disk(server.path)
    server.environment = disk.environment
    with server:
        disk.meet(READ, late=int(seconds * 1000))
        put(server, lines_for(NAME, PASSWORD) + lines_for(OTHER, PASSWORD))
        checks.that("a read is under way", until(lambda: disk.asked(READ) == 1), disk.asked(READ))
        yield server, disk


def asks_of(server: Server, kept: Connection) -> Dict[str, Callable[[], int]]:
    """What is asked, each with how: on a connection of before, and on new ones."""
    session = kept.ask("SETUP", f"{server.uri}/a", OVER_TCP).header("Session") or ""
    its = ("Session", session.partition(";")[0])
    in_it = lambda method, *fields: kept.ask(method, server.uri, [its, *fields]).status or 0
    return {
        # From its beginning each time, so that no number of plays comes to the film's end.
        "a play": lambda: in_it("PLAY", ("Range", "npt=0-")),
        "its pause": lambda: in_it("PAUSE"),
        "a new connection": lambda: status_for(server, NAME),
        "who isn't taken up yet": lambda: status_for(server, OTHER),
    }


@serving_test(limit=60, is_timed=True)
def a_slow_file_of_users_keeps_nobody_waiting(checks: Checks) -> None:
    """While it is read who was let through is, and who wasn't is asked, all at once; then it is taken up."""
    with changed_meanwhile(checks, HELD) as (server, disk):
        began, waits = time.monotonic(), []  # type: Tuple[float, List[float]]
        kept = Connection(HERE, server.port, credentials=Credentials(NAME, PASSWORD))
        asks = asks_of(server, kept)
        while time.monotonic() < began + HELD / 2:
            for name, ask in asks.items():
                came: List[int] = []
                waits.append(seconds_to(lambda: came.append(ask())))
                checks.same(name, [401 if name == "who isn't taken up yet" else 200], came)
        checks.same("the read is still held up", (1, 0), (disk.asked(READ), server.told.count(TAKEN_UP)))
        checks.that(f"each is answered within {AT_ONCE} s", max(waits) < AT_ONCE, (max(waits), len(waits)))
        disk.mend()
        checks.that("then it is taken up", server.told.has(TAKEN_UP, AT_MOST), server.told.events())
        checks.same("who was added", 200, status_for(server, OTHER))
        kept.close()


def stops_in_time(checks: Checks, server: Server) -> None:
    """A stop is over in time, whatever the first thread waits for."""
    server.process.send_signal(signal.SIGTERM)
    took = seconds_to(lambda: checks.same("the status", 0, server.ends(4 * LONG_HELD)))
    checks.that(f"it ends within {STOPS_WITHIN} s", took <= STOPS_WITHIN, took)


@serving_test(limit=60)
def a_stop_leaves_a_read_of_users_behind(checks: Checks) -> None:
    """Beside a read of the file that the disk holds up a stop is over in time."""
    with changed_meanwhile(checks, LONG_HELD) as (server, _):
        stops_in_time(checks, server)


@serving_test(limit=60)
def a_stop_beside_a_pipe_of_users(checks: Checks) -> None:
    """Where a pipe to which nobody writes has come in the place of the file, users are those of before, and a stop is over."""
    with guarded(checks, holds_signals=True) as server:
        os.mkfifo(server.path / "pipe")
        (server.path / "pipe").rename(server.path / "users")
        time.sleep(LOOKED_AT)
        checks.same("who may watch", (200, 401), (status_for(server, NAME), status_for(server, OTHER)))
        stops_in_time(checks, server)
