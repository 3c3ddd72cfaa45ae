"""The lines of the log that tell what happens to the server itself, each where it happens."""
import contextlib
import errno
import os
import pathlib
import re
import shutil
import signal
import socket
import subprocess
import time
from typing import Callable, Dict, Iterator, List

from checks import Checks
from rtsp_client.connection import Refused
from rtsp_client.player import Way

from .faults import FOR_EVER, Faults
from .operator import figures, shown_at
from .plays import set_up_all
from .runner import serving_test
from .server import HERE, Presentation, Server, Track, lease, leases
from .shares import ONE, ONE_TRACK, Talk

SOON = 15.0
# A second has so many lines of events at most, but for those of its start and stop.
A_SECOND = 50
# The least files that aren't held in memory, by which a pacer reads each unit anew.
HELD_LIMIT, OCTETS = 256 << 20, 1400
# With a session, its track and a play there is no room for more.
SHORT_JOURNAL = 24


class Told:
    """A server's standard error, which is read while it runs: a file in place of a pipe."""

    def __init__(self, path: pathlib.Path) -> None:
        self.path = path

    def lines(self) -> List[bytes]:
        return self.path.read_bytes().splitlines() if self.path.exists() else []

    def events(self) -> List[bytes]:
        """What each line tells, without its moment."""
        return [it.partition(b" ")[2] for it in self.lines() if b" access " not in it]

    def count(self, wanted: bytes) -> int:
        """How often an event is told."""
        return sum(bool(re.fullmatch(wanted, it)) for it in self.events())

    def has_more(self, wanted: bytes, before: int, within: float = 0.5) -> bool:
        """Whether an event is told more often than before, or comes to be."""
        until = time.monotonic() + within
        while self.count(wanted) <= before and time.monotonic() < until:
            time.sleep(0.02)
        return self.count(wanted) > before

    def has(self, wanted: bytes, within: float = SOON) -> bool:
        """Whether an event is told, or comes to be."""
        until = time.monotonic() + within
        while not any(re.fullmatch(wanted, it) for it in self.events()) and time.monotonic() < until:
            time.sleep(0.05)
        return any(re.fullmatch(wanted, it) for it in self.events())


class Telling(Server):
    """A server whose standard error goes to a file."""

    def command(self) -> List[str]:
        return ["bash", "-c", 'exec "$0" "$@" 2> errors', *super().command()]

    @property
    def told(self) -> Told:
        return Told(self.path / "errors")


def is_told(checks: Checks, server: Telling, what: str, wanted: bytes, within: float = SOON) -> None:
    checks.that(what, server.told.has(wanted, within), server.told.events())


def stops(checks: Checks, server: Server) -> None:
    server.process.send_signal(signal.SIGTERM)
    checks.same("the status", 0, server.ends(8))


@serving_test(limit=30)
def start_and_stop_are_told(checks: Checks) -> None:
    """The first line and the last two, each with a moment of RFC 3339 in UTC, in order."""
    with Telling(checks, holds_signals=True) as server:
        is_told(checks, server, "its start", rb"info started with 1 presentations")
        stops(checks, server)
        wanted = [
            b"info started with 1 presentations",
            b"info a signal came: no more connections are let in",
            b"info stopped",
        ]
        checks.same("all that is told", wanted, server.told.events())
        stamps = [it.partition(b" ")[0] for it in server.told.lines()]
        whole = re.compile(rb"\d{4}-\d\d-\d\dT\d\d:\d\d:\d\d\.\d{3}Z")
        checks.that("each has its moment", all(whole.fullmatch(it) for it in stamps), stamps)
        checks.same("in order", sorted(stamps), stamps)
        today = time.strftime("%Y-%m-%d", time.gmtime()).encode()
        checks.that("the day is today's, in UTC", stamps[-1].startswith(today), stamps)


def session_numbers(server: Server, ids: List[str]) -> List[int]:
    """The numbers of sessions, as the journal's files name them, once they are there."""
    found: Dict[str, int] = {}
    until = time.monotonic() + SOON
    while not set(ids) <= set(found) and time.monotonic() < until:
        time.sleep(0.05)
        text = "".join(it.read_text() for it in sorted(server.path.glob("journals/journal-*.txt")))
        found = {it[2]: int(it[1]) for it in re.finditer(r"(?m)^\d+ open (\d+) ([0-9a-f]{32}) ", text)}
    return [found[it] for it in ids]


@serving_test(limit=40)
def a_session_that_expires_is_told(checks: Checks) -> None:
    """Each by its number in the journal; not one that its player ends, nor those that a stop ends."""
    server = Telling(checks, timeout=6, journal_files='"journals"', journal_period=50, holds_signals=True)
    (server.path / "journals").mkdir()
    with server:
        talk = server.connect()
        left = [it.session for it in leases(talk, f"{server.uri}/a", 2)]
        ended = lease(talk, f"{server.uri}/a")
        talk.ask("TEARDOWN", server.uri, [("Session", ended.session)])
        is_told(checks, server, "the sessions expire", rb"info session \d+:[0-9a-f]{8} of 127\.0\.0\.1 ended by expiry: .*", 20.0)
        time.sleep(1.5)
        last = lease(talk, f"{server.uri}/a")
        numbers = session_numbers(server, [*left, last.session])
        stops(checks, server)
        talk.close()
        told = [it for it in server.told.events() if b" ended by expiry: " in it]
        found = [int(re.match(rb"info session (\d+):", it)[1]) for it in told]
        checks.same("those that expired, the least first", numbers[:2], found)


@serving_test(limit=30)
def a_spent_share_is_told(checks: Checks) -> None:
    """With the address: where it has as many sessions, and where it has as many connections, as it may have."""
    line = rb"warning 127\.0\.0\.2 has its whole share"
    with Telling(checks, sessions_per_address=1) as server:
        talk = Talk(server, ONE)
        checks.same("a session of its share", 1, len(leases(talk, f"{server.uri}/a", 1)))
        checks.that("nothing is told of it", not server.told.has(line, 0.5))
        checks.same("beyond it", None, lease(talk, f"{server.uri}/a"))
        is_told(checks, server, "sessions", line)
        talk.close()
    port, address = shown_at()
    with Telling(checks, connections_per_address=1, status=address) as server:
        held, more = Talk(server, ONE), Talk(server, ONE)
        is_told(checks, server, "connections", line)
        checks.same("it is counted", 1, figures(port)["rtspd_connections_refused_total"])
        held.close()
        more.close()


@serving_test(limit=30)
def a_flood_is_told_with_measure(checks: Checks) -> None:
    """A thousand connections beyond a share have some lines a second and a count; the stop is told beside them."""
    with Telling(checks, connections_per_address=1, holds_signals=True) as server:
        held = Talk(server, ONE)
        began = time.monotonic()
        for _ in range(1000):
            socket.create_connection((HERE, server.port), source_address=(ONE, 0)).close()
        took = time.monotonic() - began
        stops(checks, server)
        held.close()
        events = server.told.events()
        told = sum(it.endswith(b"has its whole share") for it in events)
        checks.that("some are told", A_SECOND <= told <= A_SECOND * (took + 3), (told, took))
        dropped = sum(int(it[1]) for it in re.finditer(rb"warning (\d+) lines were dropped", b"\n".join(events)))
        checks.that("the others are counted, unless nothing came after them", dropped <= 1000 - told, (told, dropped))
        checks.same("the stop is told", b"info stopped", events[-1])


@serving_test(limit=30)
def too_many_connections_are_told(checks: Checks) -> None:
    """Where as many are open as there are descriptors for."""
    with Telling(checks, descriptors=64) as server:
        talks = [server.socket() for _ in range(80)]
        is_told(checks, server, "it", rb"warning as many connections are open as may be: one was closed at once")
        for talk in talks:
            talk.close()


@contextlib.contextmanager
def refusing(checks: Checks, **settings: int) -> Iterator[Telling]:
    """A server that can be refused what it calls for."""
    server = Telling(checks, **settings)
    server.faults = Faults(server.path)
    server.environment = server.faults.environment
    with server:
        yield server


@serving_test(limit=30)
def a_missing_descriptor_is_told(checks: Checks) -> None:
    """Where the system has none for a connection, which is closed at once."""
    # One lane: of several that the system wakes for a connection another one would get it.
    with refusing(checks, workers=1) as server:
        server.answers("before")
        server.faults.refuse("accept", 1, 1, errno.EMFILE)
        talk = server.socket()
        line = rb"warning no descriptor is left: a connection was closed at once"
        is_told(checks, server, "it", line)
        server.faults.stop()
        talk.close()
        server.answers("after")


@serving_test(limit=40)
def a_missing_thread_is_told(checks: Checks) -> None:
    """A lane that gets no thread, where another serves; and a sweeper, without which the server ends."""
    threads = max(len(os.sched_getaffinity(0)) // 2, 1) + 6
    for refused, serves in (threads + 2, True), (threads - 1, False):
        server = Telling(checks, workers=2)
        server.faults = Faults(server.path)
        server.environment = server.faults.environment
        server.faults.refuse("thread", refused, FOR_EVER, errno.EAGAIN)
        server.write_media()
        with server.start() as running:
            is_told(checks, server, f"without thread {refused}", rb"error a thread can't be made")
            if serves:
                running.stdout.readline()
                server.answers("it serves")
                running.kill()
            else:
                checks.same("its status", 4, running.wait(timeout=10))
        server.folder.cleanup()


@serving_test(limit=30)
def a_full_journal_is_told(checks: Checks) -> None:
    """Where a request is refused for want of its room; not where it is refused for want of ports."""
    line = rb"warning the journal is full: a request was refused"
    with Telling(checks, ONE_TRACK, pairs=1) as server:
        talk = server.connect()
        checks.same("as many sessions as ports", 1, len(leases(talk, f"{server.uri}/a", 3)))
        checks.that("nothing is told", not server.told.has(line, 0.5), server.told.events())
        talk.close()
    with Telling(checks, ONE_TRACK, journal=SHORT_JOURNAL, sessions=8) as server:
        talk = server.connect()
        made = leases(talk, f"{server.uri}/a", 8)
        checks.that("fewer sessions than there may be", 0 < len(made) < 8, len(made))
        is_told(checks, server, "it", line)
        talk.close()


@serving_test(limit=40)
def missing_memory_is_told(checks: Checks) -> None:
    """A connection that can't be taken in, a request that ends its connection, and one that is answered 500."""
    with refusing(checks) as server:
        line = rb"error out of memory"

        def is_told_of(act: Callable[[], object]) -> bool:
            """Without memory for the line itself it is dropped: then once more."""
            for _ in range(10):
                before = server.told.count(line)
                with contextlib.suppress(Refused, OSError):
                    act()
                server.faults.stop()
                if server.told.has_more(line, before):
                    return True
            return False

        def not_taken_in() -> None:
            server.faults.refuse("memory", 1)
            with server.socket() as talk:
                talk.recv(1)

        def described(first: int, last: int) -> int:
            """The status, while these allocations are refused."""
            with contextlib.closing(server.connect()) as talk:
                talk.ask("OPTIONS", server.uri)
                server.faults.refuse("memory", first, last)
                return talk.ask("DESCRIBE", server.uri).status

        checks.that("a connection", is_told_of(not_taken_in), server.told.events())
        checks.that("no memory at all", is_told_of(lambda: described(1, FOR_EVER)), server.told.events())
        before, status = 0, 0
        for number in range(1, 60):
            before = server.told.count(line)
            with contextlib.suppress(Refused, OSError):
                status = described(number, number)
            server.faults.stop()
            if status == 500:
                break
        checks.same("one allocation", 500, status)
        checks.that("it is told", server.told.has_more(line, before), server.told.events())
        server.answers("then it has memory again")


@serving_test(limit=60)
def media_that_cannot_be_read_is_told(checks: Checks) -> None:
    """A file that is cut while it is played: the track by its place, once a second at most, and a count."""
    port, address = shown_at()
    units = HELD_LIMIT // OCTETS + 1
    cut = Presentation("cut", units, 20, (Track("a", octets=OCTETS),))
    server = Telling(checks, cut, uplink=2 * cut.whole_rate, status=address)
    # Files with holes, which take no room on the disk.
    with open(server.path / "a.raw", "wb") as file:
        file.truncate(units * OCTETS)
    with server:
        player = server.player(Way.UDP)
        set_up_all(player)
        player.play(0.0)
        player.listen(2.0, lambda: len(player.streams[0].reception.packets) > 5)
        with open(server.path / "a.raw", "r+b") as file:
            file.truncate(0)
        is_told(checks, server, "it", rb"error the file of track 0 of presentation 0 can't be read")
        time.sleep(2.0)
        told = sum(b"can't be read" in it for it in server.told.events())
        checks.that("once a second at most", told <= 4, told)
        checks.that("it is counted", figures(port)["rtspd_media_failures_total"] > 10)
        player.close()


@serving_test(limit=30)
def a_hidden_account_is_told(checks: Checks) -> None:
    """Where /proc can't be read: said once; a SIGTERM that is held back does nothing, and the server goes on."""
    hidden = ["unshare", "--mount", "bash", "-c", 'mount -t tmpfs none /proc && exec "$0" "$@"']
    if not shutil.which("unshare") or subprocess.run([*hidden, "true"], stderr=subprocess.DEVNULL).returncode:
        checks.skip("a server without /proc", "/proc can't be hidden here")
        return

    class Hidden(Telling):
        def command(self) -> List[str]:
            return [*hidden, *super().command()]

    with Hidden(checks, holds_signals=True) as server:
        line = rb"warning /proc/self/status can't be read: a signal that is held back won't be seen"
        is_told(checks, server, "it", line)
        server.process.send_signal(signal.SIGTERM)
        time.sleep(1.0)
        server.answers("behind a SIGTERM")
        checks.same("said once", 1, sum(bool(re.fullmatch(line, it)) for it in server.told.events()))
