"""A stop beside a disk that doesn't come back from a write of the journal: it is left behind, and the last lines say what
may not be there. What is in the files is a legal journal as far as it goes."""
import errno
import re
import signal
import time
from typing import Callable, List, NamedTuple

from checks import Checks
from rtsp_client.connection import Connection

from .audience import asked
from .clean_stops import deaf_readers
from .failing_disks import ends_empty, on_a_disk, until
from .histories import LATE, audited, checked, files, sessions_in, set_up
from .operator import shown_at
from .runner import serving_test
from .server import Server

# So long the disk holds a call up, in milliseconds: for all of the test.
FOR_LONG = 60_000
# Within so many seconds a stop is over, after one signal and after two.
ONCE, TWICE = 3.0, 0.3
# So many seconds plays go on beside a drain, whose end is looked for so often.
DRAINS, LOOKS = 2.0, 1.0
LEAVES = b"error the stop leaves a write to the journal's file behind"
LAST = re.compile(
    rb"rtspd: a disk holds up (journal-\d{6}\.txt), which was left behind: "
    rb"(\d+) entries that it was handed may not be there, and none that came later is"
)


class Left(NamedTuple):
    """What the last line of a server tells: the file, and how many entries may not be in it."""

    file: str
    entries: int


def is_left(checks: Checks, server: Server, within: float, *asked: signal.Signals) -> Left:
    """Asks the server to end, which it does in time, with status 4."""
    for number in asked[:-1]:
        server.process.send_signal(number)
        time.sleep(0.2)
    server.process.send_signal(asked[-1])
    return ends_with_less(checks, server, within)


def ends_with_less(checks: Checks, server: Server, within: float) -> Left:
    """The server, which was asked to end, does so in time, with status 4."""
    began = time.monotonic()
    checks.same("the status", 4, server.ends(FOR_LONG / 1000))
    took = time.monotonic() - began
    checks.that(f"it ends within {within} s", took <= within, took)
    *lines, last = server.process.stderr.read().splitlines()
    told = [it.partition(b" ")[2] for it in lines]
    checks.same("what the log tells at the end", [LEAVES, b"info stopped"], told[-2:])
    found = LAST.fullmatch(last)
    checks.that("the last line", found, last)
    return Left(found[1].decode(), int(found[2])) if found else Left("", 0)


def is_a_prefix(checks: Checks, server: Server, before: bytes, alive: List[str]) -> None:
    """What the last file has is what it had before the call that didn't come back, with whom lived then."""
    file = files(server)[-1]
    checks.same("what is in the file", before, file.read_bytes())
    status, book, complaint = audited(server, file)
    checks.same("the audit", (0, "", sorted(alive)), (status, complaint, sorted(sessions_in(book))))


def asks(talk: Connection, server: Server, session: str, *methods: str) -> None:
    for method in methods:
        talk.ask(method, server.uri, [("Session", session)])


def nobody(_: Server) -> None:
    """Nobody else is there."""


def held_up(checks: Checks, within: float, *asked: signal.Signals, readers: Callable[[Server], object] = nobody) -> None:
    """A write of what a PLAY makes doesn't come back, and what a PAUSE makes waits."""
    with on_a_disk(checks) as (server, disk):
        talk = server.connect()
        session = set_up(talk, server)
        time.sleep(LATE)
        (file,) = files(server)
        at_first = file.read_bytes()
        asks(talk, server, session, "PLAY")
        time.sleep(LATE)
        of_a_play = file.read_bytes()[len(at_first) :].count(b"\n")
        asks(talk, server, session, "PAUSE")
        time.sleep(LATE)
        before = file.read_bytes()
        disk.meet("write", 1, 1, late=FOR_LONG)
        asks(talk, server, session, "PLAY")
        checks.that("the write is under way", until(lambda: disk.asked("write") == 1))
        asks(talk, server, session, "PAUSE")
        kept = readers(server)
        left = is_left(checks, server, within, *asked)
        checks.same("what it leaves", Left(file.name, of_a_play), left)
        is_a_prefix(checks, server, before, [session])
        del kept


@serving_test(limit=90, is_timed=True)
def a_stop_leaves_a_write_behind(checks: Checks) -> None:
    """It ends in time, and tells of the file and of the entry that was handed to the disk."""
    held_up(checks, ONCE, signal.SIGTERM)


@serving_test(limit=90, is_timed=True)
def a_stop_leaves_a_write_behind_beside_deaf_readers(checks: Checks) -> None:
    """So it is where players that read nothing are waited for up to the end."""
    held_up(checks, ONCE, signal.SIGTERM, readers=deaf_readers)


@serving_test(limit=90, is_timed=True)
def a_stop_at_once_leaves_a_write_behind(checks: Checks) -> None:
    """After a second signal nothing is waited for, a disk as little as players."""
    held_up(checks, TWICE, signal.SIGTERM, signal.SIGINT, readers=deaf_readers)


def drains_held_up(checks: Checks, within: float, *methods: str) -> None:
    """A drain beside a write of what a PLAY makes that doesn't come back, after which the player asks this."""
    port, address = shown_at()
    with on_a_disk(checks, status=address, drain=int(DRAINS)) as (server, disk):
        talk = server.connect()
        session = set_up(talk, server)
        time.sleep(LATE)
        before = files(server)[-1].read_bytes()
        disk.meet("write", 1, 1, late=FOR_LONG)
        asks(talk, server, session, "PLAY")
        checks.that("the write is under way", until(lambda: disk.asked("write") == 1))
        checks.same("a drain", (200, ""), asked(port, "POST", "/drain"))
        asks(talk, server, session, *methods)
        left = ends_with_less(checks, server, within)
        checks.that("entries may be missing", left.entries > 0, left)
        is_a_prefix(checks, server, before, [session])


@serving_test(limit=90, is_timed=True)
def a_drain_leaves_a_write_behind(checks: Checks) -> None:
    """It ends in a stop's time after the last session, and where one plays on, after `drain` seconds."""
    drains_held_up(checks, LOOKS + ONCE, "TEARDOWN")
    drains_held_up(checks, DRAINS + LOOKS + ONCE)


@serving_test(limit=90, is_timed=True)
def a_stop_leaves_a_sync_behind(checks: Checks) -> None:
    """What is written and not synced, which a loss of power may take, is told of, where it is to be synced."""
    with on_a_disk(checks, journal_sync="true") as (server, disk):
        talk = server.connect()
        session = set_up(talk, server)
        time.sleep(LATE)
        (file,) = files(server)
        synced = file.read_bytes()
        disk.meet("sync", late=FOR_LONG)
        asks(talk, server, session, "PLAY", "PAUSE")
        checks.that("the sync is under way", until(lambda: disk.asked("sync") > 0))
        time.sleep(LATE)
        before = file.read_bytes()
        left = is_left(checks, server, ONCE, signal.SIGTERM)
        unsynced = before[len(synced) :].count(b"\n")
        checks.that("something is written", unsynced > 0)
        checks.same("what it leaves", Left(file.name, unsynced), left)
        is_a_prefix(checks, server, before, [session])


@serving_test(limit=60, is_timed=True)
def a_stop_waits_for_a_new_file(checks: Checks) -> None:
    """The making of a file is waited for, and then all that is left is written there."""
    with on_a_disk(checks, journal_sync="true") as (server, disk):
        talk = server.connect()
        session = set_up(talk, server)
        time.sleep(LATE)
        disk.meet("create", late=1_500)
        disk.meet("sync", 1, 1, errno.EIO)
        asks(talk, server, session, "PLAY", "PAUSE")
        checks.that("a file is being made", until(lambda: disk.asked("create") > 0))
        server.process.send_signal(signal.SIGTERM)
        checks.same("the status", 0, server.ends(10.0))
        ends_empty(checks, server, "after a file that was made late")


@serving_test(limit=60, is_timed=True)
def a_stop_waits_for_a_write_that_comes_back(checks: Checks) -> None:
    """A write that is held up for a second is waited for: all is written, and the status is 0."""
    with on_a_disk(checks) as (server, disk):
        talk = server.connect()
        session = set_up(talk, server)
        time.sleep(LATE)
        disk.meet("write", 1, 1, late=1000)
        asks(talk, server, session, "PLAY", "PAUSE")
        checks.that("the write is under way", until(lambda: disk.asked("write") == 1))
        server.process.send_signal(signal.SIGTERM)
        began = time.monotonic()
        checks.same("the status", 0, server.ends(10.0))
        took = time.monotonic() - began
        checks.that(f"it ends within {ONCE} s", took <= ONCE, took)
        ends_empty(checks, server, "after a write that came back")


@serving_test(limit=60)
def killed_while_a_file_is_begun(checks: Checks) -> None:
    """Killed at some moment about the beginning of a new file, a server leaves all that was written in one or the other."""
    for milliseconds in range(0, 32, 4):
        with on_a_disk(checks, journal_sync="true") as (server, disk):
            talk = server.connect()
            session = set_up(talk, server)
            time.sleep(LATE)
            disk.meet("create", late=10)
            disk.meet("sync", 1, 1, errno.EIO)
            talk.ask("PLAY", server.uri, [("Session", session)])
            checks.that("a new file is begun", until(lambda: disk.asked("create") > 0))
            time.sleep(milliseconds / 1000)
            server.process.kill()
            server.status = server.process.wait()
            told = [it for it in files(server) if it.stat().st_size]
            status, book, complaint = audited(server, told[-1])
            wanted = 0, "", [session]
            checks.same(f"killed {milliseconds} ms behind it: the audit", wanted, (status, complaint, sessions_in(book)))
            checked(checks, server, f"killed {milliseconds} ms behind the beginning")
