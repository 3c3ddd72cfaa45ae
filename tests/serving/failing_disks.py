"""The journal on a disk that is bad: writes that are refused, cut short or held up, files that can't be made, a limit."""
import contextlib
import errno
import os
import pathlib
import re
import resource
import shutil
import signal
import subprocess
import time
from typing import Callable, Iterator, List, Tuple

from checks import TOP, Checks, Failed
from rtsp_client.connection import Connection
from rtsp_client.messages import END, written

from .disks import Disk
from .histories import FOLDER, LATE, audited, checked, chronicled, files, sessions_in, set_up
from .runner import serving_test
from .server import TONE, TRIED, Presentation, Server

ERRORS = errno.ENOSPC, errno.EDQUOT, errno.EIO, errno.EROFS, errno.EFBIG
STUCK = b"warning the journal's file takes no more; entries wait"
AGAIN = b"info the journal is written again"
LOST = b"warning entries of the journal are in no file; a new one begins"
# So long a test waits at most for what has to happen within a period.
PATIENCE = 5.0
# Where nothing can be written this many entries fit.
SMALL = 3000
# So many PLAYs are sent before their answers are waited for.
AT_ONCE = 50
STATUS = re.compile(rb"RTSP/2\.0 (\d{3})")


@contextlib.contextmanager
def on_a_disk(
    checks: Checks, presentation: Presentation = TONE, **more: object
) -> Iterator[Tuple[Server, Disk]]:
    """A server that writes its journal to a disk of the test's."""
    server = chronicled(checks, presentation, holds_signals=True, **more)
    disk = Disk(server.path)
    server.environment = disk.environment
    with server:
        yield server, disk


def until(holds: Callable[[], bool]) -> bool:
    end = time.monotonic() + PATIENCE
    while not holds() and time.monotonic() < end:
        time.sleep(0.01)
    return holds()


def stops(checks: Checks, server: Server, within: float = 3.0) -> List[bytes]:
    """Stops the server. What the lines tell that it said of its journal."""
    server.process.send_signal(signal.SIGTERM)
    began = time.monotonic()
    checks.same("the status", 0, server.ends(within + 10))
    took = time.monotonic() - began
    checks.that(f"it stops within {within} s", took <= within, took)
    told = [it.partition(b" ")[2] for it in server.process.stderr.read().splitlines()]
    return [it for it in told if b"journal" in it or b"entries" in it]


def ends_empty(checks: Checks, server: Server, where: str) -> None:
    """The last file has the book of a server that has ended."""
    status, book, complaint = audited(server, files(server)[-1])
    checks.same(f"{where}: the audit after the end", (0, "", []), (status, complaint, sessions_in(book)))
    checks.that(f"{where}: nothing is held", "\nrate 0 " in f"\n{book}", book)


def moves(server: Server, session: str, count: int) -> List[int]:
    """So many PLAYs and PAUSEs in turn, an entry each, of which many come at once. Their statuses."""
    # From the beginning, since each PLAY has its first unit sent, and soon all would be.
    play = written(f"PLAY {server.uri} RTSP/2.0", [("CSeq", "1"), ("Session", session), ("Range", "npt=0-")])
    pause = written(f"PAUSE {server.uri} RTSP/2.0", [("CSeq", "1"), ("Session", session)])
    statuses: List[int] = []
    # Frames go to the connection that set the session up.
    with server.socket() as talk:
        while len(statuses) < count:
            talk.sendall((play + pause) * AT_ONCE)
            came = b""
            while came.count(END) < 2 * AT_ONCE and (piece := talk.recv(1 << 16)):
                came += piece
            statuses += [int(it[1]) for it in STATUS.finditer(came)]
            if came.count(END) < 2 * AT_ONCE:
                raise Failed("the server hung up")
    return statuses


@serving_test(limit=60)
def each_write_refused_once(checks: Checks) -> None:
    """By each error at each step of a conversation: the step is answered, told of, and written a period later."""
    with on_a_disk(checks) as (server, disk):
        talk, told = server.connect(), []  # type: Tuple[Connection, List[bytes]]
        (file,) = files(server)
        for error in ERRORS:
            session = set_up(talk, server)
            until(lambda: session.encode() in file.read_bytes())
            for method in "PLAY", "PAUSE", "TEARDOWN":
                length = file.stat().st_size
                disk.meet("write", 1, 1, error)
                status = talk.ask(method, server.uri, [("Session", session)]).status
                checks.same(f"{method} beside error {error}", 200, status)
                came = until(lambda: disk.asked("write") > 1 and file.stat().st_size > length)
                checks.that(f"{method} beside error {error} is written", came)
                told += [STUCK, AGAIN]
            status, book, complaint = audited(server, file)
            checks.same(f"error {error}: the audit", (0, "", []), (status, complaint, sessions_in(book)))
        checked(checks, server, "each write refused")
        checks.same("what it tells", told, stops(checks, server))


@serving_test(limit=60)
def writes_cut_short(checks: Checks) -> None:
    """A write takes a few bytes, and the next ones nothing: a line is cut. Once there is room the text goes on there."""
    with on_a_disk(checks) as (server, disk):
        talk = server.connect()
        (file,) = files(server)
        told = []  # type: List[bytes]
        for most in 1, 2, 7, 33, 50, 51, 52, 53, 100:
            before = file.read_bytes()
            disk.meet("write", 1, error=errno.ENOSPC, most=most)
            session = set_up(talk, server)
            checks.that(f"{most} bytes: they come", until(lambda: disk.asked("write") > 1))
            length = file.stat().st_size - len(before)
            checks.that(f"{most} bytes: no more do", 0 < length <= most, length)
            status, book, complaint = audited(server, file)
            checks.same(f"{most} bytes: the audit of the whole lines", (0, ""), (status, complaint))
            checked(checks, server, f"{most} bytes")
            disk.mend()
            is_whole = until(lambda: b" add " in file.read_bytes()[len(before) :])
            checks.that(f"{most} bytes: then all is written", is_whole)
            checks.that(f"{most} bytes: it goes on", file.read_bytes().startswith(before))
            talk.ask("TEARDOWN", server.uri, [("Session", session)])
            until(lambda: b" close " in file.read_bytes()[len(before) :])
            status, book, complaint = audited(server, file)
            checks.same(f"{most} bytes: the audit", (0, "", []), (status, complaint, sessions_in(book)))
            told += [STUCK, AGAIN]
        disk.meet("write", most=1)
        for _ in range(5):
            talk.ask("TEARDOWN", server.uri, [("Session", set_up(talk, server))])
        time.sleep(LATE)
        checked(checks, server, "byte by byte")
        checks.same("what it tells", told, stops(checks, server))
        ends_empty(checks, server, "byte by byte")


@serving_test(limit=90)
def a_disk_that_stays_full(checks: Checks) -> None:
    """The server serves on while its journal has room, then refuses what grows, gives back always, and ends in time."""
    with on_a_disk(checks, journal=SMALL) as (server, disk):
        talk = server.connect()
        first, second = set_up(talk, server), set_up(talk, server)
        time.sleep(LATE)
        disk.meet("write", error=errno.ENOSPC)
        # Some of what is handed out once waits as text, beside the journal.
        statuses = moves(server, first, 2 * SMALL + 500)
        served = statuses.index(503)
        checks.same("before the first 503 all are served", {200}, {*statuses[:served]})
        checks.that("it serves on from the room of the journal", served > SMALL * 0.9, served)
        # A PAUSE of a session that doesn't play makes no entry.
        checks.same("then each PLAY is refused", {503}, {*statuses[served + served % 2 :: 2]})
        answer = talk.ask("SETUP", f"{server.uri}/a", [("Transport", "RTP/AVP/TCP;unicast;interleaved=4-5")])
        checks.same("a new session", 503, answer.status)
        checks.same("OPTIONS", 200, talk.ask("OPTIONS", "*").status)
        checks.same("TEARDOWN", 200, talk.ask("TEARDOWN", server.uri, [("Session", first)]).status)
        status, book, complaint = audited(server, files(server)[-1])
        checks.same("the file, as it was", (0, "", {first, second}), (status, complaint, {*sessions_in(book)}))
        told = [it for it in stops(checks, server) if b"warning the journal is full" not in it]
        checks.same("what it tells besides", [STUCK], told)


@serving_test(limit=90)
def a_full_disk_where_entries_may_be_lost(checks: Checks) -> None:
    """Nobody is refused; once there is room a new file begins, and entries are missing before it."""
    with on_a_disk(checks, journal=SMALL, journal_when_full='"lose"') as (server, disk):
        talk = server.connect()
        first, second = set_up(talk, server), set_up(talk, server)
        time.sleep(LATE)
        disk.meet("write", error=errno.ENOSPC)
        checks.same("PLAY and PAUSE beside a full disk", {200}, {*moves(server, first, SMALL + 1000)})
        talk.ask("TEARDOWN", server.uri, [("Session", second)])
        disk.mend()
        checks.that("a new file begins", until(lambda: len(files(server)) == 2))
        third = set_up(talk, server)
        time.sleep(LATE)
        status, book, complaint = audited(server, files(server)[-1])
        checks.same("the new file", (0, "", {first, third}), (status, complaint, {*sessions_in(book)}))
        done = subprocess.run([TOP / "check-journals", server.path / FOLDER], capture_output=True, text=True)
        checks.same("it is seen that entries are missing", 1, done.returncode)
        checks.that("it is said where", "journal-000002.txt: whole" in done.stdout and "MISSING" in done.stdout, done)
        checks.same("what it tells", [STUCK, LOST, AGAIN], stops(checks, server))
        ends_empty(checks, server, "after loss")


@serving_test(limit=60)
def a_file_that_is_not_safe(checks: Checks) -> None:
    """A sync that fails makes its file doubtful: a new one begins, as soon as one can be made, and goes on from it."""
    with on_a_disk(checks, journal_sync="true") as (server, disk):
        talk = server.connect()
        session = set_up(talk, server)
        time.sleep(LATE)
        disk.meet("create", error=errno.EROFS)
        disk.meet("sync", 1, 1, errno.EIO)
        talk.ask("PLAY", server.uri, [("Session", session)])
        checks.that("a new one is tried again and again", until(lambda: disk.asked("create") > 3))
        checks.same("the old one goes on", 1, len(files(server)))
        talk.ask("PAUSE", server.uri, [("Session", session)])
        disk.mend()
        checks.that("then there is a new one", until(lambda: len(files(server)) == 2))
        talk.ask("PLAY", server.uri, [("Session", session)])
        time.sleep(LATE)
        for file in files(server):
            status, book, complaint = audited(server, file)
            checks.same(f"the audit of {file.name}", (0, "", [session]), (status, complaint, sessions_in(book)))
        checked(checks, server, "a file that isn't safe")
        checks.same("what it tells", [STUCK, AGAIN], stops(checks, server))
        ends_empty(checks, server, "a file that isn't safe")


@serving_test(limit=60)
def a_limit_of_files(checks: Checks) -> None:
    """At a limit of the size of files the server lives on, and goes on writing once that is lifted."""
    with on_a_disk(checks) as (server, _):
        talk = server.connect()
        session = set_up(talk, server)
        time.sleep(LATE)
        _, hard = resource.prlimit(server.process.pid, resource.RLIMIT_FSIZE)
        resource.prlimit(server.process.pid, resource.RLIMIT_FSIZE, (4096, hard))
        checks.same("PLAY and PAUSE", {200}, {*moves(server, session, 400)})
        time.sleep(LATE)
        (file,) = files(server)
        checks.same("the file's size", 4096, file.stat().st_size)
        checked(checks, server, "at the limit")
        checks.same("the server lives", None, server.process.poll())
        resource.prlimit(server.process.pid, resource.RLIMIT_FSIZE, (hard, hard))
        checks.that("then it goes on", until(lambda: file.stat().st_size > 8192))
        checked(checks, server, "without a limit")
        checks.same("what it tells", [STUCK, AGAIN], stops(checks, server))
        ends_empty(checks, server, "without a limit")


class Elsewhere(Server):
    """A server that isn't root's, which may write to no folder of root's."""

    def command(self) -> List[str]:
        drops = ["setpriv", "--reuid=65534", "--regid=65534", "--clear-groups"] if os.geteuid() == 0 else []
        return [*drops, *super().command()]


def refused(checks: Checks, kind: type, make: Callable[[pathlib.Path], object], why: bytes) -> None:
    """That a server doesn't start over what is made for its journal, and says why."""
    server = kind(checks, journal_files=f'"{FOLDER}"')
    server.path.chmod(0o755)
    server.write_media()
    make(server.path / FOLDER)
    with server.start() as starting:
        said, complaint = starting.communicate(timeout=10)
    lines = complaint.splitlines()
    checks.same(f"{why!r}: status and output", (4, b""), (starting.returncode, said))
    checks.same(f"{why!r}: the lines", [b"rtspd: read or write failed", b"rtspd: history: " + why], lines)
    server.folder.cleanup()


@serving_test(limit=30)
def folders_that_are_none(checks: Checks) -> None:
    """What isn't there, is a file, or is another one's is refused at the start."""
    refused(checks, Server, lambda _: None, b"No such file or directory (os error 2)")
    refused(checks, Server, lambda path: path.write_text("no folder\n"), b"Not a directory (os error 20)")
    if os.geteuid() or subprocess.run(["setpriv", "--reuid=65534", str(TRIED), "stdio"], input=b"").returncode == 0:
        refused(checks, Elsewhere, lambda path: path.mkdir(0o500), b"Permission denied (os error 13)")
    else:
        checks.skip("a folder of another user", "the program can't be run as another one here")


@serving_test(limit=60)
def a_folder_that_becomes_read_only(checks: Checks) -> None:
    """The file goes on, since it is open; a new one is made once the folder may be written to again."""
    server = Elsewhere(checks, journal_files=f'"{FOLDER}"', journal_period=50, journal_sync="true", holds_signals=True)
    folder = server.path / FOLDER
    server.path.chmod(0o755)
    folder.mkdir(0o700)
    disk = Disk(server.path)
    server.environment = disk.environment
    if os.geteuid() == 0:
        if subprocess.run(["setpriv", "--reuid=65534", str(TRIED), "stdio"], input=b"").returncode:
            checks.skip("a folder that becomes read-only", "the program can't be run as another user here")
            server.folder.cleanup()
            return
        os.chown(folder, 65534, 65534)
        (server.path / "disk").chmod(0o666)
    with server:
        talk = server.connect()
        session = set_up(talk, server)
        folder.chmod(0o500)
        disk.meet("sync", 1, 1, errno.EIO)
        talk.ask("PLAY", server.uri, [("Session", session)])
        checks.that("a new file is tried", until(lambda: disk.asked("create") > 3))
        talk.ask("PAUSE", server.uri, [("Session", session)])
        time.sleep(LATE)
        status, book, complaint = audited(server, files(server)[-1])
        checks.same("the old one goes on", (0, "", [session]), (status, complaint, sessions_in(book)))
        checks.that("up to now", " ready:" in book, book)
        folder.chmod(0o700)
        checks.that("then there is a new one", until(lambda: len(files(server)) == 2))
        checked(checks, server, "a folder that became read-only")
        checks.same("what it tells", [STUCK, AGAIN], stops(checks, server))


@serving_test(limit=60)
def a_time_of_day_that_jumps(checks: Checks) -> None:
    """An hour forward and two back: nobody's session ends by it, and the journal is written as before."""
    with on_a_disk(checks) as (server, disk):
        talk = server.connect()
        alive = [set_up(talk, server) for _ in range(3)]
        for hours in 1, -1:
            disk.meet("time of day", 0, 0, late=hours * 3_600_000)
            alive.append(set_up(talk, server))
            time.sleep(2 * LATE)
            status, book, complaint = audited(server, files(server)[-1])
            wanted = 0, "", sorted(alive)
            checks.same(f"{hours} hours: the audit", wanted, (status, complaint, sorted(sessions_in(book))))
        checked(checks, server, "a time of day that jumps")
        checks.same("what it tells", [], stops(checks, server))


@serving_test(limit=60)
def two_servers_over_a_folder(checks: Checks) -> None:
    """Both at a time: each has files of its own, and what each did is told by itself."""
    with chronicled(checks, holds_signals=True) as one:
        folder = f'"{one.path / FOLDER}"'
        with Server(checks, journal_files=folder, journal_period=50, timeout=60, holds_signals=True) as other:
            talks = one.connect(), other.connect()
            alive = [set_up(talk, server) for talk, server in zip(talks, (one, other))]
            time.sleep(LATE)
            names = [it.name for it in files(one)]
            checks.same("their files", ["journal-000001.txt", "journal-000002.txt"], names)
            for file, session in zip(files(one), alive):
                status, book, complaint = audited(one, file)
                checks.same(f"the audit of {file.name}", (0, "", [session]), (status, complaint, sessions_in(book)))
            checked(checks, one, "two servers")
            stops(checks, other)
        stops(checks, one)
