"""A server whose standard error is a full pipe that nobody reads: it loses lines, and nothing else."""
import contextlib
import errno
import os
import subprocess
import time
from typing import Iterator

from checks import Checks

from .disks import Disk
from .failing_disks import ends_empty, moves, on_a_disk, stops, until
from .faults import FOR_EVER, Faults
from .histories import LATE, audited, checked, files, sessions_in, set_up
from .operator import figures, shown_at
from .runner import serving_test
from .server import Server

# So it is a line of the log to whoever reads the pipe at last.
FILLING = b"2026-11-29T00:00:00.000Z info filling\n"
DROPPED = "rtspd_log_lines_dropped_total"
# More lines of requests than wait in the log's queue.
REQUESTS = 12_000


def fill(server: Server) -> None:
    """Fills the pipe that is the server's standard error, until it takes no line more."""
    pipe = os.open(f"/proc/{server.process.pid}/fd/2", os.O_WRONLY | os.O_NONBLOCK)
    with contextlib.suppress(BlockingIOError):
        while True:
            os.write(pipe, FILLING)
    os.close(pipe)


def refuses_for_a_moment(checks: Checks, server: Server, disk: Disk, session: str) -> None:
    """A disk that is full for some writes: PLAYs are answered meanwhile, and then all is written."""
    (file,) = files(server)
    disk.meet("write", 1, 5, errno.ENOSPC)
    length = file.stat().st_size
    statuses = moves(server, session, 200)
    came = until(lambda: disk.asked("write") > 5 and file.stat().st_size > length)
    checks.that("the journal goes on", came, (disk.asked("write"), length))
    statuses += moves(server, session, 200)
    checks.same("PLAYs and PAUSEs", {200}, {*statuses})
    time.sleep(2 * LATE)
    status, book, complaint = audited(server, file)
    checks.same("the audit", (0, "", [session]), (status, complaint, sessions_in(book)))
    checked(checks, server, "beside a full pipe")


@serving_test(limit=60)
def errors_that_nobody_reads(checks: Checks) -> None:
    """Beside a disk that is full for a moment: the journal goes on, PLAYs are answered, and the server stops in time."""
    with on_a_disk(checks) as (server, disk):
        talk = server.connect()
        session = set_up(talk, server)
        time.sleep(LATE)
        fill(server)
        refuses_for_a_moment(checks, server, disk, session)
        checks.same("what it tells", [], stops(checks, server))
        ends_empty(checks, server, "beside a full pipe")


@serving_test(limit=90)
def lines_that_nobody_reads(checks: Checks) -> None:
    """Where requests have lines too: those that don't fit are lost and counted, and all else is as without."""
    port, address = shown_at()
    with on_a_disk(checks, access_log="true", status=address) as (server, disk):
        talk = server.connect()
        session = set_up(talk, server)
        time.sleep(LATE)
        fill(server)
        checks.same("PLAYs and PAUSEs", {200}, {*moves(server, session, REQUESTS)})
        checks.that("lines are lost and counted", until(lambda: figures(port)[DROPPED] > 0), figures(port)[DROPPED])
        refuses_for_a_moment(checks, server, disk, session)
        checks.same("what it tells", [], stops(checks, server))
        ends_empty(checks, server, "beside a full pipe")


@contextlib.contextmanager
def full_from_the_start() -> Iterator[int]:
    """A pipe that is full, and that nobody reads."""
    ours, theirs = os.pipe()
    os.set_blocking(theirs, False)
    with contextlib.suppress(BlockingIOError):
        while True:
            os.write(theirs, FILLING)
    os.set_blocking(theirs, True)
    yield theirs
    os.close(theirs)
    os.close(ours)


@serving_test(limit=30)
def an_end_that_nobody_reads(checks: Checks) -> None:
    """A server that gets no lane ends with its status, though its lines find no room."""
    server = Server(checks, workers=1)
    faults = Faults(server.path)
    server.write_media()
    (server.path / "server.toml").write_text(server.text)
    threads = max(len(os.sched_getaffinity(0)) // 2, 1) + 5
    faults.refuse("thread", threads + 1, FOR_EVER, errno.EAGAIN)
    words = ["env", *(f"{name}={value}" for name, value in faults.environment.items()), *server.command()]
    with full_from_the_start() as pipe:
        with subprocess.Popen(words, cwd=server.path, stdout=subprocess.PIPE, stderr=pipe) as running:
            said, _ = running.communicate(timeout=10)
    server.folder.cleanup()
    checks.same("its status and output", (4, b""), (running.returncode, said))
