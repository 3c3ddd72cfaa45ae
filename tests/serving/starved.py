"""A server that gets no thread, or whose pacers get no memory."""
import contextlib
import errno
import os
import socket
import time
from typing import Tuple

from checks import Checks
from rtsp_client.connection import Refused
from rtsp_client.player import Way

from .failing import MOST_CALLS, failing_server, rests
from .faults import FOR_EVER, Faults
from .runner import serving_test
from .server import LOGGED, Server, is_free

LANES = 2
# A play is sent if so many of its packets come within so many seconds.
ENOUGH, SOON = 5, 5.0
ROUNDS = 3


def without_threads(checks: Checks, first: int, last: int, **more: object) -> Tuple[int, Tuple[bool, bool, int, bytes]]:
    """How many threads a server asked for where those from the first to the last were refused, and how it ended:
    whether it said that it listens, and served a connection, its status, and what it wrote on standard error."""
    server = Server(checks, words=("--connections", "1"), workers=LANES, **more)
    faults = Faults(server.path)
    server.environment = faults.environment
    faults.refuse("thread", first, last, errno.EAGAIN)
    server.write_media()
    with server.start() as running:
        is_served = False
        while running.poll() is None and not is_served:
            with contextlib.suppress(Refused):
                talk = server.connect()
                is_served = talk.ask("OPTIONS", "*").status == 200
                talk.close()
            time.sleep(0.01)
        said, complaint = running.communicate(timeout=10)
    checks.that("its port is free", is_free(socket.SOCK_STREAM, server.port))
    server.folder.cleanup()
    return faults.asked("thread"), (b"listening" in said, is_served, running.returncode, LOGGED.sub(b"", complaint))


@serving_test(limit=120)
def every_thread_refused_in_turn(checks: Checks) -> None:
    """Without a pacer, the sweeper, the watcher, those of the log, the figures, the pool and errands, or all lanes the program
    ends, and never says that it listens; it serves where only some lane has no thread."""
    others = max(len(os.sched_getaffinity(0)) // 2, 1) + 6
    why = b"rtspd: files and address are right; a thread, a descriptor or the output failed\n"
    ends, serves = (False, False, 4, b"rtspd: read or write failed\n" + why), (True, True, 0, b"")
    for number in range(1, others + LANES + 1):
        for last, needed in (number, others), (FOR_EVER, others + 1):
            asked, came = without_threads(checks, number, last)
            where = f"without thread {number}{'' if last == number else ' and those after it'}"
            checks.same(where, ends if number <= needed else serves, came)
            checks.that(f"{where}: it was asked for", asked >= number, asked)
    whole = without_threads(checks, others + LANES + 1, FOR_EVER)
    checks.same("threads that are made, and how it serves with all", (others + LANES, serves), whole)
    for number, which in (1, "which writes the journal"), (2, "which begins behind it"):
        _, came = without_threads(checks, number, number, journal_files='"."')
        checks.same(f"without that {which}", ends, came)


def is_sent_if_answered(checks: Checks, server: Server, faults: Faults, number: int) -> bool:
    """Plays without any memory from an allocation on; whether PLAY was answered 200. Then its packets come."""
    player = server.player(Way.UDP)
    player.set_up(player.describe()[0])
    came = player.streams[0].reception.packets
    faults.refuse("memory", number)
    is_answered = True
    try:
        player.play(0.0)
    except Refused:
        is_answered = False
    if is_answered:
        player.connection.wait(SOON, lambda: len(came) >= ENOUGH)
        checks.that(f"packets come without allocation {number} and those after it", len(came) >= ENOUGH, len(came))
    faults.stop()
    # The server may have ended the connection, which the session outlives.
    talk = server.connect()
    talk.ask("TEARDOWN", server.uri, [("Session", player.session or "")])
    talk.close()
    player.close()
    return is_answered


@serving_test(limit=60, is_timed=True)
def a_play_that_is_answered_is_sent(checks: Checks) -> None:
    """What a pacer needs of memory for a play, it has before the PLAY: one that is answered 200 is sent without any."""
    with failing_server(checks) as (server, faults, at_rest):
        for count in range(ROUNDS):
            for number in range(1, MOST_CALLS):
                is_answered = is_sent_if_answered(checks, server, faults, number)
                rests(checks, server, at_rest)
                if is_answered:
                    break
            is_right = 1 < number < MOST_CALLS - 1
            checks.that(f"round {count}: some PLAYs were refused, and one was answered", is_right, number)
