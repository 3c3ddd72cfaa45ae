"""A journal on a slow disk, beside players who fill it: who asks for what makes no entries doesn't wait for the disk, and
who asks for more is answered in order."""
import contextlib
import multiprocessing
import re
import signal
import socket
import sys
import time
from multiprocessing.sharedctypes import Synchronized
from typing import Iterator, List, NamedTuple, Tuple

from checks import Checks
from rtsp_client.messages import END, written

from .checkpoints import least_journal
from .clean_stops import ends_cleanly
from .disks import Disk
from .failing_disks import ends_empty, on_a_disk, until
from .flooded_lanes import OTHERS_MS, SLACK, asked_once, at_99
from .histories import LATE, checked
from .runner import serving_test
from .server import HERE, Presentation, Server, Track, lease

# Ten packets a second for a minute.
SLOW = Presentation("slow", units=600, unit_ms=100, tracks=(Track("a", octets=800, ticks=800),))
PLAYERS, SESSIONS = 16, 24
# The players are in so many processes, and each has so many requests under way.
PROCESSES, UNDER_WAY = 4, 40
# A write takes so many milliseconds.
WRITE_MS = 80
ASKS_FOR = 6.0
# A session is renewed where that moves its end by so many milliseconds: by what is asked within a test it isn't.
STEP = 30_000
ANSWER = re.compile(rb"RTSP/2\.0 (\d{3})[^\r]*\r\nCSeq: (\d+)\r\n")
# After so many milliseconds of one write nobody waits for it any more (HELD_AFTER of crates/rtsp_threads/src/limits.rt), and
# so far a test may be off.
HELD_AFTER, OFF = 100.0, 30.0


class Asked(NamedTuple):
    """What players were answered: how many requests, how many out of their order or not by 200, and the longest wait for
    one answer, in milliseconds."""

    answered: Synchronized
    wrong: Synchronized
    longest: Synchronized


class Talk:
    """A connection on which PLAY and PAUSE of a session are asked in turn, with some under way."""

    def __init__(self, port: int, uri: str, session: str) -> None:
        self.socket = socket.create_connection((HERE, port), timeout=30)
        self.uri, self.session = uri, session
        self.asked = self.answered = 0
        self.held = b""

    def ask(self, count: int) -> None:
        """So many more requests, each with the next number."""
        text = b""
        for _ in range(count):
            self.asked += 1
            headers = [("CSeq", str(self.asked)), ("Session", self.session)]
            if self.asked % 2:
                # From the beginning, since each PLAY has its first unit sent, and soon all would be.
                text += written(f"PLAY {self.uri} RTSP/2.0", [*headers, ("Range", "npt=0-")])
            else:
                text += written(f"PAUSE {self.uri} RTSP/2.0", headers)
        self.socket.sendall(text)

    def take(self) -> List[Tuple[int, bool]]:
        """The statuses of the answers that come next, and whether each is that to the next request."""
        piece = self.socket.recv(1 << 16)
        if not piece:
            sys.exit("the server hung up")
        *answers, self.held = (self.held + piece).split(END)
        taken = []
        for answer in answers:
            self.answered += 1
            status, number = ANSWER.match(answer + b"\r\n").groups()
            taken.append((int(status), int(number) == self.answered))
        return taken

    @property
    def under_way(self) -> int:
        return self.asked - self.answered


def play(port: int, uri: str, sessions: List[str], told: Asked, is_over: Synchronized) -> None:
    """Plays and pauses sessions, each on a connection, until it is over; then takes what is still to come."""
    signal.alarm(120)
    talks = [Talk(port, uri, it) for it in sessions]
    while any(it.under_way for it in talks) or not is_over.value:
        for it in talks:
            if not is_over.value and it.under_way <= UNDER_WAY // 2:
                it.ask(UNDER_WAY - it.under_way & ~1)
        for it in talks:
            if it.under_way:
                began = time.monotonic()
                taken = it.take()
                told.longest.value = max(told.longest.value, 1000 * (time.monotonic() - began))
                told.wrong.value += sum(one != (200, True) for one in taken)
                told.answered.value += len(taken)


class Players(NamedTuple):
    """Processes of players, what each is told by, and what it tells."""

    running: List[multiprocessing.Process]
    is_over: Synchronized
    counts: List[Asked]

    def end(self, checks: Checks) -> None:
        """Has them take what is still to come, and end. They were answered much, in order, and waited for the disk."""
        self.is_over.value = 1
        for process in self.running:
            process.join(timeout=20)
        checks.same("how the players ended", [0] * PROCESSES, [it.exitcode for it in self.running])
        answered = sum(it.answered.value for it in self.counts)
        checks.that("players were answered, and much", answered > 5000, answered)
        checks.same("answers to them out of order, or but 200", 0, sum(it.wrong.value for it in self.counts))
        longest = max(it.longest.value for it in self.counts)
        checks.that("they waited for the disk", longest > WRITE_MS / 4, longest)


@contextlib.contextmanager
def playing(server: Server, sessions: List[str]) -> Iterator[Players]:
    """Has sessions played and paused without end."""
    players = Players([], multiprocessing.Value("b", 0, lock=False), [])
    for number in range(PROCESSES):
        told = Asked(*(multiprocessing.Value(kind, 0, lock=False) for kind in "QQd"))
        words = (server.port, server.uri, sessions[number::PROCESSES], told, players.is_over)
        process = multiprocessing.Process(target=play, args=words, daemon=True)
        process.start()
        players.running.append(process)
        players.counts.append(told)
    try:
        time.sleep(1.0)
        yield players
    finally:
        for process in players.running:
            process.kill()
            process.join()


@contextlib.contextmanager
def on_a_slow_disk(checks: Checks, workers: int) -> Iterator[Tuple[Server, Disk, List[str]]]:
    """A server whose journal is as short as it may be, on a disk that takes its time for each write, and sessions."""
    journal = least_journal(workers, SESSIONS, len(SLOW.tracks))
    settings = {"pairs": SESSIONS, "sessions": SESSIONS, "uplink": 2 * SESSIONS * SLOW.whole_rate}
    with on_a_disk(checks, SLOW, workers=workers, journal=journal, renewal_step=STEP, **settings) as (server, disk):
        talk = server.connect()
        sessions = [lease(talk, f"{server.uri}/a").session for _ in range(PLAYERS)]
        disk.meet("write", late=WRITE_MS)
        yield server, disk, sessions
        talk.close()


def beside_a_slow_journal(checks: Checks, workers: int) -> None:
    """An OPTIONS of somebody else is answered soon, and so is a renewal that makes no entry."""
    with on_a_slow_disk(checks, workers) as (server, disk, sessions), server.socket() as other, server.socket() as renewing:
        keeper = server.connect()
        named = [("CSeq", "7"), ("Session", lease(keeper, f"{server.uri}/a").session)]
        renewal = written(f"GET_PARAMETER {server.uri} RTSP/2.0", named)
        others: List[float] = []
        renewals: List[float] = []
        with playing(server, sessions) as players:
            end = time.monotonic() + ASKS_FOR
            while time.monotonic() < end:
                others.append(asked_once(other))
                renewals.append(asked_once(renewing, renewal))
                time.sleep(0.005)
            players.end(checks)
        keeper.close()
        checks.that("others are answered soon", at_99(others) <= OTHERS_MS, at_99(others))
        checks.that("who renews is answered soon", at_99(renewals) <= OTHERS_MS, at_99(renewals))
        disk.mend()
        time.sleep(LATE)
        checked(checks, server, "after a slow disk")


@serving_test(limit=60, is_alone=True)
def others_beside_a_slow_journal(checks: Checks) -> None:
    """Sixteen players PLAY and PAUSE beside them, with as many lanes as cores."""
    beside_a_slow_journal(checks, 4)


@serving_test(limit=60, is_alone=True)
def others_on_the_lane_of_a_slow_journal(checks: Checks) -> None:
    """So it is with all of them on one lane."""
    beside_a_slow_journal(checks, 1)


@serving_test(limit=60, is_timed=True)
def stops_beside_a_slow_journal(checks: Checks) -> None:
    """Who waits for the disk holds no stop up."""
    with on_a_slow_disk(checks, 4) as (server, _, sessions):
        with playing(server, sessions):
            server.process.send_signal(signal.SIGTERM)
            ends_cleanly(checks, server)
        ends_empty(checks, server, "after a slow disk")


# A journal of which all is taken soon after it is crowded, and more requests than it has room for.
SHORT, MANY = 1_100, 2_000
# How long a write is held up.
HELD_MS = 3_000


@serving_test(limit=40, is_alone=True)
def put_aside_no_longer_than_a_while(checks: Checks) -> None:
    """Beside a write that doesn't come back requests wait for a while, and then those without room are answered 503, each
    in order; once it has come back there is room again."""
    settings = {"pairs": 2, "sessions": 2, "uplink": 2 * SLOW.whole_rate, "workers": 1}
    with on_a_disk(checks, SLOW, journal=SHORT, renewal_step=STEP, **settings) as (server, disk):
        talk = server.connect()
        asking = Talk(server.port, server.uri, lease(talk, f"{server.uri}/a").session)
        time.sleep(LATE)
        disk.meet("write", 1, 1, late=HELD_MS)
        asking.ask(2)
        checks.that("the write is under way", until(lambda: disk.asked("write") == 1))
        began = time.monotonic()
        asking.ask(MANY)
        came: List[Tuple[float, int, bool]] = []
        while asking.under_way:
            came += [(1000 * (time.monotonic() - began), *it) for it in asking.take()]
        checks.same("answers out of order", 0, sum(not is_next for _, _, is_next in came))
        refused = [at for at, status, _ in came if status == 503]
        checks.that("some are refused", len(refused) > 100, len(refused))
        checks.same("the others are answered", {200, 503}, {status for _, status, _ in came})
        checks.that("not before a while", refused and refused[0] >= HELD_AFTER - OFF, refused[:1])
        checks.that("and not much later", refused and refused[0] <= HELD_AFTER + SLACK * OFF, refused[:1])
        waits = [later[0] - sooner[0] for sooner, later in zip(came, came[1:])]
        checks.that("it waited once", max(waits) > OFF, max(waits))
        time.sleep(max(began + HELD_MS / 1000 + LATE - time.monotonic(), 0.0))
        asking.ask(2)
        checks.same("then there is room", [(200, True)] * 2, asking.take())
        talk.close()
        checked(checks, server, "after a write that was held up")
