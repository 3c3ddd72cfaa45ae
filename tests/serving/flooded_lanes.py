"""Connections that ask without end, hundreds on each lane: what others wait for beside them, and that the server ends in
time whatever they ask."""
import contextlib
import itertools
import multiprocessing
import select
import signal
import socket
import time
from typing import Dict, Iterator, List

from checks import Checks
from rtsp_client.messages import written

from .clean_stops import ends_cleanly
from . import floods
from .floods import at_99
from .runner import serving_test
from .server import HERE, Presentation, Server, is_alive

# Players' addresses, and how many connections ask from each.
ADDRESSES = [f"127.0.0.{last}" for last in range(11, 21)]
EACH = 40
# In so many processes, since one can't ask more than a lane answers.
PROCESSES = 4
# So many requests are sent at once on a connection.
AT_ONCE = 200
ONE_TRACK = Presentation(tracks=Presentation().tracks[:1])
ENDED = b"\r\n\r\n"
OPTIONS = written("OPTIONS * RTSP/2.0", [("CSeq", "7")])
# What is asked to be so: milliseconds of answers at 99 of 100, and what a test allows on a machine with other work.
OTHERS_MS, NEWCOMERS_MS, SLACK = 30.0, 50.0, 3
ASKS_FOR = 6.0

OVER_TCP = ("Transport", "RTP/AVP/TCP;unicast;interleaved=0-1")
# A startup number, in place of a session's id.
SEVEN = ("Pipelined-Requests", "7")


def set_up(uri: str) -> bytes:
    return written(f"SETUP {uri}/a RTSP/2.0", [("CSeq", "1"), OVER_TCP])


def begins_and_ends(uri: str) -> bytes:
    """Begins a session, and ends it."""
    begins = written(f"SETUP {uri}/a RTSP/2.0", [("CSeq", "1"), OVER_TCP, SEVEN])
    return begins + written(f"TEARDOWN {uri} RTSP/2.0", [("CSeq", "2"), SEVEN])


class Flood:
    """Connections of one process, each of which asks the same again as soon as it has all answers."""

    def __init__(self, port: int, addresses: List[str], asked: bytes) -> None:
        self.asked = asked * AT_ONCE
        self.poll = select.epoll()
        self.talks: Dict[int, socket.socket] = {}
        # How many answers are to come, and the last bytes of what came.
        self.wanted: Dict[int, int] = {}
        self.last: Dict[int, bytes] = {}
        for address in addresses:
            talk = socket.create_connection((HERE, port), timeout=30, source_address=(address, 0))
            self.talks[talk.fileno()] = talk
            self.poll.register(talk, select.EPOLLIN)
            self.ask(talk.fileno())

    def ask(self, number: int) -> None:
        self.wanted[number], self.last[number] = self.asked.count(ENDED), b""
        self.talks[number].sendall(self.asked)

    def hear(self, number: int) -> None:
        piece = self.talks[number].recv(65_536)
        if not piece:
            raise ConnectionResetError
        came = self.last[number] + piece
        self.wanted[number] -= came.count(ENDED)
        # The end of an answer may come in two pieces, and counts once.
        self.last[number] = b"" if came.endswith(ENDED) else came[-3:]
        if self.wanted[number] <= 0:
            self.ask(number)

    def run(self) -> None:
        """Until the server hangs up everywhere."""
        while self.talks:
            for number, _ in self.poll.poll():
                try:
                    self.hear(number)
                except OSError:
                    self.poll.unregister(number)
                    self.talks.pop(number).close()


def flood(port: int, addresses: List[str], asked: bytes, ready: "multiprocessing.synchronize.Semaphore") -> None:
    signal.alarm(120)
    with contextlib.suppress(OSError):
        asking = Flood(port, addresses, asked)
        ready.release()
        asking.run()


@contextlib.contextmanager
def flooded(server: Server, addresses: List[str], asked: bytes) -> Iterator[None]:
    """Has a server asked without end on a connection from each of these addresses."""
    forked = multiprocessing.get_context("fork")
    ready = forked.Semaphore(0)
    shares = [addresses[first::PROCESSES] for first in range(PROCESSES)]
    asking = [forked.Process(target=flood, args=(server.port, share, asked, ready)) for share in shares]
    for it in asking:
        it.start()
    try:
        for _ in asking:
            ready.acquire(timeout=30)
        time.sleep(1.0)
        yield
    finally:
        for it in asking:
            it.kill()
            it.join()


def asked_once(talk: socket.socket, asked: bytes = OPTIONS) -> float:
    """After how many milliseconds a request is answered."""
    began = time.monotonic()
    talk.sendall(asked)
    answer = b""
    while ENDED not in answer:
        piece = talk.recv(4096)
        if not piece:
            return float("inf")
        answer += piece
    return 1000 * (time.monotonic() - began)


def asked_anew(server: Server) -> float:
    """The same of a connection that comes for it."""
    began = time.monotonic()
    with server.socket() as talk:
        asked_once(talk)
    return 1000 * (time.monotonic() - began)


@serving_test(limit=60, is_alone=True)
def others_beside_a_flood_of_sessions(checks: Checks) -> None:
    """Beside 400 connections of ten addresses that begin and end sessions without end, an OPTIONS of somebody else is
    answered soon, and so is somebody who comes for it."""
    addresses = list(itertools.chain.from_iterable([it] * EACH for it in ADDRESSES))
    with Server(checks, ONE_TRACK, sessions=4000, uplink=10**10) as server, server.socket() as talk:
        talk.settimeout(30)
        with flooded(server, addresses, begins_and_ends(server.uri)):
            others: List[float] = []
            newcomers: List[float] = []
            until = time.monotonic() + ASKS_FOR
            while time.monotonic() < until:
                others.append(asked_once(talk))
                newcomers.append(asked_anew(server))
                time.sleep(0.005)
            checks.that("others are answered soon", at_99(others) <= SLACK * OTHERS_MS, at_99(others))
            checks.that("newcomers are answered soon", at_99(newcomers) <= SLACK * NEWCOMERS_MS, at_99(newcomers))


# Connections of an address that may be open at once, and processes that connect without end.
CONNECTIONS, CONNECTING = 10, 8
# How long a session lives that nobody renews, in seconds, how often some are renewed, and for how long.
TIMEOUT, RENEWED_EACH, RENEWED_FOR = 4, 1.5, 10.0


def connects(port: int, _uri: str, address: str) -> None:
    """Connects without end."""
    while True:
        with contextlib.suppress(OSError):
            socket.create_connection((HERE, port), timeout=30, source_address=(address, 0)).close()


@serving_test(limit=40, is_alone=True)
def newcomers_beside_connects_without_end(checks: Checks) -> None:
    """Beside an address that connects without end, and has a share of the connections, a newcomer is answered soon."""
    with Server(checks, connections_per_address=CONNECTIONS) as server:
        with floods.flooded(server, CONNECTING, ADDRESSES[0], connects):
            newcomers = []
            until = time.monotonic() + ASKS_FOR
            while time.monotonic() < until:
                newcomers.append(asked_anew(server))
                time.sleep(0.005)
        checks.that("newcomers are answered soon", at_99(newcomers) <= SLACK * NEWCOMERS_MS, at_99(newcomers))


@serving_test(limit=60, is_alone=True)
def renewals_beside_a_flooded_lane(checks: Checks) -> None:
    """Who renews in time loses no session, though hundreds of connections of the same lane ask without end."""
    with Server(checks, ONE_TRACK, workers=1, timeout=TIMEOUT, uplink=10**10) as server:
        with flooded(server, [HERE] * 400, OPTIONS):
            talks = [server.connect() for _ in ADDRESSES]
            answers = [it.ask("SETUP", f"{server.uri}/a", [OVER_TCP]) for it in talks]
            sessions = [(it.header("Session") or "").partition(";")[0] for it in answers]
            until, lost = time.monotonic() + RENEWED_FOR, 0
            while time.monotonic() < until:
                lost += sum(not is_alive(talk, server.uri, it) for talk, it in zip(talks, sessions))
                time.sleep(RENEWED_EACH)
            for talk in talks:
                talk.close()
        checks.same("renewals that found no session", 0, lost)


@serving_test(limit=60, is_timed=True)
def stops_beside_a_flood_of_sessions(checks: Checks) -> None:
    """Connections that begin and end sessions without end hold the end up for no more than 3 s."""
    with Server(checks, ONE_TRACK, holds_signals=True, workers=1, sessions=4000, uplink=10**10) as server:
        with flooded(server, [HERE] * 400, begins_and_ends(server.uri)):
            server.process.send_signal(signal.SIGTERM)
            ends_cleanly(checks, server)


@serving_test(limit=60, is_timed=True)
def stops_beside_a_flooded_lane(checks: Checks) -> None:
    """Connections of one lane that ask OPTIONS without end, and read the answers, hold the end up for no more than 3 s."""
    with Server(checks, holds_signals=True, workers=1) as server:
        with flooded(server, [HERE] * 400, OPTIONS):
            server.process.send_signal(signal.SIGTERM)
            ends_cleanly(checks, server)


def spent_share(checks: Checks) -> Server:
    """A server of one lane, with room for more sessions than the share of an address."""
    return Server(checks, ONE_TRACK, holds_signals=True, workers=1, sessions=4000, sessions_per_address=2000, uplink=10**10)


@serving_test(limit=60, is_timed=True)
def stops_beside_a_spent_share(checks: Checks) -> None:
    """So do those that ask for sessions of which their address has its share."""
    with spent_share(checks) as server:
        with flooded(server, [HERE] * 100, set_up(server.uri)):
            server.process.send_signal(signal.SIGTERM)
            ends_cleanly(checks, server)


@serving_test(limit=60, is_timed=True)
def stops_at_once_beside_a_spent_share(checks: Checks) -> None:
    """Beside them the second signal ends it at once."""
    with spent_share(checks) as server:
        with flooded(server, [HERE] * 100, set_up(server.uri)):
            server.process.send_signal(signal.SIGTERM)
            time.sleep(0.3)
            server.process.send_signal(signal.SIGINT)
            ends_cleanly(checks, server, 0.3 * SLACK)


# A player that asks until the server reads no more, and then reads so much each so many seconds: less than 1,000 bytes a
# second, but some within each ten.
SIP, EACH_SECONDS = 2048, 8.0
# When it has to be gone, in seconds after it began to read so.
GONE_AFTER, GONE_BEFORE = 25.0, 75.0


@serving_test(limit=120, is_timed=True, is_long=True)
def a_player_that_sips(checks: Checks) -> None:
    """Of what waits for a player it has to take 1,000 bytes a second, but for the first half a minute."""
    with Server(checks) as server, socket.socket() as talk:
        before = server.descriptors_at_rest()
        talk.setsockopt(socket.SOL_SOCKET, socket.SO_RCVBUF, SIP)
        talk.connect((server.host, server.port))
        talk.setblocking(False)
        request = written(f"DESCRIBE {server.uri} RTSP/2.0", [("CSeq", "1")])
        with contextlib.suppress(BlockingIOError):
            while True:
                talk.send(request * 100)
        began = time.monotonic()
        while server.descriptors() > before and time.monotonic() < began + GONE_BEFORE + 10:
            time.sleep(EACH_SECONDS)
            with contextlib.suppress(OSError):
                talk.recv(SIP)
        seconds = time.monotonic() - began
        checks.that("it is gone after half a minute to a minute", GONE_AFTER <= seconds <= GONE_BEFORE, seconds)
