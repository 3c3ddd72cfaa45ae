"""A disk that holds a write up for ten seconds while 500 streams play: no packet late, nobody kept waiting for it."""
import contextlib
import multiprocessing
import re
import socket
import statistics
import struct
import time
from multiprocessing.connection import Connection as Channel
from typing import Dict, Iterator, List, NamedTuple, Optional

from checks import Checks
from rtsp_client.connection import Connection, datagram_socket, take_datagram
from rtsp_client.credentials import Credentials

from .bystanders import Arrival, judge
from .failing_disks import moves, on_a_disk, stops, until
from .histories import LATE, audited, checked, files, sessions_in, set_up
from .runner import serving_test
from .server import HERE, Presentation, Server, Track
from .witness import Punctuality, Witness

STREAMS, HELD = 500, 10.0
SECOND = 1000
# Ten packets a second for a minute.
SLOW = Presentation("slow", units=600, unit_ms=100, tracks=(Track("a", octets=800, ticks=800),))
# A session of one track that plays has 5 entries and is owed as many. No checkpoint pays up to 6,000 entries, so before
# the write that is held up the journal is filled to less, since renewals make entries too, and then to more: it is crowded.
JOURNAL, BEFORE, CROWDED = 10_000, 5_200, 6_600
# A connection waits once for the thread that writes, 127 ms at most; each other answer comes at once.
MOST_WAITS, AT_ONCE = 4, 60.0
ROOM = 1 << 23
# What is told of the write.
HELD_UP = b"warning a write to the journal's file doesn't come back: entries wait"
COME_BACK = b"info the write to the journal's file has come back"


class Heard(NamedTuple):
    """When each packet came and how late it was, and of how many streams there were any."""

    arrivals: List[Arrival]
    streams: int


def hear(taken: socket.socket, unit_ms: int, until_told: Channel) -> None:
    """Takes packets of units of so many milliseconds until it is told to end, and then tells of them."""
    came: Dict[int, List[tuple]] = {}
    taken.settimeout(0.1)
    while not until_told.poll():
        with contextlib.suppress(TimeoutError):
            for _ in range(1000):
                datagram, at = take_datagram(taken)
                _, sequence, _, ssrc = struct.unpack_from("!HHLL", datagram)
                came.setdefault(ssrc, []).append((at, sequence))
    arrivals = []
    for packets in came.values():
        first = packets[0][1]
        early = [at - ((sequence - first) & 0xFFFF) * unit_ms / SECOND for at, sequence in packets]
        arrivals += [Arrival(at, (it - min(early)) * SECOND) for (at, _), it in zip(packets, early)]
    until_told.send(Heard(arrivals, len(came)))


class Audience:
    """A process that hears all streams of a presentation over one port."""

    def __init__(self, presentation: Presentation) -> None:
        self.unit_ms = presentation.unit_ms

    def __enter__(self) -> "Audience":
        with datagram_socket() as taken:
            taken.setsockopt(socket.SOL_SOCKET, socket.SO_RCVBUF, ROOM)
            taken.bind((HERE, 0))
            self.port = taken.getsockname()[1]
            self.told, theirs = multiprocessing.Pipe()
            self.process = multiprocessing.Process(target=hear, args=(taken, self.unit_ms, theirs), daemon=True)
            self.process.start()
        return self

    def __exit__(self, *_: object) -> None:
        self.process.kill()
        self.process.join()

    def heard(self) -> Heard:
        self.told.send(None)
        return self.told.recv()


def play_all(
    checks: Checks, server: Server, port: int, count: int, credentials: Optional[Credentials] = None
) -> List[str]:
    """Has so many streams played to a port. The sessions."""
    talk, track = Connection(HERE, server.port, credentials=credentials), server.presentation.tracks[0].name
    over = ("Transport", f'RTP/AVP;unicast;dest_addr=":{port}"/":{port}"')
    sessions = []
    for _ in range(count):
        answer = talk.ask("SETUP", f"{server.uri}/{track}", [over])
        sessions.append((answer.header("Session") or "").partition(";")[0])
        status = talk.ask("PLAY", server.uri, [("Session", sessions[-1])]).status
        if not checks.same("SETUP and PLAY", (200, 200), (answer.status, status)):
            break
    talk.close()
    return sessions


def times_of(server: Server, seconds: float) -> Iterator[float]:
    """How many milliseconds each of many requests waits for its answer, of which each makes an entry."""
    talk, end = server.connect(), time.monotonic() + seconds
    session = set_up(talk, server)
    while time.monotonic() < end:
        for method, more in ("PLAY", [("Range", "npt=0-")]), ("PAUSE", []):
            began = time.monotonic()
            status = talk.ask(method, server.uri, [("Session", session), *more]).status
            yield (time.monotonic() - began) * SECOND if status == 200 else float("inf")
            time.sleep(0.04)
    talk.ask("TEARDOWN", server.uri, [("Session", session)])
    talk.close()


@serving_test(limit=60, is_alone=True)
def a_disk_that_blocks(checks: Checks) -> None:
    """Every packet comes on time, every request is answered, and then all is written."""
    settings = {"pairs": STREAMS, "sessions": STREAMS + 10, "uplink": 2 * STREAMS * SLOW.whole_rate}
    with Witness() as witness, on_a_disk(checks, SLOW, journal=JOURNAL, **settings) as (server, disk), Audience(SLOW) as all:
        sessions = play_all(checks, server, all.port, STREAMS)
        talk = server.connect()
        busy = set_up(talk, server)
        statuses = moves(server, busy, BEFORE - 5 * STREAMS)
        time.sleep(2 * LATE)
        disk.meet("write", 1, 1, late=int(HELD * SECOND))
        began = time.monotonic()
        # The turn that is held up mustn't have shortened the journal.
        talk.ask("TEARDOWN", server.uri, [("Session", set_up(talk, server))])
        checks.that("the write is under way", until(lambda: disk.asked("write") == 1))
        statuses += moves(server, busy, CROWDED - BEFORE)
        checks.same("what fills half of the journal", {200}, {*statuses})
        took = list(times_of(server, HELD - 1.0 - (time.monotonic() - began)))
        checks.same("it is still held up", 1, disk.asked("write"))
        checks.that("much was asked meanwhile", len(took) > 20, len(took))
        waits = [it for it in took if it > AT_ONCE]
        checks.that(f"all but {MOST_WAITS} answers come at once", len(waits) <= MOST_WAITS, (waits, len(took)))
        checks.that("in the middle they do", statistics.median(took) < AT_ONCE / 2, statistics.median(took))
        time.sleep(max(began + HELD + 2 * LATE - time.monotonic(), 0.0))
        heard = all.heard()
        checks.same("streams that were heard", STREAMS, heard.streams)
        judge(Punctuality(checks, witness.stalls()), heard.arrivals, 0)
        (file,) = files(server)
        status, book, complaint = audited(server, file)
        wanted = 0, "", sorted([*sessions, busy])
        checks.same("the audit afterwards", wanted, (status, complaint, sorted(sessions_in(book))))
        checks.same("who plays", STREAMS, len(re.findall(r"(?m)^session .* playing:", book)))
        checked(checks, server, "after a disk that blocked")
        checks.same("what it tells", [HELD_UP, COME_BACK], stops(checks, server))
