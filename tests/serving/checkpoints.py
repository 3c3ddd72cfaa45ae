"""What a player does stays in the journal while its session lives; nobody else is refused for it, nor is the player.

The journals of these servers are as short as docs/OPERATING.md says that they may be.
"""
import contextlib
import multiprocessing
import socket
import time
from multiprocessing.sharedctypes import Synchronized
from typing import Callable, Dict, Iterator, List, NamedTuple

from checks import Checks
from rtsp_client.connection import Connection
from rtsp_client.messages import END, written

from .bystanders import Bystanders, judge
from .forgetting import ONE_TRACK, OVER_TCP, set_up
from .runner import serving_test
from .server import HERE, Presentation, Server, Track, lease
from .witness import Punctuality, Witness

# A minute, so that a play lasts as long as it is asked for.
MINUTE = Presentation(units=3000)
PLAYERS, FLOODED_FOR = 50, 10.0
# Beside the players' two streams each there is room for those of the floods.
SETTINGS = {"pairs": 160, "sessions": 96, "uplink": 200 * MINUTE.whole_rate}
SESSIONS_OF_A_FLOOD = 8
# So many requests of a flood are under way, more than a lane reads in one visit.
UNDER_WAY = 1000


def least_journal(workers: int, sessions: int, tracks: int) -> int:
    """The least `journal` with which nobody is refused for its sake (docs/OPERATING.md)."""
    return sessions * (9 * tracks + 11) + 1000 * (workers + 1)


class Flood(NamedTuple):
    """Requests that are sent without end over one connection: how many sessions they name in turn, and a request."""

    sessions: int
    request: Callable[[str, str], bytes]


def play(uri: str, session: str) -> bytes:
    # From the beginning, since each PLAY has its first unit sent, and soon all would be.
    return written(f"PLAY {uri} RTSP/2.0", [("CSeq", "1"), ("Session", session), ("Range", "npt=0-")])


def set_up_again(uri: str, session: str) -> bytes:
    return written(f"SETUP {uri}/a RTSP/2.0", [("CSeq", "1"), ("Session", session), OVER_TCP])


def renew(uri: str, session: str) -> bytes:
    # What is asked in a session renews it, also where it would make no entry else.
    return written(f"OPTIONS {uri} RTSP/2.0", [("CSeq", "1"), ("Session", session)])


FLOODS: Dict[str, Flood] = {
    "PLAYs": Flood(1, play),
    "SETUPs": Flood(1, set_up_again),
    "renewals": Flood(SESSIONS_OF_A_FLOOD, renew),
}


def pour(port: int, requests: List[bytes], under_way: int, answered: Synchronized, refused: Synchronized) -> None:
    """Asks in turn without end, with so many requests under way; counts the answers, and those that aren't 200."""
    talk = socket.create_connection((HERE, port))
    asked = 0
    held = b""
    while True:
        more = under_way - (asked - answered.value)
        talk.sendall(b"".join(requests[(asked + it) % len(requests)] for it in range(more)))
        asked += more
        *answers, held = (held + talk.recv(1 << 16)).split(END)
        refused.value += sum(not it.startswith(b"RTSP/2.0 200") for it in answers)
        answered.value += len(answers)


class Poured(NamedTuple):
    """A flood under way: how many answers it got, and how many that weren't 200."""

    name: str
    answered: Synchronized
    refused: Synchronized


@contextlib.contextmanager
def poured(server: Server, names: List[str]) -> Iterator[List[Poured]]:
    """Floods, each over one connection in a process of its own. Their sessions have a stream over UDP."""
    talk = server.connect()
    running, told = [], []
    for name in names:
        flood = FLOODS[name]
        sessions = [lease(talk, f"{server.uri}/a").session for _ in range(flood.sessions)]
        requests = [flood.request(server.uri, session) for session in sessions]
        counts = [multiprocessing.Value("Q", 0, lock=False) for _ in range(2)]
        told.append(Poured(name, *counts))
        words = (server.port, requests, UNDER_WAY, *counts)
        running.append(multiprocessing.Process(target=pour, args=words, daemon=True))
    for process in running:
        process.start()
    try:
        yield told
        server.checks.same("how many still flood", len(names), sum(process.is_alive() for process in running))
    finally:
        for process in running:
            process.kill()
            process.join()
        talk.close()


def beside(checks: Checks, workers: int, names: List[str]) -> None:
    """Fifty players listen, renew, seek and set up beside floods: none of them is refused, and no packet comes late
    where there are cores for all."""
    journal = least_journal(workers, SETTINGS["sessions"], len(MINUTE.tracks))
    with Witness() as witness, Server(checks, MINUTE, workers=workers, journal=journal, **SETTINGS) as server:
        with poured(server, names) as floods, Bystanders(server.uri, PLAYERS, FLOODED_FOR) as players:
            heard = players.heard()
        for name, answered, refused in floods:
            enough = answered.value > 1000
            checks.that(f"the flood of {name} was answered, and much", enough, answered.value)
            checks.same(f"the flood of {name}: answers but 200 of {answered.value}", 0, refused.value)
        checks.that("no player is refused", not heard.faults, (len(heard.faults), heard.faults[:3]))
        checks.that("they asked much", heard.answered > 10 * PLAYERS, heard.answered)
        # Each flood keeps a lane busy.
        judge(Punctuality(checks, witness.stalls()), heard.arrivals, 2 * len(floods))


@serving_test(limit=45, is_alone=True)
def beside_a_flood_of_plays(checks: Checks) -> None:
    """One connection asks for PLAY without end."""
    beside(checks, 4, ["PLAYs"])


@serving_test(limit=45, is_alone=True)
def beside_a_flood_of_setups(checks: Checks) -> None:
    """One connection sets the same track up again without end."""
    beside(checks, 4, ["SETUPs"])


@serving_test(limit=45, is_alone=True)
def beside_a_flood_of_renewals(checks: Checks) -> None:
    """One connection renews some sessions without end."""
    beside(checks, 4, ["renewals"])


@serving_test(limit=45, is_alone=True)
def beside_all_floods_with_64_lanes(checks: Checks) -> None:
    """With as many lanes as there can be, and all three at once."""
    beside(checks, 64, [*FLOODS])


# Whatever is asked in a session renews it.
RENEWING = "GET_PARAMETER", "OPTIONS", "DESCRIBE"


def renewed(talk: Connection, uri: str, session: str, number: int) -> int:
    """Renews a session in a millisecond of its own, so that the journal has it: the status."""
    status = talk.ask(RENEWING[number % len(RENEWING)], uri, [("Session", session)]).status
    time.sleep(0.001)
    return status


@serving_test(limit=120, is_long=True)
def a_session_outlives_its_journal(checks: Checks) -> None:
    """A session is renewed ten times as often as the journal has entries; it lives, and there is room for another."""
    sessions = 4
    journal = least_journal(1, sessions, 1)
    settings = {"pairs": 0, "sessions": sessions, "uplink": sessions * ONE_TRACK.whole_rate}
    with Server(checks, ONE_TRACK, workers=1, journal=journal, **settings) as server:
        talk, other = server.connect(), server.connect()
        status, session = set_up(talk, server.uri)
        checks.same("the SETUP of the one that lives", 200, status)
        for number in range(10 * journal):
            status = renewed(talk, server.uri, session, number)
            if not checks.same(f"renewal {number + 1} of {10 * journal}", 200, status):
                return
            if number % 100 == 0:
                status, passing = set_up(other, server.uri)
                ended = other.ask("TEARDOWN", server.uri, [("Session", passing)]).status
                checks.same(f"another's SETUP and TEARDOWN after renewal {number + 1}", (200, 200), (status, ended))
        talk.close()
        other.close()


# A journal with room for little more than two sessions with a track are owed, and have: a checkpoint never pays.
FAR_TOO_SHORT = 40


@serving_test(limit=30)
def a_journal_far_too_short(checks: Checks) -> None:
    """Whoever finds the journal full has a checkpoint made, and is answered, as long as that makes room."""
    settings = {"pairs": 0, "sessions": 4, "uplink": 4 * ONE_TRACK.whole_rate, "journal": FAR_TOO_SHORT}
    with Server(checks, ONE_TRACK, workers=2, **settings) as server:
        talk, other = server.connect(), server.connect()
        status, session = set_up(talk, server.uri)
        checks.same("the SETUP of the one that lives", 200, status)
        statuses = []
        for number in range(10 * FAR_TOO_SHORT):
            statuses.append(renewed(talk, server.uri, session, number))
            if number % 10 == 0:
                status, passing = set_up(other, server.uri)
                statuses += [status, other.ask("TEARDOWN", server.uri, [("Session", passing)]).status]
        checks.same("answers but 200", [], [it for it in statuses if it != 200])
        talk.close()
        other.close()


# Connections that set up in one session at once, more than there are lanes.
TOGETHER, UNDER_WAY_TOGETHER = 6, 20


@serving_test(limit=60, is_timed=True)
def a_session_that_is_always_set_up(checks: Checks) -> None:
    """Six connections set one track up in one session without end: at most looks some SETUP of it is under way."""
    journal = least_journal(4, 16, 2)
    settings = {"pairs": 0, "sessions": 16, "uplink": 100 * MINUTE.whole_rate}
    with Server(checks, MINUTE, workers=4, journal=journal, **settings) as server:
        talk = server.connect()
        _, session = set_up(talk, server.uri)
        counts = [[multiprocessing.Value("Q", 0, lock=False) for _ in range(2)] for _ in range(TOGETHER)]
        words = (server.port, [set_up_again(server.uri, session)], UNDER_WAY_TOGETHER)
        running = [multiprocessing.Process(target=pour, args=(*words, *it), daemon=True) for it in counts]
        for process in running:
            process.start()
        statuses = []
        until = time.monotonic() + FLOODED_FOR
        while time.monotonic() < until:
            status, passing = set_up(talk, server.uri)
            statuses += [status, talk.ask("TEARDOWN", server.uri, [("Session", passing)]).status]
            time.sleep(0.01)
        for process in running:
            process.kill()
            process.join()
        checks.same("answers to another session but 200", [], [it for it in statuses if it != 200])
        checks.that("it was answered often", len(statuses) > 100, len(statuses))
        answered = [it.value for it, _ in counts]
        checks.that("the floods were answered", sum(answered) > 10_000, answered)
        talk.close()
