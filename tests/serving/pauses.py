"""What is counted as sent is sent: at each PAUSE and at each seek, also where the server is late."""
import multiprocessing
import os
import random
import re
import signal
import threading
from typing import Callable, List, NamedTuple, Optional

from checks import Checks
from rtsp_client.connection import VERSION
from rtsp_client.messages import Message, written
from rtsp_client.player import Player, Stream, Way

from .plays import UNDER_WAY, runs, side_by_side
from .runner import serving_test
from .server import Presentation, Server, Track

TRACK = Track("a")
SHORT_UNITS = Presentation("tone", units=8000, unit_ms=5, tracks=(TRACK,))
# Players at once, and how often each pauses and how often it seeks. More players that do less would keep all cores busy for
# less time.
PLAYERS, PAUSES, SEEKS = 12, 25, 10
# How long a play goes on, in seconds.
PLAYED = 0.02, 0.08
# For how long a server is stopped while it is asked, in seconds. What is late is sent at once, or at twice the pace.
SHORT_STOP, LONG_STOP = 0.04, 0.2
# How often it is stopped.
STOPS = 20
# For how long a busy machine keeps a pacer from running at most, in seconds.
KEPT_FOR = 1.0
# Players that ask for plays and a PAUSE at once, and how often each does.
ASKERS, AT_ONCE = 6, 30


class Begun(NamedTuple):
    """A play: the place of its first packet, and the unit that this one has."""

    place: int
    unit: int


class Watched:
    """A player of one track that holds what comes against what it is told."""

    def __init__(self, checks: Checks, server: Server, way: Way) -> None:
        self.checks = checks
        self.where = way.value
        self.unit_ms = server.presentation.unit_ms
        self.player: Player = server.player(way)
        self.stream: Stream = self.player.set_up(self.player.describe()[0])
        self.plays: List[Begun] = []

    def first_unit(self, answer: Message) -> int:
        """The unit where the Range of an answer begins."""
        begins = re.match(r"npt=(\d+\.?\d*)-", answer.header("Range") or "")
        return round(float(begins[1]) * 1000 / self.unit_ms)

    def begins(self, answer: Message) -> None:
        """Notes the play that the answer to a PLAY tells of."""
        told = re.search(r"seq=(\d+)", answer.header("RTP-Info") or "")
        self.plays.append(Begun(self.stream.reception.place_of(int(told[1])), self.first_unit(answer)))

    def play(self, *start: float) -> None:
        """Plays from a second on, or from where it stopped."""
        self.begins(self.player.play(*start))

    def pause(self, made_up_in: float = 0.0) -> None:
        """Pauses, and holds what came up to there against the point, once what was late has come."""
        self.stops_at(self.player.pause(), made_up_in)

    def request(self, method: str, start: Optional[float] = None) -> bytes:
        """A request of the session, which isn't sent yet; of a PLAY from a second on, or from where it stopped."""
        connection = self.player.connection
        connection.cseq += 1
        headers = [("CSeq", str(connection.cseq)), ("Session", self.player.session or "")]
        headers += [("Range", f"npt={start:.3f}-")] if start is not None else []
        return written(f"{method} {self.player.uri} {VERSION}", headers)

    def at_once(self, *starts: Optional[float]) -> None:
        """Plays from there on, one after another, and pauses, all in one write: each play is left before it is sent."""
        connection = self.player.connection
        methods = ["PLAY"] * len(starts) + ["PAUSE"]
        connection.send_bytes(b"".join(map(self.request, methods, [*starts, None])))
        answers = [connection.answer(connection.cseq - it) for it in reversed(range(len(methods)))]
        self.checks.same(f"{self.where}: answers", [200] * len(methods), [it.status for it in answers])
        for answer in answers[:-1]:
            self.begins(answer)
        self.player.is_playing = False
        self.stops_at(answers[-1])

    def stops_at(self, answer: Message, made_up_in: float = 0.0) -> None:
        """Holds what came against the point that the answer to a PAUSE tells of, once what was late has come."""
        self.player.connection.wait(made_up_in + UNDER_WAY)
        began = self.plays[-1]
        count = began.place + self.first_unit(answer) - began.unit
        # A pacer that is kept from running sends them late; what is lost is missed in each round from then on.
        self.player.connection.wait(KEPT_FOR, lambda: len(self.stream.reception.places) >= count)
        self.all_came(count, "the point")

    def all_came(self, count: int, where: str) -> None:
        """That so many packets came, each of them once, and none beyond."""
        came = runs(sorted(self.stream.reception.places))
        self.checks.same(f"{self.where}: packets up to {where}", runs(list(range(count))), came)

    def units_fit(self) -> None:
        """That each packet has the octets of its unit."""
        plays = iter([*self.plays[1:], Begun(1 << 32, 0)])
        began, after = self.plays[0], next(plays)
        came = sorted(zip(self.stream.reception.places, self.stream.reception.packets), key=lambda it: it[0])
        for place, packet in came:
            while place >= after.place:
                began, after = after, next(plays)
            fits = packet.payload == TRACK.unit(began.unit + place - began.place)
            if not self.checks.that(f"{self.where}: packet {place} is as the file has it", fits):
                break

    def goes(self) -> None:
        self.player.connection.wait(random.uniform(*PLAYED))


def spin() -> None:
    while True:
        pass


class BusyMachine:
    """Processes that keep all cores busy, started before the threads of a test."""

    def __enter__(self) -> None:
        cores = os.sched_getaffinity(0)
        self.spinning = [multiprocessing.Process(target=spin, daemon=True) for _ in range(2 * len(cores))]
        for process in self.spinning:
            process.start()

    def __exit__(self, *_: object) -> None:
        for process in self.spinning:
            process.kill()
            process.join()


def server_of(checks: Checks, players: int) -> Server:
    return Server(checks, SHORT_UNITS, pairs=players, uplink=players * SHORT_UNITS.whole_rate)


def players_of(checks: Checks, server: Server, count: int) -> List[Watched]:
    """So many players, by each way in turn."""
    ways = Way.UDP, Way.ONE_PORT, Way.TCP
    return [Watched(checks, server, ways[number % len(ways)]) for number in range(count)]


def pauses_and_seeks(watched: Watched) -> None:
    """Plays and pauses, and then seeks."""
    for _ in range(PAUSES):
        watched.play()
        watched.goes()
        watched.pause()
    for _ in range(SEEKS):
        watched.play(random.randrange(30))
        watched.goes()
    watched.pause()
    watched.units_fit()
    watched.player.tear_down()


@serving_test(limit=60, is_timed=True)
def pauses_on_a_busy_machine(checks: Checks) -> None:
    """Twelve players pause 300 times and seek 120 times while all cores are busy: no packet is missing or too many."""
    with BusyMachine(), server_of(checks, PLAYERS) as server:
        players = players_of(checks, server, PLAYERS)
        side_by_side(checks, *(lambda it=it: pauses_and_seeks(it) for it in players))


def while_stopped(server: Server, seconds: float, ask: Callable[[], None]) -> None:
    """Asks a server that stands still for so long."""
    os.kill(server.process.pid, signal.SIGSTOP)
    going_on = threading.Timer(seconds, os.kill, (server.process.pid, signal.SIGCONT))
    going_on.start()
    ask()
    going_on.join()


@serving_test(limit=60, is_timed=True)
def pauses_of_a_server_that_stood_still(checks: Checks) -> None:
    """A PAUSE or a seek waits for a server that is stopped: the units of that time are counted, and all come."""
    with Server(checks, SHORT_UNITS) as server:
        for way in Way.UDP, Way.TCP:
            watched = Watched(checks, server, way)
            for number in range(STOPS):
                stop = LONG_STOP if number % 4 == 0 else SHORT_STOP
                watched.play()
                watched.goes()
                while_stopped(server, stop, lambda: watched.pause(stop))
                watched.play(random.randrange(30))
                watched.goes()
                while_stopped(server, stop, lambda: watched.play(random.randrange(30)))
                watched.goes()
                watched.pause(stop)
            watched.units_fit()
            watched.player.tear_down()


def plays_that_are_left_at_once(watched: Watched) -> None:
    """Plays that a PAUSE or a seek right behind them ends, from a pause and in the midst of a play."""
    watched.play()
    watched.goes()
    watched.pause()
    for number in range(AT_ONCE):
        if number % 4 == 3:
            watched.play()
            watched.goes()
        seek = random.randrange(30)
        watched.at_once(*[[None], [seek], [None, seek]][number % 3])
    watched.units_fit()
    watched.player.tear_down()


def left_at_once(checks: Checks, server: Server) -> None:
    players = players_of(checks, server, ASKERS)
    side_by_side(checks, *(lambda it=it: plays_that_are_left_at_once(it) for it in players))


@serving_test(limit=60, is_timed=True)
def plays_left_at_once(checks: Checks) -> None:
    """A PLAY, and a PAUSE or a seek and a PAUSE behind it, in one write: what each play counts comes, once."""
    with server_of(checks, ASKERS) as server:
        left_at_once(checks, server)


@serving_test(limit=60, is_timed=True)
def plays_left_at_once_on_a_busy_machine(checks: Checks) -> None:
    """The same while all cores are busy, so that pacers hear of the plays late."""
    with BusyMachine(), server_of(checks, ASKERS) as server:
        left_at_once(checks, server)
