"""A server that stands still for a while, as where its host is paused: who has asked in time isn't ended, and what is late
is sent with measure."""
import contextlib
import os
import signal
import time
from typing import Iterator, List

from checks import Checks
from rtsp_client.connection import Connection, Refused
from rtsp_client.messages import written
from rtsp_client.player import Player, Way

from .plays import MOST_IN_IT, most_at_once, runs, set_up_all, side_by_side
from .runner import serving_test
from .server import Presentation, Server

ONE_TRACK = Presentation(tracks=Presentation().tracks[:1])
SESSIONS = 1000
# How long a session lives, how long after a renewal the server stops, when renewals come after that, and how long it
# stands still, in seconds.
TIMEOUT, STOPS_AFTER, RENEWED_AFTER, STOPPED_FOR = 10, 4.0, 2.0, 8.0
OVER_TCP = ("Transport", "RTP/AVP/TCP;unicast;interleaved=0-1")


@contextlib.contextmanager
def stopped(server: Server) -> Iterator[None]:
    os.kill(server.process.pid, signal.SIGSTOP)
    try:
        yield
    finally:
        os.kill(server.process.pid, signal.SIGCONT)


class Session:
    """A session on a connection of its own."""

    def __init__(self, server: Server) -> None:
        self.uri = server.uri
        self.talk: Connection = server.connect()
        answer = self.talk.ask("SETUP", f"{server.uri}/a", [OVER_TCP])
        self.id = (answer.header("Session") or "").partition(";")[0]

    def renew(self) -> None:
        self.talk.send("GET_PARAMETER", self.uri, [("Session", self.id)])

    def is_lost(self) -> bool:
        """Whether a renewal is answered by anything but 200."""
        try:
            return self.talk.answer().status != 200
        except Refused:
            return True


def lost_over_stops(checks: Checks, stops: int) -> None:
    """Sessions whose renewals came in time, while the server stood still, and were read late."""
    rate = ONE_TRACK.whole_rate
    settings = {"sessions": SESSIONS, "uplink": SESSIONS * rate, "timeout": TIMEOUT, "workers": 1}
    with Server(checks, ONE_TRACK, **settings) as server:
        sessions = [Session(server) for _ in range(SESSIONS)]
        for it in sessions:
            it.renew()
        lost = sum(it.is_lost() for it in sessions)
        checks.same("sessions that are lost before", 0, lost)
        time.sleep(STOPS_AFTER)
        with stopped(server):
            time.sleep(RENEWED_AFTER)
            for it in sessions:
                it.renew()
            time.sleep(STOPPED_FOR - RENEWED_AFTER)
        for _ in range(stops - 1):
            # Long enough for some of the renewals, and for a sweep.
            time.sleep(0.005)
            with stopped(server):
                time.sleep(STOPPED_FOR)
        checks.same("sessions that are lost", 0, sum(it.is_lost() for it in sessions))
        server.answers("a new connection")
        for it in sessions:
            it.talk.close()


@serving_test(limit=60)
def sessions_outlive_a_stop(checks: Checks) -> None:
    """The server stands still for 8 s: none of 1,000 sessions is lost that were renewed meanwhile."""
    lost_over_stops(checks, 1)


@serving_test(limit=60, is_long=True)
def sessions_outlive_two_stops(checks: Checks) -> None:
    """The same where it stands still again, before it has read what had come."""
    lost_over_stops(checks, 2)


BEGUN = 600
UNFINISHED = 30.0


@serving_test(limit=80, is_long=True)
def messages_outlive_a_stop(checks: Checks) -> None:
    """Messages that are finished while the server stands still for longer than they may take are answered."""
    request = written("OPTIONS * RTSP/2.0", [("CSeq", "1")])
    with Server(checks, workers=1) as server:
        talks = [server.socket() for _ in range(BEGUN)]
        for talk in talks:
            talk.sendall(request[:10])
        time.sleep(2.0)
        with stopped(server):
            for talk in talks:
                talk.sendall(request[10:])
            time.sleep(UNFINISHED + 1.0)
        answered = 0
        for talk in talks:
            talk.settimeout(5)
            with contextlib.suppress(OSError):
                answered += talk.recv(100).startswith(b"RTSP/2.0 200 OK")
            talk.close()
        checks.same("messages that are answered", BEGUN, answered)


TONE_OF_A_MINUTE = Presentation(units=3000)
UNIT = TONE_OF_A_MINUTE.unit_ms / 1000
# The play that stands still for so long is on time again within so many seconds.
PLAY_STOPPED_FOR, CAUGHT_UP_WITHIN = 3.0, 4.0


@serving_test(limit=40, is_timed=True)
def packets_after_a_stop(checks: Checks) -> None:
    """After a stop plays catch up at twice their pace, over UDP and over the connection: each packet once."""
    with Server(checks, TONE_OF_A_MINUTE) as server:
        players: List[Player] = [server.player(way) for way in (Way.UDP, Way.TCP)]
        for player in players:
            set_up_all(player)
        began = []
        for player in players:
            player.play(0.0)
            began.append(time.monotonic())
        side_by_side(checks, *(lambda it=it: it.connection.wait(1.0) for it in players))
        with stopped(server):
            side_by_side(checks, *(lambda it=it: it.connection.wait(PLAY_STOPPED_FOR) for it in players))
        goes_on = time.monotonic()
        side_by_side(checks, *(lambda it=it: it.connection.wait(CAUGHT_UP_WITHIN) for it in players))
        for player, since in zip(players, began):
            for stream in player.streams:
                where, came = f"{player.way.value}, {stream.track.uri}", stream.reception
                most = most_at_once(came, goes_on)
                checks.that(f"{where}: at most {MOST_IN_IT} packets in 100 ms", most <= MOST_IN_IT, most)
                due = (came.packets[-1].at - since) / UNIT
                checks.that(f"{where}: it has caught up", len(came.packets) >= due - 5, (len(came.packets), due))
                checks.same(f"{where}: the units", runs(list(range(len(came.places)))), runs(came.places))
            player.tear_down()
