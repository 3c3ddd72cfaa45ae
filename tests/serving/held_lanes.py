"""A lane whose thread stands for seconds while the pacers go on, and plays that are late: a player that reads loses no packet;
of one over TCP that doesn't read what is dropped is told."""
import re
import signal
import time
from typing import List, Tuple

from checks import Checks
from rtsp_client.player import Player, Way

from .events import Telling
from .faults import Faults
from .operator import figures, shown_at
from .pauses import SHORT_UNITS, Watched, while_stopped
from .plays import runs
from .runner import serving_test
from .server import Server
from .slow_media import LEFT_AFTER, LEFT_AT, SLOW, on_a_slow_disk, place_of, player_of
from .stalls import FILM, is_whole, played
from .stops import stopped

LOST = "rtspd_packets_lost_total"
# For how long a lane stands, in seconds: longer than its players' streams may wait.
LANE_HELD = 3.5
# For how long its player doesn't read at the beginning of that, so that something waits for it.
UNREAD_FIRST = 0.5
# For how long the server stands, and then its player doesn't read: while its play catches up that is more than two seconds
# of the film.
SERVER_STOPPED, UNREAD_THEN = 2.0, 1.6


def lost_none(checks: Checks, player: Player, port: int, least: int) -> None:
    """That of so many packets at least each came, once, as the file has it."""
    came = player.streams[0].reception
    checks.that(f"{least} packets have come", len(came.packets) >= least, len(came.packets))
    checks.same("packets that are missing, and repeats", (0, 0), (len(came.missing), came.repeats))
    checks.that("each packet is as the file has it", is_whole(player, FILM))
    checks.same("frames that were dropped", 0, figures(port)[LOST])


@serving_test(limit=60, is_timed=True)
def a_lane_is_held_up(checks: Checks) -> None:
    """Its pacer writes what waits for a player, in its place: all frames come, and most of them while it stands."""
    port, address = shown_at()
    server = Server(checks, FILM, uplink=10**9, workers=1, status=address)
    faults = Faults(server.path)
    server.environment = faults.environment
    with server:
        player, other = played(server), server.connect()
        player.connection.wait(1.0)
        began = time.monotonic()
        faults.hold("receive", int(LANE_HELD * 1000))
        other.send("OPTIONS", "*")
        time.sleep(UNREAD_FIRST)
        player.connection.wait(LANE_HELD - UNREAD_FIRST - 0.3)
        before = len(player.streams[0].reception.packets)
        checks.same("the other connection is answered", 200, other.answer().status)
        held = time.monotonic() - began
        checks.that("the lane stood all the while", held >= LANE_HELD, held)
        player.connection.wait(2.0)
        units = int(held * 1000) // FILM.unit_ms
        checks.that("most of that time's frames came meanwhile", before >= units // 2, (before, units))
        lost_none(checks, player, port, units)
        other.close()
        player.tear_down()


@serving_test(limit=60, is_timed=True)
def a_stall_while_plays_catch_up(checks: Checks) -> None:
    """A play that is late sends twice its pace, and a reader that stalls for less than two seconds loses nothing of it."""
    port, address = shown_at()
    with Server(checks, FILM, uplink=10**9, status=address) as server:
        player = played(server)
        player.connection.wait(1.0)
        with stopped(server):
            player.connection.wait(SERVER_STOPPED)
        time.sleep(UNREAD_THEN)
        player.connection.wait(3.0)
        lost_none(checks, player, port, int((SERVER_STOPPED + UNREAD_THEN) * 1000) // FILM.unit_ms)
        player.tear_down()


# For how long the server stands while it is asked for a PAUSE, and then its lane, in seconds.
STOPPED_FOR, THEN_HELD = 3.0, 2.5


@serving_test(limit=60, is_timed=True)
def a_pause_behind_a_held_lane(checks: Checks) -> None:
    """All units of the time for which the server and then its lane stood come, once, up to the point of the PAUSE."""
    port, address = shown_at()
    server = Server(checks, SHORT_UNITS, workers=1, status=address)
    faults = Faults(server.path)
    server.environment = faults.environment
    with server:
        for way in Way.UDP, Way.TCP:
            watched = Watched(checks, server, way)
            watched.play()
            watched.goes()
            faults.hold("receive", int(THEN_HELD * 1000))
            while_stopped(server, STOPPED_FOR, lambda: watched.pause(STOPPED_FOR))
            watched.units_fit()
            checks.same(f"{way.value}: packets that were lost", 0, figures(port)[LOST])
            watched.player.tear_down()


# A read of a film is held up for longer than the server stands, and that longer than what was counted of a play that was
# left is waited for, in seconds.
READ_HELD, STOOD_FOR = 13.0, 11.0


@serving_test(limit=60, is_timed=True)
def a_left_play_outlives_a_stop(checks: Checks) -> None:
    """Its media isn't at hand when the server stands still for 11 s: what was counted comes once it is."""
    server, disk, _ = on_a_slow_disk(checks)
    with server:
        disk.meet("read", late=int(READ_HELD * 1000))
        player = player_of(server, SLOW)
        player.play(LEFT_AT)
        player.connection.wait(LEFT_AFTER)
        paused = player.pause()
        point = re.search(r"npt=(\d+\.\d+)-", paused.header("Range") or "")
        counted = place_of(float(point[1]) - LEFT_AT + 0.0005) if point else 0
        checks.that("some units were counted", counted > 0, paused.header("Range"))
        with stopped(server):
            # The read that is under way stays held up, and later ones aren't.
            disk.mend()
            time.sleep(STOOD_FOR)
        came = player.streams[0].reception
        checks.same("nothing has come yet", 0, len(came.packets))
        player.connection.wait(READ_HELD - STOOD_FOR + 3.0, lambda: len(came.packets) >= counted)
        player.connection.wait(0.3)
        checks.same("then what was counted comes", runs(list(range(counted))), runs(came.places))
        player.tear_down()


# For how long players don't read of whom it is told, in seconds.
UNREAD = 4.0
LOSES = rb"warning session (\d+):[0-9a-f]{8} lost frames, (\d+) so far: its player reads too slowly"


def told_of(server: Telling, before: int) -> List[Tuple[int, int]]:
    """The sessions of which it is told that frames were dropped, and how many, once there are more lines than before."""
    server.told.has_more(LOSES, before, 2.0)
    found = (re.fullmatch(LOSES, it) for it in server.told.events())
    return [(int(it[1]), int(it[2])) for it in found if it]


def stalls_twice(server: Server) -> None:
    """Plays, and doesn't read for a while; and the same in another play."""
    player = played(server)
    for _ in range(2):
        time.sleep(UNREAD)
        player.connection.wait(1.0)
        player.pause()
        player.connection.wait(1.0)
        player.play(0.0)
    player.tear_down()


@serving_test(limit=90, is_timed=True)
def dropped_frames_are_told(checks: Checks) -> None:
    """By one line of the log for each session, with how many they were and why, also at a stop; all count as lost."""
    port, address = shown_at()
    with Telling(checks, FILM, uplink=10**9, status=address, holds_signals=True) as server:
        stalls_twice(server)
        lost, told = figures(port)[LOST], told_of(server, 0)
        checks.same("lines that tell of the first session", 1, len(told))
        checks.that("some frames are told of, and less than are lost then", 0 < told[0][1] < lost, (told, lost))
        player = played(server)
        time.sleep(UNREAD)
        player.tear_down()
        told, more = told_of(server, 1), figures(port)[LOST] - lost
        checks.same("lines, and sessions that they tell of", (2, 2), (len(told), len(dict(told))))
        checks.same("how many frames the second one lost", more, told[-1][1])
        player = played(server)
        time.sleep(UNREAD)
        server.process.send_signal(signal.SIGTERM)
        checks.same("the status of a stop", 0, server.ends(10.0))
        checks.same("lines, with one of who was there still", 3, len(told_of(server, 2)))
        player.close()


WITHOUT_MEMORY = rb"warning session \d+:[0-9a-f]{8} lost frames, \d+ so far: no more is lent to what waits, or there is no memory"


@serving_test(limit=60, is_timed=True)
def frames_without_memory_are_told(checks: Checks) -> None:
    """Where no memory is left for what waits, that is the reason."""
    server = Telling(checks, FILM, uplink=10**9)
    faults = Faults(server.path)
    server.environment = faults.environment
    with server:
        player = played(server)
        player.connection.wait(1.0)
        faults.refuse("memory", 1)
        time.sleep(1.5)
        faults.stop()
        player.connection.wait(1.0)
        player.tear_down()
        checks.that("it is told, and why", server.told.has(WITHOUT_MEMORY), server.told.events())
