"""Plays that are begun faster than pacers hear of them: no more of them wait than there may be sessions, and nobody is
refused for it."""
import time

from checks import Checks
from rtsp_client.player import Way

from .checkpoints import MINUTE, SETTINGS, least_journal, play, poured
from .faults import FOR_EVER, Faults
from .plays import set_up_all
from .runner import serving_test
from .server import Presentation, Server, lease
from .stalled import answers_to

FLOODING, FLOODED_FOR = 8, 8.0
# What the journal, the sessions and what waits on the connections may take, in bytes.
GROWS_BY = 30_000_000
# Within so many seconds a player hears its first packet once the floods are over.
HEARD_WITHIN = 1.0


@serving_test(limit=45, is_timed=True)
def plays_without_end_on_eight_connections(checks: Checks) -> None:
    """Eight connections ask for PLAY without end: each is answered 200, memory stays, and a new play begins at once."""
    journal = least_journal(4, SETTINGS["sessions"], len(MINUTE.tracks))
    with Server(checks, MINUTE, workers=4, journal=journal, **SETTINGS) as server:
        server.answers("before")
        before = server.resident_bytes()
        with poured(server, ["PLAYs"] * FLOODING) as floods:
            time.sleep(FLOODED_FOR)
            grown = server.resident_bytes() - before
        for name, answered, refused in floods:
            checks.that(f"the flood of {name} was answered, and much", answered.value > 1000, answered.value)
            checks.same(f"the flood of {name}: answers but 200 of {answered.value}", 0, refused.value)
        checks.that(f"memory grows by less than {GROWS_BY} bytes", grown < GROWS_BY, grown)
        player = server.player(Way.UDP)
        streams = set_up_all(player)
        began = time.monotonic()
        player.play(0.0)
        player.connection.wait(HEARD_WITHIN, lambda: all(it.reception.packets for it in streams))
        took = time.monotonic() - began
        checks.that("a new play is heard", all(it.reception.packets for it in streams), took)
        player.tear_down()


# A pacer takes so many milliseconds for a packet, of which each play has one at once, and so many plays that wait are a
# crowd.
SLOW_PACKET, CROWD, PLAYS = 20, 4, 400
SLOW = Presentation(units=60, unit_ms=1000, tracks=Presentation().tracks[:1])
# For so many seconds at least the connection is held up, and so much of the time at most the server is busy meanwhile.
WAITED, BUSY = 2.0, 0.2


@serving_test(limit=60, is_timed=True)
def a_crowd_of_plays_is_waited_for(checks: Checks) -> None:
    """Plays that wait for a slow pacer hold their connection up: each is answered, and the lane rests meanwhile."""
    server = Server(checks, SLOW, sessions=CROWD, workers=2)
    faults = Faults(server.path)
    server.environment = faults.environment
    with server:
        talk = server.connect()
        session = lease(talk, f"{server.uri}/a").session
        faults.hold("datagram", SLOW_PACKET, 1, FOR_EVER)
        before, began = server.processor_seconds(), time.monotonic()
        talk.socket.sendall(play(server.uri, session) * PLAYS)
        checks.same("the answers", PLAYS, answers_to(talk.socket, PLAYS))
        took, busy = time.monotonic() - began, server.processor_seconds() - before
        faults.stop()
        checks.that("they waited for the pacer", took >= WAITED, took)
        checks.that("the lane rested", busy <= BUSY * took, (busy, took))
        talk.close()
