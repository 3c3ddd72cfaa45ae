"""Sessions that end by time, connections that are closed, and what they held."""
import socket
import time

from checks import Checks
from rtsp_client.messages import END, written
from rtsp_client.player import Way

from .floods import at_99, seconds_to
from .plays import set_up_all
from .runner import serving_test
from .server import Presentation, Server, is_alive, is_free, lease, leases

ONE_TRACK = Presentation(tracks=Presentation().tracks[:1])
TIMEOUT = 5
# The step of renewals, in milliseconds: below the timeout less the time between two polls.
STEP = 1_000
# A session may live so much longer than its timeout, in seconds: the sweeps are a second apart.
SWEPT_WITHIN = 1.5


@serving_test(limit=30, is_timed=True)
def a_silent_session_expires(checks: Checks) -> None:
    """Many sessions over UDP that say nothing, one of which plays, end within a sweep; one renewed in steps lives."""
    count = 150
    rate = ONE_TRACK.whole_rate
    settings = {"pairs": count, "sessions": count, "uplink": count * rate, "timeout": TIMEOUT, "renewal_step": STEP}
    with Server(checks, ONE_TRACK, **settings) as server:
        before = server.descriptors_at_rest()
        player = server.player(Way.UDP)
        player.set_up(player.describe()[0])
        player.play()
        last = time.monotonic()
        talk = server.connect()
        made = leases(talk, f"{server.uri}/a", count - 1)
        checks.same("sessions with a pair each", count - 1, len(made))
        checks.same("all pairs, sessions and bandwidth are held", None, lease(talk, f"{server.uri}/a"))
        kept = made[0]
        ended = time.monotonic() + TIMEOUT + SWEPT_WITHIN
        while time.monotonic() < ended:
            player.connection.wait(0.4)
            checks.that("a session that is renewed lives", is_alive(talk, server.uri, kept.session))
        player.connection.wait(0.05)
        came = player.streams[0].reception
        checks.that("the silent player was sent packets", len(came.packets) > 50, len(came.packets))
        plays_until = came.packets[-1].at - last if came.packets else 0.0
        is_right = TIMEOUT - 0.5 <= plays_until <= TIMEOUT + SWEPT_WITHIN
        checks.that("its packets end with its session", is_right, plays_until)
        alive = [it.session for it in made[1:] if is_alive(talk, server.uri, it.session)]
        checks.same("sessions that live and were silent", [], alive)
        free = sum(is_free(socket.SOCK_DGRAM, it.port) for it in made[1:])
        checks.same("ports that nobody has any more", len(made) - 1, free)
        again = leases(talk, f"{server.uri}/a", count - 1)
        checks.same("all pairs but the kept one are granted again", count - 1, len(again))
        for it in [*again, kept]:
            talk.ask("TEARDOWN", server.uri, [("Session", it.session)])
        talk.close()
        player.close()
        checks.same("the descriptors afterwards", before, server.descriptors_fall_to(before, 5.0))


PLAYERS = 20


@serving_test(limit=20)
def closed_connections_leave_no_descriptor(checks: Checks) -> None:
    """Players over UDP whose connections are closed while they play: their packets go on, their descriptors go."""
    room = {"pairs": PLAYERS, "uplink": PLAYERS * ONE_TRACK.whole_rate}
    with Server(checks, ONE_TRACK, **room) as server:
        players = [server.player(Way.UDP) for _ in range(PLAYERS)]
        for player in players:
            set_up_all(player)
            player.play()
        talk = server.connect()
        talk.ask("OPTIONS", "*")
        before = server.descriptors()
        for player in players:
            player.connection.socket.close()
            player.connection.is_closed = True
        checks.same("the descriptors afterwards", before - PLAYERS, server.descriptors_fall_to(before - PLAYERS, 2.0))
        for player in players:
            came = player.streams[0].reception.packets
            first = len(came)
            player.connection.wait(0.2)
            checks.that("its packets go on", len(came) > first, (first, len(came)))
        checks.same("sessions that live", PLAYERS, sum(is_alive(talk, server.uri, it.session or "") for it in players))
        for player in players:
            talk.ask("TEARDOWN", server.uri, [("Session", player.session or "")])
            player.close()
        talk.close()


# Sessions that end at once: of so many connections, so many of each; or after so many seconds.
CONNECTIONS, EACH, ENDS_AFTER = 10, 100, 10
OVER_TCP = ("Transport", "RTP/AVP/TCP;unicast;interleaved=0-1")
# For so many seconds somebody is asked about who renews, and so long an answer may take, at 99 of 100.
ASKS_FOR, SOON = 2.0, 0.1


def with_sessions(server: Server) -> socket.socket:
    """A connection with many sessions of its own."""
    talk = server.socket()
    talk.sendall(written(f"SETUP {server.uri}/a RTSP/2.0", [("CSeq", "1"), OVER_TCP]) * EACH)
    came = b""
    while came.count(END) < EACH:
        came += talk.recv(1 << 16)
    server.checks.same("sessions of a connection", EACH, came.count(b"RTSP/2.0 200"))
    return talk


@serving_test(limit=60, is_alone=True)
def others_beside_an_end_of_many_sessions(checks: Checks) -> None:
    """A thousand sessions end at once, with their connections or by their time: who renews is answered soon."""
    settings = {"sessions": CONNECTIONS * EACH + 1, "uplink": 10**10, "timeout": ENDS_AFTER, "renewal_step": STEP}
    for is_by_time in False, True:
        with Server(checks, ONE_TRACK, **settings) as server:
            talk = server.connect()
            kept = lease(talk, f"{server.uri}/a").session
            began = time.monotonic()
            talks = [with_sessions(server) for _ in range(CONNECTIONS)]
            if is_by_time:
                time.sleep(max(began + ENDS_AFTER / 2 - time.monotonic(), 0.0))
                is_alive(talk, server.uri, kept)
                time.sleep(max(began + ENDS_AFTER - 0.5 - time.monotonic(), 0.0))
            else:
                for it in talks:
                    it.close()
            waits = []
            until = time.monotonic() + ASKS_FOR + (SWEPT_WITHIN if is_by_time else 0.0)
            while time.monotonic() < until:
                waits.append(seconds_to(lambda: checks.that("it lives", is_alive(talk, server.uri, kept))))
                time.sleep(0.005)
            where = "by their time" if is_by_time else "with their connections"
            checks.that(f"{where}: a renewal is answered soon", at_99(waits) <= SOON, at_99(waits))
            again = server.socket() if is_by_time else with_sessions(server)
            again.close()
            talk.close()
            for it in talks:
                it.close()
