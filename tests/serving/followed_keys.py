"""Keys of `[server]` that a running server follows: lines of requests, what an address may have, a drain, who sees whom."""
import concurrent.futures
import contextlib
import socket
import time
from typing import List, Tuple

from checks import Checks

from .audience import asked, own_address
from .crowds import is_closed_by_server
from .events import is_told
from .growth import AT_MOST, Growing
from .operator import ACCESS
from .runner import serving_test
from .server import is_alive, lease, leases
from .shares import ONE, ONE_TRACK, OTHER, Talk, socket_from, talks_from, tear_down

# A session's end is told to the table by a sweep at the latest.
SWEPT = 4.0
# For so many seconds players come and go beside changes.
CHANGING = 12.0


def lines(server: Growing) -> List[bytes]:
    """The lines of requests so far."""
    time.sleep(0.3)
    return [it for it in server.told.lines() if b" access " in it]


@serving_test(limit=60)
def lines_of_requests_come_and_go(checks: Checks) -> None:
    """With `access_log` switched on each answer has its line from then on, on connections of before too, and none once it is off."""
    server = Growing(checks, ONE_TRACK)
    with server:
        talk = server.connect()
        talk.ask("OPTIONS", "*")
        checks.same("at first", [], lines(server))
        server.offer(ONE_TRACK, access_log="true")
        for _ in range(3):
            talk.ask("OPTIONS", "*")
        server.answers("a connection that comes")
        came = lines(server)
        checks.same("switched on", 4, len(came))
        whole = [ACCESS.fullmatch(it + b"\n") for it in came]
        checks.that("each is whole", all(whole), came)
        today = time.strftime("%Y-%m-%dT", time.gmtime()).encode()
        checks.that("with its moment", all(it.startswith(today) for it in came), came)
        server.offer(ONE_TRACK)
        talk.ask("OPTIONS", "*")
        checks.same("switched off", came, lines(server))
        server.offer(ONE_TRACK, access_log="true")
        talk.ask("OPTIONS", "*")
        checks.same("and on again", 5, len(lines(server)))


def more(talk: Talk, server: Growing, count: int) -> List[str]:
    """The sessions that an address may open, of so many that it asks for."""
    return [it.session for it in leases(talk, f"{server.uri}/a", count)]


@serving_test(limit=90)
def a_share_of_sessions_follows(checks: Checks) -> None:
    """The new number holds for who comes next: what an address has stays, also above it, and counts, also from a time without one."""
    server = Growing(checks, ONE_TRACK, sessions_per_address=4)
    with server, talks_from(server, ONE, OTHER) as (one, other):
        held = more(one, server, 5)
        checks.same("at first", 4, len(held))
        server.offer(ONE_TRACK, sessions_per_address=2)
        checks.same("what it has lives", [True] * 4, [is_alive(one, server.uri, it) for it in held])
        checks.same("above the smaller number", [], more(one, server, 1))
        checks.same("the other address", 2, len(more(other, server, 3)))
        for _ in range(2):
            checks.same("one ends", 200, tear_down(one, server, held.pop()))
            checks.same("as many as the smaller number, or more, are left", [], more(one, server, 1))
        checks.same("one more ends", 200, tear_down(one, server, held.pop()))
        held += more(one, server, 2)
        checks.same("and one may be opened", 2, len(held))
        server.offer(ONE_TRACK, sessions_per_address=5)
        held += more(one, server, 5)
        checks.same("up to the greater number", 5, len(held))
        server.given.pop("sessions_per_address")
        server.offer(ONE_TRACK)
        held += more(one, server, 4)
        checks.same("without a number", 9, len(held))
        server.offer(ONE_TRACK, sessions_per_address=7)
        checks.same("all nine live", [True] * 9, [is_alive(one, server.uri, it) for it in held])
        for number in range(3):
            checks.same(f"beyond seven, of {len(held)}", [], more(one, server, 1))
            tear_down(one, server, held.pop())
        held += more(one, server, 2)
        checks.same("up to seven", 7, len(held))
        checks.same("all end", [200] * 7, [tear_down(one, server, it) for it in held])
        checks.same("and as many may be opened again", 7, len(more(one, server, 9)))


@serving_test(limit=60)
def what_hung_up_without_a_share_counts_no_more(checks: Checks) -> None:
    """Sessions that ended with their connections while no address had a share are no part of one that comes."""
    wanted = [("Transport", "RTP/AVP/TCP;unicast;interleaved=0-1")]
    server = Growing(checks, ONE_TRACK)
    with server:
        for _ in range(3):
            with talks_from(server, *[ONE] * 4) as talks:
                checks.same("sessions over connections", [200] * 4, [it.ask("SETUP", f"{server.uri}/a", wanted).status for it in talks])
        server.offer(ONE_TRACK, sessions_per_address=3)
        time.sleep(SWEPT)
        with talks_from(server, ONE) as (one,):
            checks.same("its whole share", 3, len(more(one, server, 5)))


def open_from(server: Growing, address: str, count: int) -> Tuple[List[socket.socket], int]:
    """So many connections of an address, and how many of them the server closes at once."""
    made = [socket_from(server, address) for _ in range(count)]
    closed = [it for it in made if is_closed_by_server(it, 1.0)]
    for it in closed:
        it.close()
    return [it for it in made if it not in closed], len(closed)


@serving_test(limit=90)
def a_share_of_connections_follows(checks: Checks) -> None:
    """Who is connected stays, also above a smaller number, and counts, also from a time without one; whoever comes finds the new one."""
    server = Growing(checks, ONE_TRACK)
    with server, contextlib.ExitStack() as stack:
        kept, refused = open_from(server, ONE, 6)
        checks.same("without a number", (6, 0), (len(kept), refused))
        server.offer(ONE_TRACK, connections_per_address=4)
        checks.same("beyond four, of six", 2, open_from(server, ONE, 2)[1])
        checks.same("those that are there", [False] * 6, [is_closed_by_server(it, 0.1) for it in kept])
        theirs, refused = open_from(server, OTHER, 5)
        checks.same("the other address", (4, 1), (len(theirs), refused))
        for left in 5, 4:
            kept.pop().close()
            time.sleep(0.5)
            checks.same(f"beyond four, of {left}", 1, open_from(server, ONE, 1)[1])
        kept.pop().close()
        time.sleep(0.5)
        again, refused = open_from(server, ONE, 2)
        checks.same("up to four", (1, 1), (len(again), refused))
        server.offer(ONE_TRACK, connections_per_address=6)
        more_of_them, refused = open_from(server, ONE, 3)
        checks.same("up to six", (2, 1), (len(more_of_them), refused))
        server.offer(ONE_TRACK)
        free, refused = open_from(server, ONE, 8)
        checks.same("without a number again", (8, 0), (len(free), refused))
        for it in [*kept, *again, *more_of_them, *free, *theirs]:
            stack.callback(it.close)


def come_and_go(server: Growing, address: str, until: float) -> int:
    """Opens sessions from an address and ends them, over and over. How many were granted."""
    granted = 0
    with talks_from(server, address) as (talk,):
        while time.monotonic() < until:
            for it in leases(talk, f"{server.uri}/a", 3):
                granted += 1
                tear_down(talk, server, it.session)
    return granted


@serving_test(limit=120)
def shares_change_beside_who_comes_and_goes(checks: Checks) -> None:
    """While numbers change connections of an address open and end sessions: no place is lost by it, and none is given twice."""
    server = Growing(checks, ONE_TRACK, workers=4, connections_per_address=40)
    with server, concurrent.futures.ThreadPoolExecutor(6) as pool:
        until = time.monotonic() + CHANGING
        players = [pool.submit(come_and_go, server, ONE, until) for _ in range(6)]
        number = 0
        while time.monotonic() < until:
            share = (2, 1, None, 4)[number % 4]
            server.offer(ONE_TRACK, **({} if share is None else {"sessions_per_address": share}), connections_per_address=20 + number)
            number += 1
        granted = [it.result() for it in players]
        checks.that("each had some", all(granted), granted)
        server.offer(ONE_TRACK, sessions_per_address=3, connections_per_address=5)
        time.sleep(SWEPT)
        with talks_from(server, ONE) as (one,):
            checks.same("at the end: sessions", 3, len(more(one, server, 6)))
            _, refused = open_from(server, ONE, 6)
            checks.same("at the end: connections beyond five", 2, refused)


@serving_test(limit=60)
def a_drain_goes_by_the_last_number(checks: Checks) -> None:
    """It lasts as long as the configuration says by then."""
    server = Growing(checks, ONE_TRACK, drain=100)
    with server:
        talk = server.connect()
        held = lease(talk, f"{server.uri}/a")
        checks.that("a session lives", held is not None)
        server.offer(ONE_TRACK, drain=2)
        began = time.monotonic()
        checks.same("a drain", 200, asked(server.shown[0], "POST", "/drain")[0])
        is_told(checks, server, "for two seconds", rb"info draining: .* for up to 2 s")
        checks.same("the status", 0, server.ends(9))
        checks.that("it took them", time.monotonic() - began > 2.0, time.monotonic() - began)


@serving_test(limit=60)
def who_sees_players_follows(checks: Checks) -> None:
    """With `status_open` switched on players' addresses are shown to whoever asks, and not once it is off."""
    own = own_address()
    if own is None:
        checks.skip("who asks from elsewhere", "there is no address but loopback ones")
        return
    server = Growing(checks, ONE_TRACK)
    server.given["status"] = f'"0.0.0.0:{server.shown[0]}"'
    server.text = server.text_of(ONE_TRACK)
    with server:
        for is_open in False, True, False:
            server.offer(ONE_TRACK, status_open=str(is_open).lower())
            checks.same(f"{is_open}", 200 if is_open else 403, asked(server.shown[0], "GET", "/sessions", own)[0])


@serving_test(limit=60)
def a_key_that_stays_refuses_the_others(checks: Checks) -> None:
    """A file that changes one is refused whole: none of those that follow is taken from it."""
    server = Growing(checks, ONE_TRACK, workers=2)
    line = rb"warning the configuration isn't taken up: .*server\.workers is another.*"
    with server, talks_from(server, ONE) as (one,):
        held = more(one, server, 2)
        changed = {"access_log": "true", "sessions_per_address": 1, "connections_per_address": 1, "drain": 2, "status_open": "true"}
        server.put(server.text_of(ONE_TRACK, workers=3, **changed))
        checks.that("it is told", server.told.has_more(line, 0, AT_MOST), server.told.events())
        held += more(one, server, 2)
        checks.same("sessions", 4, len(held))
        checks.same("connections", 0, open_from(server, ONE, 3)[1])
        checks.same("lines of requests", [], lines(server))
        server.offer(ONE_TRACK, **changed)
        checks.same("without the key they are taken up", [], more(one, server, 1))
        checks.that("with lines", len(lines(server)) > 0)
