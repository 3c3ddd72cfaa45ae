"""What one address may have: its share of the sessions and of the connections, and nothing of another's."""
import collections
import contextlib
import random
import select
import socket
import threading
import time
from typing import Deque, Iterator, List, Optional, Tuple

from checks import Checks, Failed
from rtsp_client.messages import Message, Reader, written

from .crowds import is_closed_by_server
from .floods import at_99, flooded, seconds_to
from .operator import figures, shown_at
from .runner import serving_test
from .server import HERE, Presentation, Server, is_alive, lease, leases

# Players' addresses: all of 127.0.0.0/8 are the loopback's.
ONE, OTHER, THIRD = "127.0.0.2", "127.0.0.3", "127.0.0.4"
ONE_TRACK = Presentation(tracks=Presentation().tracks[:1])
SHARE = 4
ROUNDS = 200
TRANSPORTS = {
    'RTP/AVP;unicast;dest_addr=":9"/":9"': 503,
    'RTP/AVP;unicast;RTCP-mux;dest_addr=":9"': 503,
    "RTP/AVP/TCP;unicast;interleaved=0-1": 503,
    # What the request itself is refused for comes first.
    "RTP/AVP;multicast": 461,
    'RTP/AVP;unicast;dest_addr="127.0.0.9:9"/"127.0.0.9:9"': 463,
}


def socket_from(server: Server, address: str) -> socket.socket:
    return socket.create_connection((HERE, server.port), timeout=10, source_address=(address, 0))


class Talk:
    """A connection from an address of the loopback."""

    def __init__(self, server: Server, address: str) -> None:
        self.socket = socket_from(server, address)
        self.reader = Reader()
        self.answers: Deque[Message] = collections.deque()
        self.cseq = 0

    def send(self, method: str, uri: str, headers: List[Tuple[str, str]]) -> None:
        self.cseq += 1
        self.socket.sendall(written(f"{method} {uri} RTSP/2.0", [("CSeq", str(self.cseq)), *headers]))

    def answer(self) -> Message:
        while not self.answers:
            piece = self.socket.recv(65536)
            if not piece:
                raise Failed("the server closed a connection")
            came = self.reader.take(piece)
            self.answers += [it for it in came if isinstance(it, Message) and it.status is not None]
        return self.answers.popleft()

    def ask(self, method: str, uri: str, headers: List[Tuple[str, str]] = []) -> Message:
        self.send(method, uri, headers)
        return self.answer()

    def close(self) -> None:
        self.socket.close()


@contextlib.contextmanager
def talks_from(server: Server, *addresses: str) -> Iterator[List[Talk]]:
    talks = [Talk(server, address) for address in addresses]
    yield talks
    for talk in talks:
        talk.close()


def tear_down(talk: Talk, server: Server, session: str) -> int:
    return talk.ask("TEARDOWN", server.uri, [("Session", session)]).status or 0


def frees_up(talk: Talk, server: Server, within: float) -> Optional[str]:
    """A session that an address may open within so many seconds."""
    until = time.monotonic() + within
    while time.monotonic() < until:
        made = lease(talk, f"{server.uri}/a")
        if made:
            return made.session
        time.sleep(0.02)
    return None


def settings(share: int, **others: int) -> dict:
    """Room for all that a test opens, but for the shares."""
    many = 40
    return {"pairs": many, "uplink": many * ONE_TRACK.whole_rate * 2, "sessions": many, "sessions_per_address": share, **others}


@serving_test(limit=30)
def an_address_has_its_share_of_sessions(checks: Checks) -> None:
    """A SETUP beyond it is 503 and leaves nothing; what the address has goes on, and the other address has its own."""
    with Server(checks, **settings(SHARE)) as server, talks_from(server, ONE, OTHER) as (one, other):
        track = f"{server.uri}/a"
        held = leases(one, track, SHARE)
        checks.same("sessions of its share", SHARE, len(held))
        for transport, status in TRANSPORTS.items():
            answer = one.ask("SETUP", track, [("Transport", transport)])
            checks.same(f"beyond it, {transport}", (status, None), (answer.status, answer.header("Session")))
        pipelined = [("Transport", 'RTP/AVP;unicast;dest_addr=":9"/":9"'), ("Pipelined-Requests", "7")]
        checks.same("beyond it, by a startup number", 503, one.ask("SETUP", track, pipelined).status)
        more = lease(one, f"{server.uri}/b", held[0].session)
        checks.same("a further track of a session has the next ports", held[-1].port + 2, more and more.port)
        checks.that("a track is set up anew", lease(one, track, held[1].session) is not None)
        theirs = leases(other, track, SHARE + 1)
        checks.same("sessions of the other address", SHARE, len(theirs))
        for it in [*held, *theirs]:
            checks.that("it lives", is_alive(one, server.uri, it.session))
            checks.same("it is ended", 200, tear_down(one, server, it.session))
        all_again = [len(leases(talk, track, SHARE + 1)) for talk in (one, other)]
        checks.same("each has its share again", [SHARE, SHARE], all_again)


@serving_test(limit=60)
def a_share_is_given_back(checks: Checks) -> None:
    """However a session ends: by TEARDOWN over and over, from another address, with its connection, or by its time."""
    with Server(checks, **settings(SHARE, timeout=6)) as server:
        with talks_from(server, ONE, OTHER) as (one, other):
            track = f"{server.uri}/a"
            held = leases(one, track, SHARE - 1)
            fell_short = 0
            for _ in range(ROUNDS):
                last = lease(one, track)
                fell_short += last is None or lease(one, track) is not None or tear_down(one, server, last.session) != 200
            checks.same(f"rounds of {ROUNDS} in which its last session wasn't to be had, or more than that", 0, fell_short)
            held += leases(one, track, 1)
            checks.same("its sessions", SHARE, len(held))
            checks.same("another address ends one", 200, tear_down(other, server, held[0].session))
            checks.that("its place is free", lease(one, track) is not None)
            checks.same("and that alone", None, lease(one, track))
            checks.same("the other address hasn't lost any", SHARE, len(leases(other, track, SHARE + 1)))
        with talks_from(server, ONE) as (one,):
            took = time.monotonic()
            checks.that("its sessions expire, and it may open one", frees_up(one, server, 12.0) is not None)
            checks.that("no sooner than they may", time.monotonic() - took < 9.0)
        with talks_from(server, THIRD) as (third,):
            wanted = [("Transport", "RTP/AVP/TCP;unicast;interleaved=0-1")]
            for number in range(SHARE):
                statuses = third.ask("SETUP", f"{server.uri}/a", wanted).status
                checks.same(f"session {number} over the connection", 200, statuses)
            checks.same("beyond them", None, lease(third, f"{server.uri}/a"))
        with talks_from(server, THIRD) as (third,):
            checks.that("they end with it, and one may be opened", frees_up(third, server, 2.0) is not None)


@serving_test(limit=40)
def lanes_keep_a_share_together(checks: Checks) -> None:
    """Connections of one address ask at once, over and over: never more than its share is granted, and never less."""
    connections, each, rounds = 12, 8, 25
    asked = [("Transport", 'RTP/AVP;unicast;dest_addr=":9"/":9"')]
    with Server(checks, **settings(SHARE, workers=8)) as server:
        with talks_from(server, *[ONE] * connections) as talks, talks_from(server, OTHER) as (other,):
            theirs = lease(other, f"{server.uri}/a")
            came = []
            for _ in range(rounds):
                begin = threading.Barrier(connections)
                made: List[str] = []

                def ask_all(talk: Talk) -> None:
                    request = [("CSeq", "1"), *asked]
                    data = written(f"SETUP {server.uri}/a RTSP/2.0", request) * each
                    begin.wait()
                    talk.socket.sendall(data)
                    items: List[Message] = []
                    while len(items) < each:
                        items += [it for it in talk.reader.take(talk.socket.recv(65536)) if isinstance(it, Message)]
                    made.extend((it.header("Session") or "").partition(";")[0] for it in items if it.status == 200)

                threads = [threading.Thread(target=ask_all, args=(talk,)) for talk in talks]
                for thread in threads:
                    thread.start()
                for thread in threads:
                    thread.join()
                came.append(len(made))
                for session in made:
                    tear_down(talks[0], server, session)
            checks.same("sessions that were granted in each round", [SHARE] * rounds, came)
            checks.that("another address's session lives", theirs is not None and is_alive(other, server.uri, theirs.session))


@serving_test(limit=60)
def addresses_without_end(checks: Checks) -> None:
    """Many addresses open sessions that end, more than there are places to remember them in: the next one may too."""
    many = 500
    small = {"pairs": 8, "uplink": 8 * ONE_TRACK.whole_rate * 2, "sessions": 8, "sessions_per_address": 2, "workers": 2}
    with Server(checks, **small) as server, talks_from(server, ONE) as (one,):
        held = leases(one, f"{server.uri}/a", 2)
        refused = 0
        for number in range(many):
            with talks_from(server, f"127.1.{number // 250}.{number % 250 + 1}") as (talk,):
                made = leases(talk, f"{server.uri}/a", 3)
                refused += len(made) != 2
                for it in made:
                    # Half of them are ended by somebody else.
                    tear_down(talk if number % 2 else one, server, it.session)
        checks.same(f"addresses of {many} that hadn't their share", 0, refused)
        checks.same("the first one's sessions live", 2, sum(is_alive(one, server.uri, it.session) for it in held))
        checks.same("and are its share still", None, lease(one, f"{server.uri}/a"))


@serving_test(limit=30)
def an_address_has_its_share_of_connections(checks: Checks) -> None:
    """One beyond it is closed at once, one that is closed makes room, and another address connects as ever."""
    with Server(checks, connections_per_address=SHARE, workers=8) as server:
        before = server.descriptors_at_rest()
        with talks_from(server, *[ONE] * SHARE) as talks:
            for talk in talks:
                checks.same("one of its share is answered", 200, talk.ask("OPTIONS", "*").status)
            more = [socket_from(server, ONE) for _ in range(20)]
            checks.same("beyond it each is closed at once", [True] * 20, [is_closed_by_server(it, 3.0) for it in more])
            with talks_from(server, *[OTHER] * SHARE) as theirs:
                statuses = [talk.ask("OPTIONS", "*").status for talk in theirs]
                checks.same("the other address's are answered", [200] * SHARE, statuses)
            for talk in talks:
                checks.same("those that are there are answered", 200, talk.ask("OPTIONS", "*").status)
            for talk in more:
                talk.close()
        rests = server.descriptors_fall_to(before, 5.0)
        checks.same("the descriptors afterwards", before, rests)
        fell_short = 0
        for _ in range(ROUNDS):
            with talks_from(server, *[ONE] * SHARE) as talks:
                with contextlib.suppress(Failed, OSError):
                    fell_short -= sum(talk.ask("OPTIONS", "*").status == 200 for talk in talks) == SHARE
                fell_short += 1
            # The server reads the ends of connections after they have gone.
            server.descriptors_fall_to(before, 5.0)
        checks.same(f"rounds of {ROUNDS} in which its share wasn't to be had", 0, fell_short)


# The sessions of an address that has as many as a carrier's, over so many connections, and what it floods.
MANY, CARRIERS, FLOODS = 2_000, 16, 8
INTERLEAVED = [("Transport", "RTP/AVP/TCP;unicast;interleaved=0-1")]
# Within so many seconds others are answered, 99 of 100 of them, so often asked.
OTHERS_WITHIN, OTHERS = 0.02, 300


def session_of(answer: Message) -> str:
    return (answer.header("Session") or "").partition(";")[0]


def sessions_over(talk: Talk, uri: str, count: int) -> List[str]:
    """Those that are opened of so many sessions over a connection, all asked for at once."""
    talk.socket.sendall(written(f"SETUP {uri} RTSP/2.0", [("CSeq", "1"), *INTERLEAVED]) * count)
    answers = [talk.answer() for _ in range(count)]
    return [session_of(it) for it in answers if it.status == 200]


def flood(port: int, uri: str, address: str) -> None:
    """Asks for one session after another, and reads what comes, until it is ended."""
    talk = socket.create_connection((HERE, port), timeout=60, source_address=(address, 0))
    request = written(f"SETUP {uri} RTSP/2.0", [("CSeq", "1"), *INTERLEAVED]) * 100
    talk.setblocking(False)
    poll = select.poll()
    poll.register(talk, select.POLLIN | select.POLLOUT)
    left = b""
    while True:
        for _, events in poll.poll():
            with contextlib.suppress(BlockingIOError):
                if events & select.POLLIN and not talk.recv(1 << 20):
                    return
                left = left or request
                left = left[talk.send(left) :]


@serving_test(limit=120, is_alone=True)
def a_spent_share_holds_up_its_own_address(checks: Checks) -> None:
    """An address that has its 2,000 sessions asks for more on eight connections without end; another one's new sessions
    and requests are answered within 20 ms, 99 of 100 of them."""
    most = {"sessions": MANY + 40, "sessions_per_address": MANY, "uplink": 2 * MANY * ONE_TRACK.whole_rate * 2}
    with Server(checks, ONE_TRACK, **most) as server, talks_from(server, *[ONE] * CARRIERS) as carriers:
        track = f"{server.uri}/a"
        held = [len(sessions_over(talk, track, MANY // CARRIERS)) for talk in carriers]
        checks.same("sessions of its share", MANY, sum(held))
        with flooded(server, FLOODS, ONE, flood):
            opened, answered, refused = [], [], 0
            for _ in range(OTHERS):
                with talks_from(server, OTHER) as (talk,):
                    answered.append(seconds_to(lambda: talk.ask("OPTIONS", "*")))
                    statuses: List[Optional[int]] = []
                    opened.append(seconds_to(lambda: statuses.append(talk.ask("SETUP", track, INTERLEAVED).status)))
                    refused += statuses != [200]
        checks.same("the other address's sessions that were refused", 0, refused)
        for what, took in ("a session", opened), ("an answer", answered):
            checks.that(f"{what}: 99 of 100 within 20 ms", at_99(took) <= OTHERS_WITHIN, (at_99(took), max(took)))


# A share of hundreds, over so many connections, and when its sessions end that nobody renews, in seconds.
HUNDREDS, OVER, UNRENEWED = 400, 4, 30


def ask_for_more(talk: Talk, uri: str) -> int:
    return talk.ask("SETUP", uri, INTERLEAVED).status or 0


def given_back_by_teardown(checks: Checks, server: Server, carriers: List[Talk], held: List[Tuple[Talk, str]]) -> None:
    """Each session is torn down, in any order, and one is opened in its place: by the next request, or in the same write."""
    track = f"{server.uri}/a"
    random.shuffle(held)
    more = missed = 0
    for number, (talk, session) in enumerate(held):
        more += ask_for_more(carriers[number % OVER], track) != 503
        if number % 2:
            talk.send("TEARDOWN", server.uri, [("Session", session)])
            talk.send("SETUP", track, INTERLEAVED)
            statuses = [talk.answer().status, talk.answer().status]
        else:
            statuses = [tear_down(talk, server, session), ask_for_more(talk, track)]
        missed += statuses != [200, 200]
    checks.same("those that it had beyond its share", 0, more)
    checks.same(f"places of {HUNDREDS} that weren't had again at once", 0, missed)
    checks.same("beyond them", 503, ask_for_more(carriers[0], track))


def given_back_by_hanging_up(checks: Checks, server: Server, carrier: Talk) -> None:
    """One of the connections that have the share is closed: as many as it had may be opened as soon as it has ended."""
    track = f"{server.uri}/a"
    with talks_from(server, ONE) as (new,):
        checks.same("beyond its share", 503, ask_for_more(new, track))
        before = server.descriptors()
        carrier.close()
        server.descriptors_fall_to(before - 1, 5.0)
        checks.same("in place of those", HUNDREDS // OVER, len(sessions_over(new, track, HUNDREDS // OVER + 20)))


def given_back_by_expiry(checks: Checks, server: Server, status_port: int) -> None:
    """Nobody renews them: once none lives, as many may be opened."""
    until = time.monotonic() + 2 * UNRENEWED
    while figures(status_port)["rtspd_sessions"] > 0 and time.monotonic() < until:
        time.sleep(0.05)
    with talks_from(server, *[ONE] * OVER) as talks:
        held = [len(sessions_over(talk, f"{server.uri}/a", HUNDREDS // OVER)) for talk in talks]
        checks.same("those that are opened", [HUNDREDS // OVER] * OVER, held)
        checks.same("beyond them", 503, ask_for_more(talks[0], f"{server.uri}/a"))


@serving_test(limit=120)
def a_large_share_is_given_back(checks: Checks) -> None:
    """However one of its many sessions ends, the address may open another in its place at once, at the first try."""
    port, address = shown_at()
    share = {"sessions": HUNDREDS + 8, "sessions_per_address": HUNDREDS, "timeout": UNRENEWED, "status": address}
    with Server(checks, ONE_TRACK, uplink=2 * HUNDREDS * ONE_TRACK.whole_rate * 2, **share) as server:
        with talks_from(server, *[ONE] * OVER) as carriers:
            made = [(talk, sessions_over(talk, f"{server.uri}/a", HUNDREDS // OVER)) for talk in carriers]
            held = [(talk, session) for talk, sessions in made for session in sessions]
            checks.same("its sessions", HUNDREDS, len(held))
            given_back_by_teardown(checks, server, carriers, held)
            given_back_by_hanging_up(checks, server, carriers[-1])
            given_back_by_expiry(checks, server, port)
