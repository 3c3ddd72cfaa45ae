"""A server whose calls fail: memory, connections, ports, words and packets are refused it, one after another."""
import contextlib
import errno
import re
import socket
import time
from typing import Dict, Iterator, List, NamedTuple, Optional, Tuple

from checks import Checks
from rtsp_client.connection import Connection, Refused
from rtsp_client.messages import Message
from rtsp_client.player import Way

from .faults import Faults
from .plays import runs
from .runner import serving_test
from .server import TONE, Server, is_alive, is_free, lease, leases

OVER_UDP = ("Transport", 'RTP/AVP;unicast;dest_addr=":9"/":9"')
OVER_ONE_PORT = ("Transport", 'RTP/AVP;unicast;dest_addr=":9";RTCP-mux')
OVER_TCP = ("Transport", "RTP/AVP/TCP;unicast;interleaved=0-1")
# A startup number, in place of a session's id (RFC 7826 section 18.33).
SEVEN, EIGHT = ("Pipelined-Requests", "7"), ("Pipelined-Requests", "8")
PAIRS = 2
MOST_CALLS = 1000
# A freed pair stays bound until the pacer has seen the end of the play; a descriptor goes with it.
RESTS_WITHIN = 5.0


class Request(NamedTuple):
    """A request of a conversation. It names the session that was opened so many sessions before, if any."""

    method: str
    path: str = ""
    headers: Tuple[Tuple[str, str], ...] = ()
    session: Optional[int] = None


SETUP_UDP = Request("SETUP", "/a", (OVER_UDP,))
SETUP_ONE_PORT = Request("SETUP", "/a", (OVER_ONE_PORT,))
SETUP_TCP = Request("SETUP", "/a", (OVER_TCP,))
CONVERSATIONS: Dict[str, List[Request]] = {
    "three messages": [Request("OPTIONS"), SETUP_TCP, Request("TEARDOWN", session=0)],
    "two sessions over UDP": [
        SETUP_UDP,
        SETUP_UDP,
        Request("TEARDOWN", session=0),
        SETUP_UDP,
        Request("TEARDOWN", session=2),
        Request("TEARDOWN", session=1),
    ],
    "pipelined": [
        Request("SETUP", "/a", (OVER_TCP, SEVEN)),
        Request("SETUP", "/b", (OVER_TCP, SEVEN)),
        Request("PLAY", headers=(EIGHT,)),
        Request("PLAY", headers=(SEVEN,)),
    ],
    "from one port to two": [SETUP_ONE_PORT, SETUP_UDP._replace(session=0), Request("TEARDOWN", session=0)],
    "from UDP to channels": [SETUP_UDP, SETUP_TCP._replace(session=0), Request("TEARDOWN", session=0)],
    "a play over UDP": [
        Request("DESCRIBE"),
        SETUP_UDP,
        Request("PLAY", session=0),
        Request("GET_PARAMETER", session=0),
        Request("PAUSE", session=0),
        Request("TEARDOWN", session=0),
    ],
}


class Answer(NamedTuple):
    """What is compared of an answer: its status, and the pair or the channels that it grants."""

    status: int
    granted: Optional[str]


class Talk:
    """A conversation on one connection. It is over where the server ended it."""

    def __init__(self, server: Server) -> None:
        self.server = server
        self.connection = server.connect()
        self.sessions: List[str] = []

    def ask(self, request: Request) -> Optional[Message]:
        headers = list(request.headers)
        if request.session is not None:
            headers.append(("Session", self.sessions[request.session]))
        uri = "*" if request.method == "OPTIONS" else self.server.uri + request.path
        try:
            answer = self.connection.ask(request.method, uri, headers)
        except Refused:
            return None
        named = (answer.header("Session") or "").partition(";")[0]
        if answer.status == 200 and named and named not in self.sessions:
            self.sessions.append(named)
        return answer


def read(answer: Message) -> Answer:
    granted = re.search(r'(src_addr="[^;]*|interleaved=[\d-]*)', answer.header("Transport") or "")
    return Answer(answer.status or 0, granted[1] if granted else None)


@contextlib.contextmanager
def failing_server(checks: Checks, **settings: int) -> Iterator[Tuple[Server, Faults, int]]:
    """A server with bandwidth, sessions and pairs for two streams, and how many descriptors it has at rest."""
    numbers = {"pairs": PAIRS, "sessions": 2, "uplink": PAIRS * TONE.rate(TONE.tracks[0]), **settings}
    server = Server(checks, **numbers)
    faults = Faults(server.path)
    server.environment = faults.environment
    with server:
        yield server, faults, server.descriptors_at_rest()


def rests(checks: Checks, server: Server, at_rest: int) -> None:
    """Waits until what was open has been closed: the server has then taken leave of its connections."""
    until = time.monotonic() + RESTS_WITHIN
    found = server.descriptors()
    while found > at_rest and time.monotonic() < until:
        time.sleep(0.005)
        found = server.descriptors()
    if found > at_rest:
        checks.same("the descriptors between two conversations", at_rest, found)


def holds_nothing(checks: Checks, server: Server, at_rest: int) -> None:
    """That all pairs, sessions and bandwidth are free."""
    rests(checks, server, at_rest)
    talk = server.connect()
    made = leases(talk, f"{server.uri}/a", PAIRS)
    wanted = [server.first_port + 2 * number for number in range(PAIRS)]
    checks.same("all pairs, sessions and bandwidth are free", wanted, [it.port for it in made])
    for it in made:
        talk.ask("TEARDOWN", server.uri, [("Session", it.session)])
    talk.close()
    rests(checks, server, at_rest)


# What is answered where there is no memory: the second one where there is none to bind a pair by, and no other is free.
WITHOUT_MEMORY = 500, 503


def by_first_use(answers: Optional[List[Answer]]) -> Optional[List[Answer]]:
    """The answers with the pairs in the order of their first use: where there is no memory to bind one, the next is tried."""
    if answers is None:
        return None
    pairs = list(dict.fromkeys(it.granted for it in answers if it.granted and it.granted.startswith("src_addr")))
    return [it._replace(granted=f"pair {pairs.index(it.granted)}") if it.granted in pairs else it for it in answers]


class Refusals:
    """A conversation in which a request is asked again where there was no memory for it, and which begins anew on another
    connection where the server ended its first one."""

    def __init__(self, checks: Checks, server: Server, at_rest: int) -> None:
        self.checks = checks
        self.server = server
        self.at_rest = at_rest
        self.count = 0

    def once(self, conversation: List[Request]) -> Optional[List[Answer]]:
        talk, answers = Talk(self.server), []
        for request in conversation:
            answer = talk.ask(request)
            if answer and answer.status in WITHOUT_MEMORY and answer.cseq is not None:
                self.count += 1
                answer = talk.ask(request)
            if answer is None or answer.status in WITHOUT_MEMORY:
                self.count += 1
                break
            answers.append(read(answer))
        talk.connection.close()
        if len(answers) < len(conversation):
            self.end(talk.sessions)
            return None
        rests(self.checks, self.server, self.at_rest)
        return answers

    def end(self, sessions: List[str]) -> None:
        """Ends the sessions that the end of their connection has left."""
        talk = self.server.connect()
        for session in sessions:
            talk.ask("TEARDOWN", self.server.uri, [("Session", session)])
        talk.close()
        rests(self.checks, self.server, self.at_rest)

    def run(self, conversation: List[Request]) -> Optional[List[Answer]]:
        self.count = 0
        return self.once(conversation) or self.once(conversation)


@serving_test(limit=150)
def every_allocation_refused_in_turn(checks: Checks) -> None:
    """Where there is no memory a request is answered 500, or 503 for want of a pair, or the connection ends; and nothing
    of it was done."""
    with failing_server(checks) as (server, faults, at_rest):
        refusals = Refusals(checks, server, at_rest)
        for name, conversation in CONVERSATIONS.items():
            right, seen = refusals.run(conversation), 0
            checks.same(f"{name}, with memory: refusals", 0, refusals.count)
            for number in range(1, MOST_CALLS):
                faults.refuse("memory", number, number)
                came = refusals.run(conversation)
                asked = faults.asked("memory")
                faults.stop()
                checks.same(f"{name}, without allocation {number}", by_first_use(right), by_first_use(came))
                checks.that(f"{name}, without allocation {number}: refused once", refusals.count <= 1, refusals.count)
                seen += refusals.count
                if asked < number:
                    break
            checks.that(f"{name}: some requests were refused", seen >= len(conversation), seen)
            checks.that(f"{name}: some run met no refusal", asked < number, asked)
        holds_nothing(checks, server, at_rest)


@serving_test(limit=30, is_timed=True)
def sessions_end_without_memory(checks: Checks) -> None:
    """With every allocation refused sessions still end: by the end of their connection, and by their time."""
    timeout = 4
    room = {"pairs": 4, "sessions": 6, "uplink": 12 * TONE.whole_rate, "timeout": timeout}
    with failing_server(checks, **room) as (server, faults, at_rest):
        silent = server.connect()
        made = leases(silent, f"{server.uri}/a", 2)
        silent.ask("PLAY", server.uri, [("Session", made[0].session)])
        leaving = server.connect()
        mixed = lease(leaving, f"{server.uri}/a")
        named = [("Session", mixed.session)]
        checks.same("a stream over the connection", 200, leaving.ask("SETUP", f"{server.uri}/b", [*named, OVER_TCP]).status)
        player = server.player(Way.TCP)
        for track in player.describe():
            player.set_up(track)
        player.play()
        player.connection.wait(0.2)
        faults.refuse("memory", 1)
        began = time.monotonic()
        leaving.close()
        player.close()
        # What stays is the silent connection and its two pairs.
        checks.same("the descriptors once the others have gone", at_rest + 5, server.descriptors_fall_to(at_rest + 5, 1.5))
        checks.that("the pair of a session that hung up is free", is_free(socket.SOCK_DGRAM, mixed.port))
        checks.that("that came of the hang-up", time.monotonic() < began + timeout - 1)
        checks.same("and later", at_rest + 1, server.descriptors_fall_to(at_rest + 1, timeout + 2.0))
        checks.same("pairs of sessions that expired are free", [True] * 2, [is_free(socket.SOCK_DGRAM, it.port) for it in made])
        # The lines of the log that would tell of those that ended want some, two each at most.
        asked = faults.asked("memory")
        checks.that("no memory is taken for it", asked <= 2 * (len(made) + 2), asked)
        faults.stop()
        gone = [it.session for it in [*made, mixed]] + [player.session or ""]
        checks.same("sessions that live", [], [it for it in gone if is_alive(silent, server.uri, it)])
        silent.close()
        rests(checks, server, at_rest)


@serving_test(limit=20, is_timed=True)
def the_end_of_a_play_without_memory(checks: Checks) -> None:
    """PLAY_NOTIFY isn't lost where there is no memory for it: it comes once there is."""
    with failing_server(checks, uplink=2 * TONE.whole_rate) as (server, faults, _):
        player = server.player(Way.UDP)
        player.set_up(player.describe()[0])
        player.play(9.0)
        came = player.streams[0].reception.packets
        player.connection.wait(0.3)
        faults.refuse("memory", 1)
        player.connection.wait(1.2)
        checks.same("all is sent", 50, len(came))
        checks.that("nothing is told of the end", player.notice is None)
        checks.that("memory was asked for", faults.asked("memory") > 0)
        faults.stop()
        checks.that("then it is told", player.listen(3.0))
        player.tear_down()


def answered(server: Server, conversation: List[Request]) -> List[Answer]:
    """The answers to a conversation, up to where the server ended it."""
    talk, answers = Talk(server), []
    for request in conversation:
        answer = talk.ask(request)
        if answer is None:
            break
        answers.append(read(answer))
    talk.connection.close()
    return answers


@serving_test(limit=30)
def connections_that_break(checks: Checks) -> None:
    """At each read and at each write in turn: what was answered until then is right, and the session has ended."""
    conversation = [Request("OPTIONS"), *CONVERSATIONS["pipelined"][:3]]
    with failing_server(checks) as (server, faults, at_rest):
        right = answered(server, conversation)
        checks.same("unbroken", [200, 200, 200, 454], [it.status for it in right])
        rests(checks, server, at_rest)
        for kind, error in (("receive", errno.ECONNRESET), ("send", errno.EPIPE)):
            for number in range(1, MOST_CALLS):
                faults.refuse(kind, number, number, error)
                came = answered(server, conversation)
                asked = faults.asked(kind)
                faults.stop()
                where = f"broken at {kind} {number}"
                checks.same(f"{where}: the answers", right[: len(came)], came)
                rests(checks, server, at_rest)
                if len(came) == len(right):
                    break
            checks.that(f"{kind}: each request had its turn", number > len(conversation), number)
            checks.that(f"{kind}: the last run wasn't broken before its end", asked <= number, asked)
        holds_nothing(checks, server, at_rest)


@serving_test(limit=30)
def ports_words_and_connections_that_fail(checks: Checks) -> None:
    """A port that can't be bound, words that can't be had, a connection that goes before it is accepted."""
    with failing_server(checks) as (server, faults, at_rest):
        ports = []
        talk = server.connect()
        for number in 1, 2, 3:
            faults.refuse("bind", number, number, errno.EADDRINUSE)
            granted = lease(talk, f"{server.uri}/a")
            ports.append(granted.port - server.first_port)
            talk.ask("TEARDOWN", server.uri, [("Session", granted.session)])
        checks.same("the pairs where the 1st, 2nd and 3rd bind fails", [2, 2, 0], ports)
        faults.refuse("bind", 1, error=errno.EACCES)
        checks.same("where each fails", 503, talk.ask("SETUP", f"{server.uri}/a", [OVER_UDP]).status)
        checks.same("how often it was tried", PAIRS, faults.asked("bind"))
        faults.stop()
        faults.refuse("words", 1)
        for number in range(2 * PAIRS):
            answer = talk.ask("SETUP", f"{server.uri}/a", [OVER_UDP])
            checks.same("a SETUP without words", (500, talk.cseq), (answer.status, answer.cseq))
        checks.same("OPTIONS without words", 200, talk.ask("OPTIONS", "*").status)
        faults.stop()
        talk.close()
        holds_nothing(checks, server, at_rest)
        for error in errno.ECONNABORTED, errno.EPROTO, errno.ENOBUFS:
            faults.refuse("accept", 1, 3, error)
            server.answers(f"after three accepts that fail ({errno.errorcode[error]})")
            checks.that(f"that was tried ({errno.errorcode[error]})", faults.asked("accept") > 3)
        faults.stop()
        rests(checks, server, at_rest)


@serving_test(limit=20, is_timed=True)
def packets_that_the_system_refuses(checks: Checks) -> None:
    """One refusal loses nothing, since it may be that of an earlier packet; a second one at once loses the packet."""
    with failing_server(checks) as (server, faults, _):
        player = server.player(Way.UDP)
        player.set_up(player.describe()[0])
        player.play()
        came = player.streams[0].reception
        enough = lambda count: lambda: len(came.packets) >= count
        for tries, refused in (1, errno.ENOBUFS), (2, errno.EAGAIN):
            first = len(came.packets)
            player.connection.wait(5.0, enough(first + 5))
            faults.refuse("datagram", 5, 4 + tries, refused)
            player.connection.wait(5.0, enough(first + 25))
            whole = list(range(came.places[first], came.places[first] + len(came.places) - first + tries - 1))
            lost = sorted(set(whole) - set(came.places[first:]))
            checks.same(f"packets that are lost where {tries} sends are refused", tries - 1, len(lost))
            checks.same("the others, in order", runs([it for it in whole if it not in lost]), runs(came.places[first:]))
        checks.same("PAUSE", 200, player.pause().status)
        player.tear_down()


@serving_test(limit=20)
def writes_that_are_interrupted(checks: Checks) -> None:
    """An answer whose write a signal interrupts comes all the same, and at once."""
    with failing_server(checks) as (server, faults, _):
        talk = server.connect()
        faults.refuse("send", 1, 3, errno.EINTR)
        began = time.monotonic()
        checks.same("the answer", 200, talk.ask("OPTIONS", "*").status)
        took = time.monotonic() - began
        checks.that("it comes at once", took <= 0.5, took)
        checks.same("how often it was written", 4, faults.asked("send"))
        talk.close()


# The share of a core that a server may take which has nothing to do but to ask for the time.
IDLE_SHARE = 0.3


@serving_test(limit=30, is_timed=True)
def a_clock_that_fails(checks: Checks) -> None:
    """While the system can't tell the time nothing is sent and nothing spins; requests are answered, sessions live."""
    with failing_server(checks, pairs=2) as (server, faults, _):
        player = server.player(Way.UDP)
        player.set_up(player.describe()[0])
        player.play()
        came = player.streams[0].reception
        player.connection.wait(0.5)
        faults.refuse("clock", 1, error=errno.EINVAL)
        player.connection.wait(0.1)
        stopped_at, spent = len(came.packets), server.processor_seconds()
        player.connection.wait(2.0)
        spent = (server.processor_seconds() - spent) / 2.0
        checks.that("it doesn't spin", spent <= IDLE_SHARE, spent)
        checks.same("packets that are sent", 0, len(came.packets) - stopped_at)
        checks.same("a renewal", 200, player.ask("GET_PARAMETER").status)
        faults.stop()
        player.connection.wait(1.0)
        checks.that("then it goes on", len(came.packets) >= stopped_at + 20, len(came.packets) - stopped_at)
        checks.same("each packet once", runs(list(range(len(came.places)))), runs(came.places))
        player.tear_down()
