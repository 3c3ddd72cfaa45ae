"""Behind a balancer: connections that begin with the header of a player whom the balancer names, of the PROXY protocol."""
import contextlib
import re
import resource
import socket
import struct
import time
from typing import Iterator, List, Optional, Tuple

from checks import Checks
from rtsp_client.messages import written

from .crowds import MOST_CONNECTIONS, OTHER_DESCRIPTORS
from .events import Telling, is_told
from .operator import figures, shown_at
from .runner import serving_test
from .server import HERE, Server, is_alive, leases
from .shares import OTHER, SHARE, Talk, settings

# The balancer's address, of 127.0.0.0/8 as all are here, and those of its players.
BALANCER = "127.0.0.77"
PLAYER, SECOND = "127.0.1.1", "127.0.1.2"
LISTED = f'["{BALANCER}"]'
SIGNATURE = b"\r\n\r\n\0\r\nQUIT\n"
LOCAL = SIGNATURE + b"\x20\0\0\0"
OPTIONS = written("OPTIONS * RTSP/2.0", [("CSeq", "1")])
WITHIN = 5.0


def line_for(player: str, port: int = 40_000) -> bytes:
    """A header of version 1."""
    return f"PROXY TCP4 {player} {BALANCER} {port} 554\r\n".encode()


def binary_for(player: str, port: int = 40_000, told: bytes = b"") -> bytes:
    """A header of version 2, and what it tells besides."""
    body = socket.inet_aton(player) + socket.inet_aton(BALANCER) + struct.pack(">HH", port, 554) + told
    return SIGNATURE + b"\x21\x11" + struct.pack(">H", len(body)) + body


def binary(verb: int, family: int, body: bytes) -> bytes:
    return SIGNATURE + bytes([verb, family]) + struct.pack(">H", len(body)) + body


# What the log calls the fault, and headers that have it.
FAULTS = {
    b"there is none": [OPTIONS, b"\r\n" + OPTIONS, b"PROXY\tTCP4", b"\x16\x03\x01\x02\0\x01", b"\r\n\r\n\0\r\nQUIT\r"],
    b"it is malformed": [
        b"PROXY TCP4 10.77.0.256 10.77.0.1 1 2\r\n",
        b"PROXY TCP4 10.077.0.1 10.77.0.1 1 2\r\n",
        b"PROXY TCP4 10.77.0.1 10.77.0.1 1 65536\r\n",
        b"PROXY TCP4 10.77.0.1 10.77.0.1 1 2 3\r\n",
        b"PROXY TCP4 10.77.0.1 10.77.0.1 1 2\n",
        b"PROXY UDP4 10.77.0.1 10.77.0.1 1 2\r\n",
        binary(0x21, 0x11, b"short"),
    ],
    b"its version or command isn't known": [binary(0x31, 0x11, bytes(12)), binary(0x22, 0x11, bytes(12))],
    b"it names no address of IPv4": [
        b"PROXY TCP6 ::1 ::1 1 2\r\n",
        binary(0x21, 0x21, bytes(36)),
        binary(0x21, 0x12, bytes(12)),
        binary(0x21, 0x31, bytes(216)),
    ],
    b"it is too long": [b"PROXY TCP4 " + b"1" * 100, SIGNATURE + b"\x21\x11\xff\xff"],
}


class Balanced(Talk):
    """A connection of the balancer that begins with these bytes."""

    def __init__(self, server: Server, front: bytes) -> None:
        super().__init__(server, BALANCER)
        self.socket.settimeout(WITHIN)
        self.socket.sendall(front)


@contextlib.contextmanager
def balanced(server: Server, *players: str) -> Iterator[List[Talk]]:
    """Connections that the balancer passes on, by both versions in turn."""
    fronts = [(line_for, binary_for)[at % 2](player) for at, player in enumerate(players)]
    talks: List[Talk] = [Balanced(server, front) for front in fronts]
    try:
        yield talks
    finally:
        for talk in talks:
            talk.socket.close()


def comes(talk: socket.socket) -> Optional[bytes]:
    """What comes until a connection is closed; None where it isn't, within some seconds."""
    come = b""
    try:
        while piece := talk.recv(4096):
            come += piece
    except ConnectionError:
        return come
    except TimeoutError:
        return None
    return come


def said_to(server: Server, *pieces: bytes) -> Optional[bytes]:
    """What comes of these pieces of a connection of the balancer until it is closed, if it is."""
    talk = Balanced(server, b"")
    with talk.socket:
        for piece in pieces:
            with contextlib.suppress(ConnectionError):
                talk.socket.sendall(piece)
        return comes(talk.socket)


def first_line(talk: Talk) -> bytes:
    """The first line of the first answer."""
    come = b""
    while b"\r\n\r\n" not in come:
        piece = talk.socket.recv(4096)
        if not piece:
            return come
        come += piece
    return come.partition(b"\r\n")[0]


@serving_test(limit=30)
def a_balancer_names_its_players(checks: Checks) -> None:
    """By either version, with what it tells besides, cut in each place, and with the first request in one packet."""
    with Telling(checks, proxy=LISTED, access_log="true") as server:
        for header in (line_for(PLAYER), binary_for(PLAYER), binary_for(PLAYER, told=b"\x03\0\x04abcd" * 20)):
            talk = Balanced(server, header + OPTIONS)
            checks.same("header and request at once", b"RTSP/2.0 200 OK", first_line(talk))
            talk.socket.close()
        for header in (line_for(PLAYER), binary_for(PLAYER)):
            for at in range(1, len(header)):
                talk = Balanced(server, header[:at])
                time.sleep(0.005)
                talk.socket.sendall(header[at:] + OPTIONS[:9])
                talk.socket.sendall(OPTIONS[9:])
                checks.same(f"a header that is cut behind byte {at}", b"RTSP/2.0 200 OK", first_line(talk))
                talk.socket.close()
        talk = Balanced(server, b"")
        for byte in binary_for(PLAYER) + OPTIONS:
            talk.socket.sendall(bytes([byte]))
            time.sleep(0.002)
        checks.same("in single bytes", b"RTSP/2.0 200 OK", first_line(talk))
        talk.socket.close()
        lines = [it for it in server.told.lines() if b" access " in it]
        checks.that("each line of the access log has the player's address", all(f" access {PLAYER} ".encode() in it for it in lines), lines)
        checks.that("and there are lines", len(lines) > 60, len(lines))


@serving_test(limit=60)
def a_bad_header_is_closed_without_a_word(checks: Checks) -> None:
    """Each fault of the reader, and a header that ends early: named in the log and counted; the next player is served."""
    port, shown = shown_at()
    wanted = 0
    with Telling(checks, proxy=LISTED, status=shown) as server:
        for fault, headers in FAULTS.items():
            for header in headers:
                checks.same(f"what comes of {header[:40]!r}", b"", said_to(server, header + OPTIONS))
                wanted += 1
            line = b"warning a header of the balancer 127\\.0\\.0\\.77 was refused: " + re.escape(fault)
            is_told(checks, server, f"{fault.decode()}", line)
        talk = Balanced(server, binary_for(PLAYER)[:20])
        talk.socket.shutdown(socket.SHUT_WR)
        checks.same("what comes of one that ends early", b"", comes(talk.socket))
        is_told(checks, server, "its end", rb"warning a header .* was refused: the connection ended within it")
        wanted += 1
        checks.same("what comes of none at all, closed at once", b"", said_to_closed(server))
        checks.same("headers that were refused", wanted, figures(port)["rtspd_headers_refused_total"])
        checks.same("connections that are open", 0, figures(port)["rtspd_connections,state=held"])
        with balanced(server, PLAYER) as (talk,):
            checks.same("a player afterwards", 200, talk.ask("OPTIONS", "*", []).status)


def said_to_closed(server: Server) -> Optional[bytes]:
    """What comes of a connection of the balancer that it closes at once, as a check does."""
    talk = Balanced(server, b"")
    with talk.socket:
        talk.socket.shutdown(socket.SHUT_WR)
        return comes(talk.socket)


@serving_test(limit=60)
def a_header_that_never_comes(checks: Checks) -> None:
    """A connection without one is closed after 5 s, whatever part of it has come; others are served meanwhile."""
    with Telling(checks, proxy=LISTED) as server:
        fronts = [b"", b"PROXY ", line_for(PLAYER)[:-1], SIGNATURE, binary_for(PLAYER)[:-1]]
        began = time.monotonic()
        waiting = [Balanced(server, front) for front in fronts for _ in range(40)]
        with balanced(server, PLAYER) as (talk,):
            checks.same("a player meanwhile", 200, talk.ask("OPTIONS", "*", []).status)
            for it in waiting:
                it.socket.settimeout(12.0)
                checks.same("what comes", b"", comes(it.socket))
            took = time.monotonic() - began
            checks.that("in 5 s, or at the sweep behind", 4.5 < took < 9.0, took)
            checks.same("the player afterwards", 200, talk.ask("OPTIONS", "*", []).status)
        is_told(checks, server, "it is told", rb"warning a header .* was refused: it didn't come in time")


@serving_test(limit=60, is_alone=True)
def headers_that_never_come_on_all_connections(checks: Checks) -> None:
    """As many connections of the balancer as the server lets in, and none sends one: each is closed, and memory stays."""
    _, hard = resource.getrlimit(resource.RLIMIT_NOFILE)
    count = min(MOST_CONNECTIONS, hard - OTHER_DESCRIPTORS)
    with Telling(checks, proxy=LISTED) as server:
        server.answers("before")
        memory = server.resident_bytes()
        silent = [Balanced(server, b"").socket for _ in range(count)]
        began = time.monotonic()
        for it in silent:
            it.settimeout(12.0)
        checks.same("what comes of each", {b""}, {comes(it) for it in silent})
        took = time.monotonic() - began
        checks.that("in 5 s, or at the sweep behind", took < 9.0, took)
        with balanced(server, PLAYER) as (talk,):
            checks.same("a player afterwards", 200, talk.ask("OPTIONS", "*", []).status)
        each = (server.resident_bytes() - memory) / count
        checks.that("each took less than 4 kB of memory", each < 4096, each)
        is_told(checks, server, "it is told", rb"warning a header .* was refused: it didn't come in time")
        for it in silent:
            it.close()


@serving_test(limit=30)
def half_a_request_behind_a_header(checks: Checks) -> None:
    """Connections that end within a request, as where TLS ends at the balancer: nothing is left of them."""
    with Telling(checks, proxy=LISTED) as server:
        before = server.descriptors_at_rest()
        for front in line_for(PLAYER), binary_for(PLAYER), LOCAL:
            for length in 1, len(OPTIONS) // 2, len(OPTIONS) - 1:
                Balanced(server, front + OPTIONS[:length]).socket.close()
        checks.same("descriptors", before, server.descriptors_fall_to(before, 5.0))
        with balanced(server, PLAYER) as (talk,):
            checks.same("a player afterwards", 200, talk.ask("OPTIONS", "*", []).status)


@serving_test(limit=30)
def players_behind_a_balancer_have_shares_of_their_own(checks: Checks) -> None:
    """Of connections and of sessions; what the balancer does by itself takes none, and one player beyond it is closed."""
    shares = settings(SHARE, connections_per_address=SHARE)
    with Telling(checks, proxy=LISTED, **shares) as server:
        checking = [Balanced(server, LOCAL + OPTIONS) for _ in range(3 * SHARE)]
        answers = [first_line(it) for it in checking]
        checks.same("its own connections", {b"RTSP/2.0 200 OK"}, set(answers))
        with balanced(server, *[PLAYER] * SHARE, *[SECOND] * SHARE) as talks:
            statuses = [it.ask("OPTIONS", "*", []).status for it in talks]
            checks.same("each player's share", [200] * 2 * SHARE, statuses)
            checks.same("what comes of one more", b"", said_to(server, line_for(PLAYER) + OPTIONS))
            is_told(checks, server, "whose share is spent", rb"warning 127\.0\.1\.1 has its whole share")
            held = [len(leases(it, f"{server.uri}/a", SHARE + 1)) for it in (talks[0], talks[-1])]
            checks.same("sessions of each", [SHARE, SHARE], held)
        for it in checking:
            it.socket.close()
        time.sleep(0.3)
        with balanced(server, *[PLAYER] * SHARE) as talks:
            statuses = [it.ask("OPTIONS", "*", []).status for it in talks]
            checks.same("its share again, once they are gone", [200] * SHARE, statuses)


def set_up(talk: Talk, uri: str, host: str, port: int) -> Tuple[int, Optional[str]]:
    wanted = f'RTP/AVP;unicast;RTCP-mux;dest_addr="{host}:{port}"'
    answer = talk.ask("SETUP", f"{uri}/a", [("Transport", wanted)])
    return answer.status or 0, (answer.header("Session") or "").partition(";")[0] or None


@serving_test(limit=40)
def packets_pass_a_balancer_by(checks: Checks) -> None:
    """Over UDP they come to the player whom it names, who may name its own address and no other, the balancer's neither."""
    with Server(checks, proxy=LISTED) as server, contextlib.closing(socket.socket(type=socket.SOCK_DGRAM)) as ear:
        ear.bind((PLAYER, 0))
        ear.settimeout(WITHIN)
        port = ear.getsockname()[1]
        with balanced(server, PLAYER) as (talk,):
            checks.same("the balancer's address", 463, set_up(talk, server.uri, BALANCER, port)[0])
            status, session = set_up(talk, server.uri, "", port)
            checks.same("no host", 200, status)
            talk.ask("PLAY", server.uri, [("Session", session or "")])
            numbers = [struct.unpack(">H", ear.recv(2048)[2:4])[0] for _ in range(20)]
            checks.same("packets that come, in a row", [(numbers[0] + at) % 65536 for at in range(20)], numbers)
            talk.ask("TEARDOWN", server.uri, [("Session", session or "")])
            checks.same("its own address", 200, set_up(talk, server.uri, PLAYER, port)[0])


SOURCE = re.compile(r"src_addr=([^;]*)")
OVER_UDP = {
    'RTP/AVP;unicast;dest_addr=":{0}"/":{1}"': r'"{host}:(\d+)"/"{host}:(\d+)"',
    'RTP/AVP;unicast;RTCP-mux;dest_addr=":{0}"': r'"{host}:(\d+)"',
}


def told_source(talk: Talk, uri: str, transport: str) -> Tuple[str, str]:
    """What a SETUP is told of where packets come from, and its session."""
    answer = talk.ask("SETUP", f"{uri}/a", [("Transport", transport)])
    source = SOURCE.search(answer.header("Transport") or "")
    return source[1] if source else "", (answer.header("Session") or "").partition(";")[0]


@serving_test(limit=40)
def the_host_is_told_behind_a_balancer(checks: Checks) -> None:
    """Over UDP, by either version and on two ports or one, and packets come from it; whoever connects to it isn't told."""
    with Server(checks, proxy=LISTED) as server, contextlib.closing(socket.socket(type=socket.SOCK_DGRAM)) as ear:
        ear.bind((PLAYER, 0))
        ear.settimeout(WITHIN)
        port = ear.getsockname()[1]
        direct = Talk(server, PLAYER)
        with direct.socket, balanced(server, PLAYER, PLAYER) as talks:
            for transport, form in OVER_UDP.items():
                wanted = transport.format(port, port + 1)
                for talk in talks:
                    source, session = told_source(talk, server.uri, wanted)
                    told = re.fullmatch(form.format(host=re.escape(server.host)), source)
                    checks.that("the host of each port", told is not None, source)
                    talk.ask("PLAY", server.uri, [("Session", session)])
                    came = ear.recvfrom(2048)[1]
                    checks.same("where a packet comes from", (server.host, int(told[1]) if told else 0), came)
                    checks.same("its end", 200, talk.ask("TEARDOWN", server.uri, [("Session", session)]).status)
                    emptied(ear)
                source, session = told_source(direct, server.uri, wanted)
                checks.that("directly there is none", re.fullmatch(form.format(host=""), source) is not None, source)
                direct.ask("TEARDOWN", server.uri, [("Session", session)])
            source, session = told_source(talks[0], server.uri, "RTP/AVP/TCP;unicast;interleaved=0-1")
            checks.same("over the connection", "", source)
            talks[0].ask("TEARDOWN", server.uri, [("Session", session)])
            checking = Balanced(server, LOCAL)
            with checking.socket:
                source, session = told_source(checking, server.uri, next(iter(OVER_UDP)).format(9, 9))
                checks.that("of the balancer's own there is none", re.fullmatch(r'":\d+"/":\d+"', source) is not None, source)


def emptied(ear: socket.socket) -> None:
    """Takes the packets that have come, until none comes for a while."""
    ear.settimeout(0.1)
    with contextlib.suppress(TimeoutError):
        while ear.recv(2048):
            pass
    ear.settimeout(WITHIN)


@serving_test(limit=30)
def a_header_from_elsewhere_is_no_header(checks: Checks) -> None:
    """Where its address isn't listed it is what it was: a request that can't be read; without the key for all."""
    for settings_of in ({"proxy": LISTED}, {}):
        with Server(checks, **settings_of) as server:
            talk = Talk(server, OTHER)
            talk.socket.sendall(line_for(PLAYER) + OPTIONS)
            checks.same("the answer", b"RTSP/2.0 400 Bad Request", first_line(talk))
            talk.socket.close()
            plain = Talk(server, OTHER)
            checks.same("and without a header", 200, plain.ask("OPTIONS", "*", []).status)
            plain.socket.close()


@serving_test(limit=60)
def a_balancer_without_headers_is_told(checks: Checks) -> None:
    """Once, after ten connections of which none began with one; not of one that sends some."""
    with Telling(checks, proxy=LISTED) as server:
        for _ in range(15):
            said_to(server, OPTIONS)
        told = rb"warning the balancer 127\.0\.0\.77 sends no headers: all its connections are closed"
        is_told(checks, server, "it is told", told)
        checks.same("how often", 1, server.told.count(told))
    with Telling(checks, proxy=LISTED) as server:
        with balanced(server, PLAYER) as (talk,):
            checks.same("a player", 200, talk.ask("OPTIONS", "*", []).status)
        for _ in range(15):
            said_to(server, OPTIONS)
        time.sleep(0.3)
        checks.same("how often", 0, server.told.count(told))


@serving_test(limit=60)
def sessions_outlive_a_balanced_connection(checks: Checks) -> None:
    """A session over UDP is renewed over another connection of the same player, and by another player's as without."""
    with Server(checks, proxy=LISTED, timeout=20) as server:
        with balanced(server, PLAYER) as (talk,):
            status, session = set_up(talk, server.uri, "", 9)
            checks.same("a session", 200, status)
        with balanced(server, PLAYER) as (talk,):
            checks.that("it lives", is_alive(talk, server.uri, session or ""))
        checks.same("the server's address", HERE, server.host)
