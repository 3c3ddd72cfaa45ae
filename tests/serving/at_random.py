"""Twenty clients that do anything for half a minute, and what is left when they have gone."""
import random
import socket
import threading
import time
from typing import List, Optional

from checks import Checks
from rtsp_client.connection import Connection, Refused
from rtsp_client.messages import BadMessage, frame

from .runner import serving_test
from .server import Presentation, Server, leases

CLIENTS = 20
SECONDS = 30.0
PAIRS = 40
TIMEOUT = 3
TWO_SECONDS = Presentation(units=100)
# What a request may be answered in any state; 500 isn't among them.
STATUSES = {200, 400, 404, 451, 453, 454, 455, 456, 457, 459, 460, 461, 463, 501, 503, 551}
RANGES = (None, "npt=0-", "npt=0.5-1.5", "npt=1.9-", "npt=-1", "npt=9-", "smpte=0-", "npt=x")
TRANSPORTS = (
    'RTP/AVP;unicast;dest_addr=":{port}"/":{port}"',
    'RTP/AVP;unicast;dest_addr=":{port}";RTCP-mux',
    "RTP/AVP/TCP;unicast;interleaved=0-1",
    "RTP/AVP/TCP;unicast;interleaved=x",
    'RTP/AVP;unicast;dest_addr="192.0.2.9:8000"/"192.0.2.9:8001"',
    "RTP/AVP;multicast",
)
LAST_WORDS = (b"", b"OPTIONS * RTSP/2.0\r\nCSeq: 1", b"X\n", b"$\1\xff\xff", b"\r\n" * 3)


class Client:
    """One that does anything, by a seed of its own."""

    def __init__(self, server: Server, seed: int, until: float, sessions: List[str], port: int) -> None:
        self.server = server
        self.draw = random.Random(seed)
        self.until = until
        self.sessions = sessions
        self.port = port
        self.talk: Optional[Connection] = None
        self.session: Optional[str] = None
        self.faults: List[str] = []
        self.asked = 0

    def run(self) -> None:
        while time.monotonic() < self.until and not self.faults:
            try:
                if self.talk is None or self.talk.is_closed:
                    self.talk = self.server.connect()
                self.act(self.talk)
            except Refused as why:
                # The server closes a connection that it can't read, and no other.
                self.faults.append(str(why))
            except (BadMessage, OSError) as why:
                self.faults.append(str(why))
        if self.talk:
            self.talk.close()

    def act(self, talk: Connection) -> None:
        act = self.draw.choices((self.ask, self.leave, self.frames, self.rest), (60, 2, 3, 4))[0]
        act(talk)

    def rest(self, talk: Connection) -> None:
        talk.wait(self.draw.choice((0.001, 0.02, 0.2)))

    def frames(self, talk: Connection) -> None:
        """Frames that the server drops."""
        talk.send_bytes(frame(self.draw.randrange(256), self.draw.randbytes(self.draw.randrange(2000))))

    def leave(self, talk: Connection) -> None:
        """Goes, in one of many ways."""
        talk.socket.sendall(self.draw.choice(LAST_WORDS))
        how = self.draw.randrange(3)
        if how == 0:
            talk.socket.setsockopt(socket.SOL_SOCKET, socket.SO_LINGER, b"\1\0\0\0\0\0\0\0")
        if how == 1:
            talk.socket.shutdown(socket.SHUT_WR)
            talk.wait(0.05)
        talk.close()

    def ask(self, talk: Connection) -> None:
        methods = "OPTIONS", "DESCRIBE", "SETUP", "PLAY", "PAUSE", "TEARDOWN", "GET_PARAMETER", "SET_PARAMETER"
        method = self.draw.choices(methods, (2, 2, 8, 8, 5, 3, 4, 1))[0]
        uri = self.server.uri + self.draw.choices(("", "/a", "/b", "/c"), (3, 3, 3, 1))[0]
        if method in ("PLAY", "PAUSE", "TEARDOWN") and self.draw.random() < 0.9:
            uri = self.server.uri
        headers = []
        if self.session and self.draw.random() < 0.9:
            headers.append(("Session", self.session))
        if method == "SETUP":
            headers.append(("Transport", self.draw.choices(TRANSPORTS, (4, 4, 6, 2, 1, 1))[0].format(port=self.port)))
        wanted = self.draw.choice(RANGES)
        if method == "PLAY" and wanted:
            headers.append(("Range", wanted))
        body = self.draw.choice((b"", b"position\r\nduration\r\n", b"x\r\n")) if method.endswith("PARAMETER") else b""
        answer = talk.ask(method, uri, headers, body)
        self.asked += 1
        if answer.status not in STATUSES:
            self.faults.append(f"{method} {uri} {headers} was answered {answer.first_line}")
        if method == "SETUP" and answer.status == 200:
            self.session = (answer.header("Session") or "").partition(";")[0]
            self.sessions.append(self.session)
        if answer.status == 454:
            self.session = None


@serving_test(limit=70)
def twenty_clients_at_random(checks: Checks) -> None:
    """After them every session has ended, all pairs are free, and no descriptor is left."""
    settings = {"pairs": PAIRS, "sessions": PAIRS, "uplink": PAIRS * TWO_SECONDS.rate(TWO_SECONDS.tracks[0])}
    seed = random.randrange(1 << 32)
    with Server(checks, TWO_SECONDS, timeout=TIMEOUT, **settings) as server, socket.socket(
        socket.AF_INET, socket.SOCK_DGRAM
    ) as sink:
        sink.bind(("127.0.0.1", 0))
        before = server.descriptors_at_rest()
        until = time.monotonic() + SECONDS
        sessions: List[str] = []
        port = sink.getsockname()[1]
        clients = [Client(server, seed + number, until, sessions, port) for number in range(CLIENTS)]
        threads = [threading.Thread(target=client.run) for client in clients]
        for thread in threads:
            thread.start()
        for thread in threads:
            thread.join()
        faults = [fault for client in clients for fault in client.faults]
        checks.same(f"what went wrong, from seed {seed}", [], faults)
        checks.that("they asked much", sum(client.asked for client in clients) > 2000)
        checks.that("they opened sessions", len(set(sessions)) > 100, len(set(sessions)))
        time.sleep(TIMEOUT + 2.0)
        checks.same("the descriptors afterwards", before, server.descriptors_fall_to(before, 5.0))
        talk = server.connect()
        alive = [it for it in set(sessions) if talk.ask("OPTIONS", "*", [("Session", it)]).status == 200]
        checks.same(f"sessions that live, from seed {seed}", [], alive)
        made = leases(talk, f"{server.uri}/a", PAIRS)
        ports = sorted(it.port for it in made)
        wanted = list(range(server.first_port, server.first_port + 2 * PAIRS, 2))
        checks.same("a new client takes all pairs, sessions and bandwidth", wanted, ports)
        for it in made:
            talk.ask("TEARDOWN", server.uri, [("Session", it.session)])
        talk.close()
        checks.same("the descriptors at the end", before, server.descriptors_fall_to(before, 5.0))
