"""A connection to a server of RTSP 2.0: requests go out, and answers, frames and the server's requests come in."""
import collections
import re
import select
import socket
import struct
import time
from typing import Callable, Deque, Dict, Iterable, List, Optional, Tuple
from urllib.parse import urlsplit

from .credentials import Credentials
from .messages import BadMessage, Frame, Message, Reader, written

VERSION = "RTSP/2.0"
DEFAULT_PORT = 554
PIECE = 65536
# What a socket is asked to keep of the packets that come while nobody takes them, in bytes.
UDP_ROOM = 1 << 20
# The option of socket(7) by which the system notes when each datagram came, for which Python has no name, and its note.
SO_TIMESTAMPNS, NOTED_TIME = 35, struct.Struct("qq")
# Who waits for an answer waits so many seconds.
PATIENCE = 10.0
# Whether it is enough is asked so often, in seconds.
LOOK = 0.1

Headers = Iterable[Tuple[str, str]]


class Refused(Exception):
    """Why it doesn't go on, in one line."""


def without_user(uri: str) -> str:
    """A URI without the user and the password that it may have: a server writes into its log what it is asked for."""
    return re.sub(r"^(\w+://)[^/?#]*@", r"\1", uri)


def address_of(uri: str) -> Tuple[str, int]:
    """The host and the port of an `rtsp` URI."""
    shown = without_user(uri)
    try:
        parts = urlsplit(uri)
        host, port = parts.hostname, parts.port or DEFAULT_PORT
    except ValueError as why:
        raise Refused(f"{shown!r} is no URI: {why}") from None
    if parts.scheme != "rtsp" or not host:
        raise Refused(f"{shown!r} is no URI of the form rtsp://HOST:PORT/NAME")
    if ":" in host:
        raise Refused(f"{host} is an address of IPv6, and this player has IPv4 alone")
    return host, port


def datagram_socket() -> socket.socket:
    """A UDP socket of which `take_datagram` tells when each datagram came."""
    made = socket.socket(socket.AF_INET, socket.SOCK_DGRAM)
    made.setsockopt(socket.SOL_SOCKET, SO_TIMESTAMPNS, 1)
    return made


def take_datagram(ready: socket.socket) -> Tuple[bytes, float]:
    """A datagram, and the second on the clock of time.monotonic at which the system had it, however late it is taken."""
    datagram, notes, _, _ = ready.recvmsg(PIECE, socket.CMSG_SPACE(NOTED_TIME.size))
    waited = 0.0
    for level, kind, note in notes:
        if (level, kind) == (socket.SOL_SOCKET, SO_TIMESTAMPNS):
            seconds, nanoseconds = NOTED_TIME.unpack(note)
            waited = time.time() - (seconds + nanoseconds / 1e9)
    return datagram, time.monotonic() - max(waited, 0.0)


class UdpPair:
    """Two sockets on an even port and the next, for RTP and RTCP."""

    def __init__(self, host: str, tries: int = 200) -> None:
        for _ in range(tries):
            rtp = datagram_socket()
            rtcp = socket.socket(socket.AF_INET, socket.SOCK_DGRAM)
            try:
                rtp.setsockopt(socket.SOL_SOCKET, socket.SO_RCVBUF, UDP_ROOM)
                rtp.bind((host, 0))
                port = rtp.getsockname()[1]
                if port % 2 == 0:
                    rtcp.bind((host, port + 1))
                    self.rtp, self.rtcp, self.port = rtp, rtcp, port
                    return
            except (OSError, OverflowError):
                pass
            rtp.close()
            rtcp.close()
        raise Refused("no two ports side by side are free for RTP and RTCP")

    def close(self) -> None:
        self.rtp.close()
        self.rtcp.close()

    @property
    def address(self) -> str:
        """What a Transport header says of it."""
        return f'dest_addr=":{self.port}"/":{self.port + 1}"'


class LentPair:
    """An even port and the next that are free, for another program that takes the packets."""

    def __init__(self, host: str) -> None:
        pair = UdpPair(host)
        self.port = pair.port
        pair.close()

    def close(self) -> None:
        pass

    @property
    def address(self) -> str:
        """What a Transport header says of it."""
        return f'dest_addr=":{self.port}"/":{self.port + 1}"'


class UdpPort:
    """One socket, for RTP and RTCP both (RFC 5761)."""

    def __init__(self, host: str) -> None:
        self.rtp = datagram_socket()
        self.rtp.setsockopt(socket.SOL_SOCKET, socket.SO_RCVBUF, UDP_ROOM)
        self.rtp.bind((host, 0))
        self.port = self.rtp.getsockname()[1]

    def close(self) -> None:
        self.rtp.close()

    @property
    def address(self) -> str:
        """What a Transport header says of it."""
        return f'dest_addr=":{self.port}";RTCP-mux'


class Connection:
    """One TCP connection. Whatever comes is taken by `wait`, and by `ask` while it waits for its answer."""

    def __init__(
        self, host: str, port: int, receive_buffer: Optional[int] = None, credentials: Optional[Credentials] = None
    ) -> None:
        self.credentials = credentials
        self.socket = socket.socket(socket.AF_INET, socket.SOCK_STREAM)
        if receive_buffer is not None:
            self.socket.setsockopt(socket.SOL_SOCKET, socket.SO_RCVBUF, receive_buffer)
        self.socket.settimeout(PATIENCE)
        try:
            self.socket.connect((host, port))
        except OSError as why:
            self.socket.close()
            raise Refused(f"{host}:{port} can't be reached: {why.strerror or why}") from None
        self.socket.setsockopt(socket.IPPROTO_TCP, socket.TCP_NODELAY, 1)
        self.reader = Reader()
        self.cseq = 0
        self.is_closed = False
        self.answers: Deque[Message] = collections.deque()
        self.requests: List[Message] = []
        # Who takes the frames of a channel, and the datagrams of a socket, each with the second when it came.
        self.channels: Dict[int, Callable[[bytes, float], None]] = {}
        self.datagrams: Dict[socket.socket, Callable[[bytes, float], None]] = {}

    def send(self, method: str, uri: str, headers: Headers = (), body: bytes = b"") -> int:
        """Sends a request, and returns its CSeq."""
        self.cseq += 1
        proof = self.credentials.headers(method, uri) if self.credentials else []
        self.send_bytes(written(f"{method} {uri} {VERSION}", [("CSeq", str(self.cseq)), *headers, *proof], body))
        return self.cseq

    def send_bytes(self, data: bytes) -> None:
        try:
            self.socket.sendall(data)
        except OSError as why:
            self.is_closed = True
            raise Refused(f"the connection broke: {why.strerror or why}") from None

    def ask(self, method: str, uri: str, headers: Headers = (), body: bytes = b"") -> Message:
        """Sends a request, and waits for its answer; once more where the server asks who it is from."""
        answer = self.answer(self.send(method, uri, headers, body))
        if self.credentials and self.credentials.take(answer):
            return self.answer(self.send(method, uri, headers, body))
        return answer

    def answer(self, cseq: Optional[int] = None) -> Message:
        """The next answer; where a CSeq is given, the next one of it, and others are dropped."""
        until = time.monotonic() + PATIENCE
        while True:
            while self.answers:
                answer = self.answers.popleft()
                if cseq is None or answer.cseq in (cseq, None):
                    return answer
            if self.is_closed:
                raise Refused("the server closed the connection")
            if time.monotonic() >= until:
                raise Refused(f"the server hadn't answered after {PATIENCE:.0f} seconds")
            self.wait(until - time.monotonic(), lambda: bool(self.answers))

    def wait(self, seconds: float, is_enough: Callable[[], bool] = lambda: False) -> None:
        """Takes what comes, for so many seconds, until it is enough or the connection is closed."""
        until = time.monotonic() + seconds
        while not is_enough():
            sockets = {it.fileno(): it for it in [*self.datagrams, *([] if self.is_closed else [self.socket])]}
            left = until - time.monotonic()
            if left <= 0 or not sockets:
                return
            poll = select.poll()
            for number in sockets:
                poll.register(number, select.POLLIN)
            for number, _ in poll.poll(min(left, LOOK) * 1000):
                self._take_from(sockets[number])

    def _take_from(self, ready: socket.socket) -> None:
        if ready is self.socket:
            self._take_piece()
            return
        try:
            datagram, at = take_datagram(ready)
        except OSError:
            return
        self.datagrams[ready](datagram, at)

    def _take_piece(self) -> None:
        try:
            piece = self.socket.recv(PIECE)
        except OSError:
            piece = b""
        at = time.monotonic()
        self.is_closed = not piece
        for item in self.reader.take(piece):
            if isinstance(item, Frame):
                self.channels.get(item.channel, lambda payload, at: None)(item.payload, at)
            elif item.status is not None:
                self.answers.append(item)
            else:
                self._take_request(item)

    def _take_request(self, request: Message) -> None:
        """Notes a request of the server's, and answers that it has come."""
        if not request.first_line.endswith(f" {VERSION}"):
            raise BadMessage(f"the server sent what is no message: {request.first_line[:80]!r}")
        self.requests.append(request)
        kept = [(name, value) for name, value in request.headers if name.lower() in ("cseq", "session")]
        try:
            self.send_bytes(written(f"{VERSION} 200 OK", kept))
        except Refused:
            # The end of the connection is seen where it is read.
            pass

    def close(self) -> None:
        self.is_closed = True
        self.socket.close()
