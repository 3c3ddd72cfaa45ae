"""Each conversation of examples/ over TCP, as whole as its ids allow and in single bytes.

What is answered is what is stored, but for what is drawn or goes on with time: ids, SSRCs, sequence numbers and
timestamps are put in the place of the stored ones, ports count from the server's first, and a play may have gone on.
And where `stdio` finds its journal full, the server makes room by a checkpoint.
"""
import pathlib
import re
import socket
import time
from typing import Dict, Iterator, List, Tuple

from checks import EXAMPLES, Checks
from rtsp_client.messages import END, Message, Reader

from .runner import serving_test
from .server import Presentation, Server, Track

ID = re.compile(r"\b[0-9a-f]{32}\b")
SSRC = re.compile(r"\bssrc=[0-9a-f]{8}\b")
NUMBERS = re.compile(r"\bseq=\d+;rtptime=\d+")
PORTS = re.compile(r'(?<=src_addr=)":\d+"(?:/":\d+")?')
POINT = re.compile(r"(?m)^(Range: npt=|position: )(\d+\.\d{3})")
LENGTH = re.compile(rb"(?im)^content-length: *(\d{1,5})\r$")
STORED_FIRST_PORT = 5000
# Answers that are 503 where nobody makes room in a full journal, and 200 from a server that does.
ROOM_IS_MADE = {("journal-of-eight", 4)}
# A point may lie so much later than the time that has passed, in seconds: a unit, and what rounds.
ROUNDING = 0.041


def stored_answers(name: str) -> List[Message]:
    text = (EXAMPLES / "answers" / f"{name}.rtsp").read_bytes()
    return [item for item in Reader().take(text) if isinstance(item, Message)]


def session_named(answer: Message) -> List[str]:
    """The id of the session that a SETUP was answered with, if it was."""
    session = answer.header("Session") or ""
    return [session[:32]] if ";timeout=" in session else []


def parts(given: bytes) -> Iterator[bytes]:
    """A conversation cut behind each message, as far as it can be told."""
    while given:
        head = given.find(END) + len(END)
        if head < len(END):
            yield given
            return
        length = LENGTH.search(given[:head])
        end = head + (int(length[1]) if length else 0)
        yield given[:end]
        given = given[end:]


class Talk:
    """A conversation while it goes on: what has been answered, and which ids stand for the stored ones."""

    def __init__(self, server: Server, in_bytes: bool) -> None:
        self.socket = server.socket()
        self.in_bytes = in_bytes
        self.reader = Reader()
        self.answers: List[Tuple[Message, float]] = []
        self.began = time.monotonic()
        self.is_over = False

    def send(self, data: bytes) -> None:
        pieces = (data[at : at + 1] for at in range(len(data))) if self.in_bytes else (data,)
        try:
            for piece in pieces:
                self.socket.sendall(piece)
        except OSError:
            # The server may have ended it; what it answered is compared.
            pass

    def read(self) -> None:
        """Takes one piece of what is answered."""
        try:
            piece = self.socket.recv(65536)
        except ConnectionResetError:
            piece = b""
        self.is_over = not piece
        passed = time.monotonic() - self.began
        messages = (item for item in self.reader.take(piece) if isinstance(item, Message))
        self.answers += [(item, passed) for item in messages if item.status is not None]


def spoken(talk: Talk, given: bytes, stored: List[Message]) -> Dict[str, str]:
    """Has a whole conversation, and returns the id that came for each stored one.

    What names the id of a session that it has opened is sent once that id has been answered.
    """
    opened: Dict[str, int] = {}
    for at, answer in enumerate(stored):
        for identity in session_named(answer):
            opened.setdefault(identity, at)
    ids: Dict[str, str] = {}
    waiting = b""
    for number, part in enumerate(parts(given)):
        for identity in ID.findall(part.decode("latin-1")):
            # Some name a session before it is there.
            if opened.get(identity, number) >= number:
                continue
            if identity not in ids:
                talk.send(waiting)
                waiting = b""
                while len(talk.answers) <= opened[identity] and not talk.is_over:
                    talk.read()
                if len(talk.answers) <= opened[identity]:
                    return ids
                ids[identity] = (session_named(talk.answers[opened[identity]][0]) or [identity])[0]
            part = part.replace(identity.encode(), ids[identity].encode())
        waiting += part
    talk.send(waiting)
    try:
        talk.socket.shutdown(socket.SHUT_WR)
    except OSError:
        pass
    while not talk.is_over:
        talk.read()
    return ids


def text_of(answer: Message) -> str:
    lines = [answer.first_line, *(f"{name}: {value}" for name, value in answer.headers), "", ""]
    return "\n".join(lines) + answer.body.decode("latin-1").replace("\r\n", "\n")


def as_stored(came: str, stored: str, shift: int, passed: float) -> str:
    """An answer with what may differ put as it is stored."""
    for pattern in ID, SSRC, NUMBERS:
        values = iter(pattern.findall(stored))
        came = pattern.sub(lambda found: next(values, found[0]), came)
    came = PORTS.sub(lambda ports: re.sub(r"\d+", lambda port: str(int(port[0]) - shift), ports[0]), came)
    points = iter(POINT.findall(stored))

    def point(found: "re.Match[str]") -> str:
        name, wanted = next(points, (found[1], found[2]))
        is_later = 0 <= float(found[2]) - float(wanted) <= passed + ROUNDING
        return f"{found[1]}{wanted if is_later and name == found[1] else found[2]}"

    return POINT.sub(point, came)


def compare(
    checks: Checks, name: str, where: str, server: Server, talk: Talk, ids: Dict[str, str], stored: List[Message]
) -> None:
    checks.same(f"{where}: how many answers", len(stored), len(talk.answers))
    checks.same(f"{where}: what is left of an answer", b"", bytes(talk.reader.held))
    shift = server.first_port - STORED_FIRST_PORT
    named = {came: wanted for wanted, came in ids.items()}
    for number, (wanted, (came, passed)) in enumerate(zip(stored, talk.answers), 1):
        if (name, number) in ROOM_IS_MADE:
            checks.same(f"{where}: the statuses of answer {number}", (503, 200), (wanted.status, came.status))
            continue
        text = text_of(came)
        # An id stands for the stored one wherever it comes; a new one is put in the place of the stored one.
        for identity, known in named.items():
            text = text.replace(identity, known)
        checks.same(f"{where}: answer {number}", text_of(wanted), as_stored(text, text_of(wanted), shift, passed))
        for old, new in zip(session_named(wanted), session_named(came)):
            checks.that(f"{where}: the id in answer {number} is drawn", new != old, new)


def configured(name: str) -> str:
    """The configuration of a conversation, before its ports are moved."""
    path = EXAMPLES / f"{name}.toml"
    return (path if path.exists() else EXAMPLES / "tone.toml").read_text()


class StoredServer(Server):
    """A server with the configuration of a stored conversation on ports of its own."""

    def __init__(self, checks: Checks, name: str) -> None:
        text = configured(name)
        pairs = int(re.search(r"(?m)^pairs = (\d+)", text)[1])
        super().__init__(checks, Presentation(tracks=(Track("a"),)), ("--connections", "1"), pairs=pairs)
        self.text = text.replace(f"first_port = {STORED_FIRST_PORT}", f"first_port = {self.first_port}")

    def write_media(self) -> None:
        """A file of silence for each track, of the length of its presentation; slots are empty."""
        units = octets = heads = 0
        for key, value in re.findall(r'(?m)^(units|packets|packing|octets|file) = "?([^"\n]*)"?', self.text):
            if key == "units":
                units = int(value)
            elif key == "octets":
                octets = int(value)
            elif key == "packets":
                heads = 8 * int(value)
            elif key == "packing":
                heads = 0 if value == "equal" else heads
            else:
                (self.path / value).write_bytes((b"\0" if heads else b"\xff") * (units * (octets + heads)))
                heads = 0


def converse(checks: Checks, path: pathlib.Path, in_bytes: bool) -> None:
    name = path.stem
    where = f"{name}, {'in single bytes' if in_bytes else 'whole'}"
    stored = stored_answers(name)
    with StoredServer(checks, name) as server:
        talk = Talk(server, in_bytes)
        ids = spoken(talk, path.read_bytes(), stored)
        talk.socket.close()
        checks.same(f"{where}: the status", 0, server.ends(10))
    compare(checks, name, where, server, talk, ids, stored)


def converse_all(checks: Checks, in_bytes: bool) -> None:
    given = sorted(EXAMPLES.glob("*.rtsp"))
    checks.that("there are conversations", len(given) > 0)
    for path in given:
        converse(checks, path, in_bytes)


@serving_test(limit=70)
def stored_conversations_whole(checks: Checks) -> None:
    converse_all(checks, in_bytes=False)


@serving_test(limit=70)
def stored_conversations_in_single_bytes(checks: Checks) -> None:
    converse_all(checks, in_bytes=True)
