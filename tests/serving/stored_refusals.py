"""Each conversation of examples/credentials/ with a server that has users, answered byte for byte as stored, and no entry.

What is drawn for a connection, and what a user makes of it, stands there as words in braces, which its README lists.
"""
import contextlib
import re
import shutil
import signal
import socket
from typing import Callable, Dict, List, Tuple

from checks import EXAMPLES, Checks
from rtsp_client.connection import Connection
from rtsp_client.credentials import Credentials, parameters
from rtsp_client.messages import END

from .conversations import StoredServer
from .credentials import ALGORITHMS, NAME, OVER_TCP, PASSWORD, asked, digest
from .histories import FOLDER, files
from .runner import serving_test
from .server import HERE, Server

STORED = EXAMPLES / "credentials"
NONCE = re.compile(rb'(?<=nonce=")[0-9a-f]{32}(?=")')
# The first line of a request, or one header of it.
LINE = re.compile(r"(?im)^(?:(\w+) \S+ RTSP/2\.0|Authorization: (.*))\r$")
RESPONSE = re.compile(r"\{response(?: of (\w+)| as (\w+))?\}")
# Bytes that are no text stay what they are.
AS_IS = "utf-8", "surrogateescape"


class RefusingServer(StoredServer):
    """A server with the users and the configuration of the folder, and a journal."""

    def __init__(self, checks: Checks) -> None:
        super().__init__(checks, "credentials/server")
        self.words = ()
        self.holds_signals = True
        shutil.copy(STORED / "users", self.path)
        (self.path / FOLDER).mkdir()


def response_of(said: Dict[str, str], method: str, password: str) -> str:
    """The response that a header has by this password, as it says itself."""
    algorithm = said["algorithm"] if said.get("algorithm") in ALGORITHMS else "MD5"
    name, realm, nonce, uri, *counted = (said.get(it, "") for it in ("username", "realm", "nonce", "uri", "nc", "cnonce", "qop"))
    counted = counted if "qop" in said else []
    return digest(algorithm, digest(algorithm, name, realm, password), nonce, *counted, digest(algorithm, method, uri))


def with_responses(text: str) -> str:
    """A conversation with the responses of its headers, each for the method of its own request."""
    method = ""

    def of_line(line: "re.Match[str]") -> str:
        nonlocal method
        method = line[1] or method
        said = parameters(line[2] or "")
        return RESPONSE.sub(lambda it: response_of(said, it[2] or method, it[1] or PASSWORD), line[0])

    return LINE.sub(of_line, text)


def filled(given: bytes, nonce: str, other: str) -> bytes:
    """A conversation as it is said on the connection of a nonce, beside another one's."""
    text = re.sub(r"\{(\d+) bytes\}", lambda it: "x" * int(it[1]), given.decode(*AS_IS))
    text = text.replace("{nonce}", nonce).replace("{other nonce}", other)
    return with_responses(text).encode(*AS_IS)


def in_two(given: bytes) -> Tuple[bytes, bytes]:
    """What is said before the nonce is known, and the rest."""
    at = given.rfind(END, 0, given.index(b"{nonce}")) + len(END) if b"{nonce}" in given else 0
    return given[:at], given[at:]


def whole(said: bytes) -> List[bytes]:
    return [said]


def in_single_bytes(said: bytes) -> List[bytes]:
    return [said[at : at + 1] for at in range(len(said))]


def taken(talk: socket.socket, enough: Callable[[bytes], object]) -> bytes:
    """What comes until it is enough, or the connection ends."""
    came = b""
    with contextlib.suppress(ConnectionResetError):
        while not enough(came) and (piece := talk.recv(1 << 16)):
            came += piece
    return came


def answers_to(server: Server, given: bytes, cut: Callable[[bytes], List[bytes]]) -> bytes:
    """All that a conversation is answered until the connection ends, with the word for its nonce put back."""
    (other, theirs), (first, rest), came = asked(server), in_two(given), b""
    with contextlib.closing(other), server.socket() as talk:
        # The server may hang up before all is said; what it answered is compared.
        with contextlib.suppress(OSError):
            for piece in cut(first):
                talk.sendall(piece)
            came = taken(talk, NONCE.search) if first else b""
            found = NONCE.search(came)
            for piece in cut(filled(rest, found[0].decode() if found else "", theirs)):
                talk.sendall(piece)
            talk.shutdown(socket.SHUT_WR)
        came += taken(talk, lambda _: False)
    found = NONCE.search(came)
    return came.replace(found[0], b"{nonce}") if found else came


def journal_of(checks: Checks, server: Server) -> List[bytes]:
    """Stops the server. What its files of the journal have."""
    server.process.send_signal(signal.SIGTERM)
    checks.same("the status", 0, server.ends(10))
    return [it.read_bytes() for it in files(server)]


@serving_test(limit=90)
def each_refusal_as_stored(checks: Checks) -> None:
    """Each row of the README of examples/credentials is there with its answer, and is answered so; the journal stays empty."""
    rows = re.findall(r"(?m)^\| `([\w-]+)` \|", (STORED / "README.md").read_text())
    for folder in STORED, STORED / "answers":
        checks.same(f"{folder.name}: the rows", sorted(rows), sorted(it.stem for it in folder.glob("*.rtsp")))
    with RefusingServer(checks) as server:
        for row in rows:
            given, stored = ((folder / f"{row}.rtsp").read_bytes() for folder in (STORED, STORED / "answers"))
            for cut in whole, in_single_bytes:
                checks.same(f"{row}, {cut.__name__}", stored, answers_to(server, given, cut))
        checks.same("the journal", [b""], journal_of(checks, server))
    with RefusingServer(checks) as server:
        talk = Connection(HERE, server.port, credentials=Credentials(NAME, PASSWORD))
        checks.same("a user's SETUP", 200, talk.ask("SETUP", f"{server.uri}/a", OVER_TCP).status)
        checks.that("which is in the journal", b" open " in b"".join(journal_of(checks, server)))
        talk.close()
