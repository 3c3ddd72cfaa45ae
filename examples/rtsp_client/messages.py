"""Messages as they stand on a connection: requests, responses and interleaved frames (RFC 7826 sections 14 and 20)."""
import re
from typing import Iterable, Iterator, List, NamedTuple, Optional, Tuple, Union

END = b"\r\n\r\n"
FRAME = ord("$")
FRAME_HEAD = 4
STATUS_LINE = re.compile(r"RTSP/\d+\.\d+ (\d{3}) ?(.*)")


class BadMessage(Exception):
    """What came is no message of RTSP, in one line."""


class Frame(NamedTuple):
    """Bytes that stand between messages: a channel, and what is for it."""

    channel: int
    payload: bytes


class Message(NamedTuple):
    """A request or a response."""

    first_line: str
    headers: List[Tuple[str, str]]
    body: bytes

    def header(self, name: str) -> Optional[str]:
        """The first header of a name, whose case doesn't count."""
        return next((value for key, value in self.headers if key.lower() == name.lower()), None)

    @property
    def status(self) -> Optional[int]:
        """The status of a response; None for a request."""
        found = STATUS_LINE.fullmatch(self.first_line)
        return int(found[1]) if found else None

    @property
    def cseq(self) -> Optional[int]:
        text = self.header("CSeq") or ""
        return int(text) if text.isdecimal() else None


Item = Union[Frame, Message]


def written(first_line: str, headers: Iterable[Tuple[str, str]], body: bytes = b"") -> bytes:
    """The bytes of a message."""
    lines = [first_line, *(f"{name}: {value}" for name, value in headers)]
    if body:
        lines.append(f"Content-Length: {len(body)}")
    return "\r\n".join([*lines, "", ""]).encode() + body


def frame(channel: int, payload: bytes) -> bytes:
    """The bytes of an interleaved frame."""
    return bytes([FRAME, channel]) + len(payload).to_bytes(2, "big") + payload


class Reader:
    """Takes bytes in pieces, and gives the items that are whole."""

    def __init__(self) -> None:
        self.held = bytearray()

    def take(self, piece: bytes) -> Iterator[Item]:
        self.held += piece
        while True:
            while self.held.startswith(b"\r\n"):
                del self.held[:2]
            item = self._frame() if self.held[:1] == b"$" else self._message()
            if item is None:
                return
            yield item

    def _frame(self) -> Optional[Frame]:
        end = FRAME_HEAD + int.from_bytes(self.held[2:FRAME_HEAD], "big")
        if len(self.held) < FRAME_HEAD or len(self.held) < end:
            return None
        item = Frame(self.held[1], bytes(self.held[FRAME_HEAD:end]))
        del self.held[:end]
        return item

    def _message(self) -> Optional[Message]:
        at = self.held.find(END)
        if at < 0:
            return None
        first_line, *lines = self.held[:at].decode("latin-1").split("\r\n")
        headers = []
        for line in lines:
            name, colon, value = line.partition(":")
            if not colon:
                raise BadMessage(f"the server sent a header without a colon: {line!r}")
            headers.append((name.strip(), value.strip()))
        head = Message(first_line, headers, b"")
        length = head.header("Content-Length") or "0"
        if not length.isdecimal():
            raise BadMessage(f"the server sent a Content-Length that is no number: {length!r}")
        body = at + len(END)
        end = body + int(length)
        if len(self.held) < end:
            return None
        item = head._replace(body=bytes(self.held[body:end]))
        del self.held[:end]
        return item
