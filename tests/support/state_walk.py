"""A walk through the state table with each allocation of a request refused.

Over `rtspd stdio` the moment stays 0 and no session is without streams, so the states are those that a conversation
reaches: none, Ready, Playing one track or both, and the two of another presentation.
"""
from typing import Callable, Iterator, List, NamedTuple, Tuple

TONE, BEEP = "rtsp://h/tone", "rtsp://h/beep"
SESSION = "Session: 00000000000000000000000000000001"
# So much the program reads at a time; the answers to all that it read are one write.
PIECE = 4096


def request(cseq: int, method: str, uri: str, *headers: str, body: str = "") -> bytes:
    length = [f"Content-Length: {len(body)}"] if body else []
    return "\r\n".join([f"{method} {uri} RTSP/2.0", f"CSeq: {cseq}", *headers, *length, "", body]).encode()


def wish(channel: int) -> str:
    return f"Transport: RTP/AVP/TCP;unicast;interleaved={channel}-{channel + 1}"


def set_up(uri: str) -> List[bytes]:
    return [request(1, "SETUP", uri, wish(0))]


# The states, each with the requests that lead there.
STATES = {
    "no session": [request(1, "OPTIONS", "*")],
    "Ready": set_up(f"{TONE}/a"),
    "Playing": set_up(f"{TONE}/a") + [request(2, "PLAY", TONE, SESSION)],
    "Playing both tracks": set_up(f"{TONE}/a")
    + [request(2, "SETUP", f"{TONE}/b", SESSION, wish(2)), request(3, "PLAY", TONE, SESSION)],
    "Ready elsewhere": set_up(f"{BEEP}/a"),
    "Playing elsewhere": set_up(f"{BEEP}/a") + [request(2, "PLAY", BEEP, SESSION)],
}

# A method, a URI, a body (a bar where there is none), and the status in each of the states.
TABLE = """
OPTIONS       *               |        200 200 200 200 200 200
OPTIONS       rtsp://h/tone   |        200 200 200 200 200 200
DESCRIBE      rtsp://h/tone   |        200 200 200 200 200 200
DESCRIBE      rtsp://h/tone/a |        404 404 404 404 404 404
SETUP         rtsp://h/tone   |        459 459 459 459 459 459
SETUP         rtsp://h/tone/a |        200 200 455 455 459 455
SETUP         rtsp://h/tone/b |        200 200 455 455 459 455
PLAY          rtsp://h/tone   |        454 200 200 200 454 454
PLAY          rtsp://h/tone/a |        454 460 460 460 460 460
PAUSE         rtsp://h/tone   |        454 200 200 200 454 454
PAUSE         rtsp://h/tone/a |        454 460 460 460 460 460
TEARDOWN      rtsp://h/tone   |        454 200 200 200 454 454
TEARDOWN      rtsp://h/tone/a |        454 200 200 455 454 454
TEARDOWN      rtsp://h/tone/b |        454 455 455 455 454 454
GET_PARAMETER *               |        200 200 200 200 200 200
GET_PARAMETER rtsp://h/tone   |        200 200 200 200 200 200
GET_PARAMETER *               duration 400 400 400 400 400 400
GET_PARAMETER rtsp://h/tone   duration 200 200 200 200 200 200
GET_PARAMETER rtsp://h/tone/a position 454 200 200 200 200 200
GET_PARAMETER rtsp://h/tone   volume   451 451 451 451 451 451
SET_PARAMETER *               |        200 200 200 200 200 200
SET_PARAMETER rtsp://h/tone   |        200 200 200 200 200 200
SET_PARAMETER rtsp://h/tone/a volume   451 451 451 451 451 451
"""


class Cell(NamedTuple):
    name: str
    opening: List[bytes]
    asked: bytes
    status: int


def cells() -> Iterator[Cell]:
    for row in TABLE.split("\n")[1:-1]:
        method, uri, body, *statuses = row.split()
        for (state, opening), status in zip(STATES.items(), statuses):
            headers = [] if state == "no session" else [SESSION]
            headers += [wish(6)] if method == "SETUP" else ["Range: npt=2-"]
            text = "" if body == "|" else f"{body}\r\n"
            asked = request(len(opening) + 1, method, uri, *headers, body=text)
            yield Cell(f"{method} {uri} {body}, {state}", opening, asked, int(status))


def refusals(cell: Cell) -> Tuple[bytes, bytes]:
    """The 500 that shows the request's number and its session, and the bare one."""
    bare = b"RTSP/2.0 500 Internal Server Error\r\n"
    session = f"{SESSION}\r\n".encode() if SESSION.encode() in cell.asked else b""
    return bare + b"CSeq: %d\r\n" % (len(cell.opening) + 1) + session + b"\r\n", bare + b"\r\n"


def alone(opening: List[bytes]) -> bytes:
    """The opening and an interleaved frame, which isn't answered, so that what follows is a piece of its own."""
    whole = b"".join(opening)
    size = PIECE - len(whole) - 4
    return whole + b"$\0" + size.to_bytes(2, "big") + bytes(size)


def walk_cell(cell: Cell, converse: Callable, same_book: Callable) -> Tuple[int, List[str]]:
    """How many refusals there were, and what was wrong of them."""
    before = converse(alone(cell.opening))
    given = alone(cell.opening) + cell.asked
    whole = converse(given)
    answer = whole.said[len(before.said) :]
    if not whole.said.startswith(before.said) or not answer.startswith(b"RTSP/2.0 %d " % cell.status):
        return 0, [f"{cell.name}: {answer} with ample memory"]
    first, last = whole.at_answers[-2] + 1, whole.at_answers[-1]
    found = []
    for nth in range(first, last + 1):
        run = converse(given, nth, nth)
        came = run.said[len(before.said) :]
        if came == answer and run.journal == whole.journal:
            continue
        if came not in refusals(cell) or not same_book(run.journal, before.journal):
            found.append(f"{cell.name}, allocation {nth} refused: {came}, journal {run.journal}")
    return last - first + 1, found
