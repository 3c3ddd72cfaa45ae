"""A player whose port is closed while its play goes on: the server doesn't send to nobody for ever."""
import socket
import time
from typing import List, Tuple

from checks import Checks
from rtsp_client.connection import Connection

from .events import Telling, is_told
from .runner import serving_test
from .server import HERE

# After so many seconds in which the port refused all packets none is sent, and so soon after a renewal they come again.
REFUSED_FOR, AGAIN_WITHIN = 5.0, 3.0


def closed_port() -> int:
    """A port that nobody has, nor the one above."""
    while True:
        with socket.socket(socket.AF_INET, socket.SOCK_DGRAM) as one, socket.socket(
            socket.AF_INET, socket.SOCK_DGRAM
        ) as next_one:
            one.bind((HERE, 0))
            port = one.getsockname()[1]
            try:
                next_one.bind((HERE, port + 1))
                return port
            except (OSError, OverflowError):
                continue


def plays_to(talk: Connection, uri: str, port: int) -> Tuple[str, List[int]]:
    """The id of a session that plays a track to a port of this host, and the statuses of its requests."""
    setup = talk.ask("SETUP", f"{uri}/a", [("Transport", f'RTP/AVP;unicast;dest_addr=":{port}"/":{port + 1}"')])
    session = (setup.header("Session") or "").partition(";")[0]
    return session, [setup.status, talk.ask("PLAY", uri, [("Session", session)]).status]


def packets_within(port: int, seconds: float, enough: int) -> int:
    """How many packets come to a port within so many seconds, until there are enough."""
    until = time.monotonic() + seconds
    with socket.socket(socket.AF_INET, socket.SOCK_DGRAM) as opened:
        opened.bind((HERE, port))
        came = 0
        while came < enough and (left := until - time.monotonic()) > 0:
            opened.settimeout(left)
            try:
                opened.recv(2048)
                came += 1
            except TimeoutError:
                pass
        return came


@serving_test(limit=40, is_timed=True)
def a_port_that_stays_closed(checks: Checks) -> None:
    """After 5 s in which a port refused all packets none is sent to it, until its session is renewed; it is told, once."""
    with Telling(checks, timeout=30, renewal_step=100) as server:
        talk, port, soon = server.connect(), closed_port(), closed_port()
        session, statuses = plays_to(talk, server.uri, port)
        checks.same("SETUP and PLAY", [200, 200], statuses)
        time.sleep(REFUSED_FOR - 2)
        beside = server.connect()
        _, statuses = plays_to(beside, server.uri, soon)
        checks.same("SETUP and PLAY beside it", [200, 200], statuses)
        time.sleep(3.0)
        checks.same("packets to the port, once it is open again", 0, packets_within(port, 1.0, 5))
        checks.same("packets to one that was closed for less", 5, packets_within(soon, 1.0, 5))
        renewed = talk.ask("GET_PARAMETER", server.uri, [("Session", session)])
        checks.same("the renewal", 200, renewed.status)
        checks.same("packets to the port, once the session is renewed", 5, packets_within(port, AGAIN_WITHIN, 5))
        told = rb"warning a port of the player of session \d+:[0-9a-f]{8} refuses all packets: none is sent there for a minute"
        is_told(checks, server, "of the port", told)
        checks.same("how often", 1, server.told.count(told))
        for connection in talk, beside:
            connection.close()
