"""Ports of the range that other programs have."""
import contextlib
import socket
import time
from typing import Iterator, List

from checks import Checks
from rtsp_client.messages import written

from .floods import flooded, seconds_to
from .runner import serving_test
from .server import HERE, Presentation, Server, lease
from .shares import talks_from

ONE, OTHER = "127.0.0.2", "127.0.0.3"
ONE_TRACK = Presentation(tracks=Presentation().tracks[:1])
MANY, FLOODS = 4_096, 4
UDP = [("Transport", 'RTP/AVP;unicast;dest_addr=":9"/":9"')]
# Ports that were found to be another's are tried again about each second.
FORGOTTEN = 1.5


@contextlib.contextmanager
def taken(first: int, count: int) -> Iterator[List[socket.socket]]:
    """Each second port from one on is another program's."""
    held = []
    for number in range(count):
        held.append(socket.socket(socket.AF_INET, socket.SOCK_DGRAM))
        held[-1].bind((HERE, first + 2 * number))
    yield held
    for it in held:
        it.close()


def asks_for_ports(port: int, uri: str, address: str) -> None:
    """Asks for one session over UDP after another, and reads what comes, until it is ended."""
    talk = socket.create_connection((HERE, port), timeout=60, source_address=(address, 0))
    request = written(f"SETUP {uri} RTSP/2.0", [("CSeq", "1"), *UDP]) * 10
    while True:
        talk.sendall(request)
        answered = b""
        while answered.count(b"RTSP/2.0 ") < 10:
            piece = talk.recv(1 << 16)
            if not piece:
                return
            answered += piece


@serving_test(limit=120, is_alone=True)
def a_range_that_another_program_has(checks: Checks) -> None:
    """Four connections ask for its ports without end; another of their lane is answered within half a second."""
    # What the floods have asked for is served once the ports are free: there is bandwidth for that.
    with Server(checks, ONE_TRACK, pairs=MANY, workers=1, uplink=MANY * ONE_TRACK.whole_rate) as server:
        with taken(server.first_port, MANY), talks_from(server, OTHER) as (other,):
            checks.same("a SETUP over UDP", 503, other.ask("SETUP", f"{server.uri}/a", UDP).status)
            with flooded(server, FLOODS, ONE, asks_for_ports):
                took = []
                for _ in range(20):
                    took.append(seconds_to(lambda: other.ask("OPTIONS", "*")))
                    time.sleep(0.05)
            checks.that("each answer within half a second", max(took) <= 0.5, sorted(took))
        time.sleep(FORGOTTEN)
        with talks_from(server, OTHER) as (other,):
            checks.that("once the ports are free, a session", lease(other, f"{server.uri}/a") is not None)


@serving_test(limit=30)
def some_ports_are_anothers(checks: Checks) -> None:
    """A session has the first pair of which nobody has a port, however many before it others have."""
    pairs = 40
    with Server(checks, ONE_TRACK, pairs=pairs) as server:
        with taken(server.first_port, pairs - 1), talks_from(server, OTHER) as (other,):
            for _ in range(3):
                made = lease(other, f"{server.uri}/a")
                checks.same("its port", server.first_port + 2 * (pairs - 1), made and made.port)
                ended = made and other.ask("TEARDOWN", server.uri, [("Session", made.session)]).status
                checks.same("it is ended", 200, ended)
        time.sleep(FORGOTTEN)
        with talks_from(server, OTHER) as (other,):
            made = lease(other, f"{server.uri}/a")
            checks.same("once they are free, the first pair", server.first_port, made and made.port)
