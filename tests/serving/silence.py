"""Connections that say nothing, or begin a message and don't end it."""
import socket
import time
from typing import Dict, List, Optional

from checks import Checks
from rtsp_client.connection import Connection
from rtsp_client.messages import frame

from .runner import serving_test
from .server import Server, is_alive, lease
from .shares import ONE, ONE_TRACK, OTHER, Talk

# The limits of the server, in seconds, and what a sweep may add.
SILENT, UNFINISHED, SWEPT_WITHIN = 60, 30, 3.0
# What connections send each second on which some item is always begun, and each is finished.
CUT = {"frames, cut": frame(0, bytes(100)), "requests, cut": b"OPTIONS * RTSP/2.0\r\nCSeq: 1\r\n\r\n"}


def is_open(talk: socket.socket) -> bool:
    """Whether the server hasn't closed a connection; what it wrote is read."""
    talk.setblocking(False)
    try:
        return talk.recv(4096) != b""
    except BlockingIOError:
        return True
    except OSError:
        return False
    finally:
        talk.setblocking(True)


def ends_of(talks: Dict[str, socket.socket], until: float, each_second) -> Dict[str, Optional[float]]:
    """After how many seconds each connection was closed by the server; None where it is open to the end."""
    began = time.monotonic()
    ends: Dict[str, Optional[float]] = dict.fromkeys(talks)
    second = began
    while time.monotonic() < began + until:
        for name, talk in talks.items():
            if ends[name] is None and not is_open(talk):
                ends[name] = time.monotonic() - began
        if time.monotonic() >= second:
            second += 1
            each_second([name for name in talks if ends[name] is None], round(second - began))
        time.sleep(0.05)
    return ends


@serving_test(limit=80, is_long=True)
def silent_connections_are_closed(checks: Checks) -> None:
    """Without a session after 60 s, with a message that isn't finished after 30 s, however slowly it goes on."""
    with Server(checks) as server:
        names = "silent", "one request", "begun", "a byte a second", "a frame begun", "asks", "over TCP", *CUT
        connections: Dict[str, Connection] = {name: server.connect() for name in names}
        talks = {name: connection.socket for name, connection in connections.items()}
        udp = server.connect()
        leased = lease(udp, f"{server.uri}/a")
        # A session over the connection keeps it open, though it says nothing.
        over_tcp = ("Transport", "RTP/AVP/TCP;unicast;interleaved=0-1")
        connections["over TCP"].ask("SETUP", f"{server.uri}/a", [over_tcp])
        connections["one request"].ask("OPTIONS", "*")
        talks["begun"].sendall(b"OPTIONS * RTSP/2.0\r\nCSe")
        talks["a frame begun"].sendall(b"$\0\0\x10")
        lived: List[bool] = []

        def each_second(are_open: List[str], second: int) -> None:
            if "a byte a second" in are_open:
                try:
                    talks["a byte a second"].send(b"O")
                except OSError:
                    pass
            for name, item in CUT.items():
                if name in are_open:
                    # The end of one item, and the beginning of the next.
                    talks[name].send(item[1:] + item[:1] if second > 1 else item[:1])
            if second % 20 == 0 and "asks" in are_open:
                talks["asks"].send(b"OPTIONS * RTSP/2.0\r\nCSeq: 1\r\n\r\n")
                lived.append(is_alive(udp, server.uri, leased.session if leased else ""))

        ends = ends_of(talks, SILENT + SWEPT_WITHIN + 0.5, each_second)
        for name, limit in (
            ("silent", SILENT),
            ("one request", SILENT),
            ("begun", UNFINISHED),
            ("a byte a second", UNFINISHED),
            ("a frame begun", UNFINISHED),
        ):
            seconds = ends[name]
            is_right = seconds is not None and limit - 0.5 <= seconds <= limit + SWEPT_WITHIN
            checks.that(f"the connection '{name}' is closed {limit} s later, within a sweep", is_right, seconds)
        for name in "asks", *CUT:
            checks.same(f"the connection '{name}' is open", None, ends[name])
        checks.same("a session over UDP that is renewed lives", [True] * 3, lived)
        for connection in [*connections.values(), udp]:
            connection.close()


@serving_test(limit=80, is_long=True)
def who_sets_up_may_be_silent_for_longer(checks: Checks) -> None:
    """For a session's timeout, where a SETUP was granted or only bandwidth was missing; not where it was asked wrongly,
    nor where the address has no place left."""
    udp = 'RTP/AVP;unicast;dest_addr=":9"/":9"'
    asked = {
        "granted": (ONE, udp, 200),
        "without a place": (ONE, udp, 503),
        "without bandwidth": (OTHER, udp, 453),
        "asked wrongly": (OTHER, "RTP/AVP;multicast", 461),
    }
    settings = {"timeout": SILENT + 10, "uplink": ONE_TRACK.whole_rate, "sessions_per_address": 1}
    with Server(checks, ONE_TRACK, **settings) as server:
        talks = {name: Talk(server, address) for name, (address, _, _) in asked.items()}
        for name, (_, transport, status) in asked.items():
            answer = talks[name].ask("SETUP", f"{server.uri}/a", [("Transport", transport)])
            checks.same(f"a SETUP {name}", status, answer.status)
        sockets = {name: talk.socket for name, talk in talks.items()}
        ends = ends_of(sockets, SILENT + SWEPT_WITHIN + 0.5, lambda are_open, second: None)
        for name in "without a place", "asked wrongly":
            seconds = ends[name]
            is_right = seconds is not None and SILENT - 0.5 <= seconds <= SILENT + SWEPT_WITHIN
            checks.that(f"the connection '{name}' is closed {SILENT} s later, within a sweep", is_right, seconds)
        for name in "granted", "without bandwidth":
            checks.same(f"the connection '{name}' is open", None, ends[name])
        for talk in talks.values():
            talk.close()
