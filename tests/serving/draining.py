"""A server that is drained: no play is cut, balancers are told, and it ends."""
import contextlib
import pathlib
import signal
import socket
import subprocess
import tempfile
import time
from typing import Dict, Iterator, Optional

from checks import Checks
from rtsp_client.player import Way

from . import failing_disks
from .audience import asked, ended_by, said_to
from .events import Telling
from .failing_disks import SMALL, STUCK, moves, on_a_disk
from .histories import LATE, set_up
from .operator import figures, shown_at
from .plays import numbers_fit, set_up_all
from .runner import serving_test
from .server import HERE, Presentation, free_ports

PLAYED = Presentation(units=100)
LONG = Presentation(units=500)

BALANCER = """
global
    stats socket {folder}/admin.sock level admin
defaults
    mode tcp
    timeout connect 2s
    timeout client 30s
    timeout server 30s
listen rtsp
    bind {here}:{port}
    option httpchk GET /ready
    default-server weight 100 check port {status} inter 200ms agent-check agent-port {status} agent-inter 200ms
    server a {here}:{server} agent-send "GET /agent\\n"
"""


def agent_says(port: int) -> bytes:
    """What HAProxy reads of its agent-check."""
    return said_to(port, b"GET /agent\n")


def drained(checks: Checks, server: Telling, seconds: int = 300) -> None:
    """That the server has ended as a drain ends it."""
    checks.same("the status", 0, server.ends(8))
    told = rf"info draining: no more connections are let in, and plays go on for up to {seconds} s"
    checks.same("its drain is told once", 1, server.told.count(told.encode()))
    checks.same("and its end", 1, server.told.count(rb"info drained: the server stops"))
    checks.same("the last line", b"info stopped", server.told.events()[-1])


@serving_test(limit=60)
def a_drained_server_cuts_no_play(checks: Checks) -> None:
    """It lets no connection in, says so to balancers, sends what plays to its end, and ends with the last session."""
    port, address = shown_at()
    with Telling(checks, PLAYED, status=address) as server:
        checks.same("health", (200, "ok\n"), asked(port, "GET", "/healthz"))
        checks.same("ready", (200, "ready\n"), asked(port, "GET", "/ready"))
        checks.same("to HAProxy's default check", 200, asked(port, "OPTIONS", "/")[0])
        checks.same("with a free uplink", b"ready 100%\n", agent_says(port))
        players = [server.player(it) for it in (Way.UDP, Way.TCP)]
        for player in players:
            set_up_all(player)
            player.play(0.0)
        checks.same("with a quarter of it held", b"ready 75%\n", agent_says(port))
        checks.same("a drain", (200, ""), asked(port, "POST", "/drain"))
        checks.same("asked twice", (200, ""), asked(port, "POST", "/drain"))
        checks.same("ready", (503, "not ready\n"), asked(port, "GET", "/ready"))
        checks.same("to HAProxy's default check", 503, asked(port, "OPTIONS", "/")[0])
        checks.same("to its agent-check", b"drain\n", agent_says(port))
        checks.same("health", (200, "ok\n"), asked(port, "GET", "/healthz"))
        with socket.create_connection((HERE, server.port), timeout=5) as late:
            checks.same("who comes now", b"", late.recv(1))
        for player in players:
            player.listen(8.0)
            for stream, track in zip(player.streams, PLAYED.tracks):
                numbers_fit(checks, player.way.value, stream, track, PLAYED.units)
        checks.that("the server serves on", server.process.poll() is None)
        for player in players:
            player.tear_down()
        drained(checks, server)
        checks.same("how the sessions ended", 2, server.told.count(ended_by("TEARDOWN")))


@serving_test(limit=40)
def a_drain_has_an_end(checks: Checks) -> None:
    """After `drain` seconds what plays is ended; at once where nothing lives; and a signal waits for no play."""
    port, address = shown_at()
    with Telling(checks, LONG, status=address, drain=2) as server:
        player = server.player(Way.TCP)
        set_up_all(player)
        player.play(0.0)
        began = time.monotonic()
        asked(port, "POST", "/drain")
        drained(checks, server, 2)
        checks.that("it took two seconds at least", time.monotonic() - began > 2.0, time.monotonic() - began)
        checks.same("its session", 1, server.told.count(ended_by("the stop")))
        player.close()
    with Telling(checks, LONG, status=address) as server:
        asked(port, "POST", "/drain")
        drained(checks, server)
    with Telling(checks, LONG, status=address, holds_signals=True) as server:
        player = server.player(Way.TCP)
        set_up_all(player)
        player.play(0.0)
        asked(port, "POST", "/drain")
        server.process.send_signal(signal.SIGTERM)
        checks.same("the status after SIGTERM", 0, server.ends(5))
        checks.same("no drain has ended it", 0, server.told.count(rb"info drained: .*"))
        player.close()


@serving_test(limit=60)
def a_server_whose_journal_waits_is_not_ready(checks: Checks) -> None:
    """Balancers are told while the journal's file takes nothing, and again once it does."""
    port, address = shown_at()
    with on_a_disk(checks, journal=SMALL, status=address) as (server, disk):
        talk = server.connect()
        session = set_up(talk, server)
        time.sleep(LATE)
        checks.same("ready", (200, "ready\n"), asked(port, "GET", "/ready"))
        checks.same("the figure", 1, figures(port)["rtspd_journal_is_written"])
        disk.meet("write", error=28)
        moves(server, session, 2)
        time.sleep(LATE)
        checks.same("ready", (503, "not ready\n"), asked(port, "GET", "/ready"))
        checks.same("to HAProxy's agent-check", b"drain\n", agent_says(port))
        checks.same("the figure", 0, figures(port)["rtspd_journal_is_written"])
        time.sleep(2.0)
        behind = figures(port)["rtspd_journal_behind_seconds"]
        checks.that("how far behind", 2.0 <= behind < 9.0, behind)
        disk.mend()
        time.sleep(LATE)
        checks.same("ready again", (200, "ready\n"), asked(port, "GET", "/ready"))
        checks.same("what it tells of it", [STUCK, failing_disks.AGAIN], failing_disks.stops(checks, server))
        talk.close()


@contextlib.contextmanager
def balancer(checks: Checks, server: int, status: int) -> Iterator[Optional[pathlib.Path]]:
    """HAProxy in front of one server, where it is installed: the socket at which it is asked."""
    if not checks.has("HAProxy's agent-check", "haproxy"):
        yield None
        return
    with tempfile.TemporaryDirectory() as folder:
        ports = {"port": free_ports(socket.SOCK_STREAM, 1), "server": server, "status": status}
        path = pathlib.Path(folder)
        (path / "haproxy.cfg").write_text(BALANCER.format(folder=folder, here=HERE, **ports))
        nowhere = {"stdout": subprocess.DEVNULL, "stderr": subprocess.DEVNULL}
        running = subprocess.Popen(["haproxy", "-db", "-f", path / "haproxy.cfg"], **nowhere)
        try:
            yield path / "admin.sock"
        finally:
            running.kill()
            running.wait()


def told_to(admin: pathlib.Path, command: str) -> str:
    """What HAProxy answers at its socket; nothing where it isn't there."""
    with socket.socket(socket.AF_UNIX, socket.SOCK_STREAM) as talk:
        talk.settimeout(5)
        try:
            talk.connect(str(admin))
        except OSError:
            return ""
        talk.sendall(f"{command}\n".encode())
        return b"".join(iter(lambda: talk.recv(65536), b"")).decode()


def balanced(admin: pathlib.Path, proxy: str = "rtsp", server: str = "a") -> Dict[str, str]:
    """How HAProxy sees a server: its columns by their names."""
    lines = [it.split(",") for it in told_to(admin, f"show stat {proxy} 4 -1").lstrip("# ").splitlines() if it]
    return next((dict(zip(lines[0], it)) for it in lines[1:] if it[1] == server), {})


def comes_to(admin: pathlib.Path, proxy: str = "rtsp", server: str = "a", **wanted: str) -> bool:
    """Whether HAProxy comes to see the server so."""
    until = time.monotonic() + 10.0
    while time.monotonic() < until:
        seen = balanced(admin, proxy, server)
        if all(seen.get(key, "").startswith(value) for key, value in wanted.items()):
            return True
        time.sleep(0.1)
    return False


@serving_test(limit=60)
def haproxy_asks_what_is_free(checks: Checks) -> None:
    """Its weight follows the free part of the uplink, and a server that drains gets no new player."""
    port, address = shown_at()
    with Telling(checks, LONG, status=address) as server, balancer(checks, server.port, port) as admin:
        if admin is None:
            return
        player = server.player(Way.TCP)
        checks.that("the whole is free", comes_to(admin, status="UP", weight="100"), balanced(admin))
        set_up_all(player)
        player.play(0.0)
        checks.that("an eighth is held", comes_to(admin, status="UP", weight="87"), balanced(admin))
        asked(port, "POST", "/drain")
        checks.that("it gets no new player", comes_to(admin, status="D"), balanced(admin))
        player.tear_down()
        drained(checks, server)
