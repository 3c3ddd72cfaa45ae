"""A server that is asked to end, by SIGTERM, SIGINT or SIGHUP that it holds back: what is in hand is answered, everything
is hung up, and it ends with status 0 within 3 s, whatever players do."""
import os
import shutil
import signal
import socket
import subprocess
import time
from typing import Iterator, List

from checks import Checks
from rtsp_client.connection import Refused
from rtsp_client.messages import written
from rtsp_client.player import Player, Way

from .histories import audited, chronicled, files, sessions_in, set_up
from .plays import set_up_all
from .runner import serving_test
from .server import Presentation, Server, is_free

LONG = Presentation(units=3000)
OPTIONS = written("OPTIONS * RTSP/2.0", [("CSeq", "7")])
WITHIN = 3.0
# So many requests are sent on one connection before the server is asked to end. The system takes all of them at once.
PIPELINED = 500


def is_hung_up(talk: socket.socket) -> bool:
    talk.settimeout(5)
    try:
        while talk.recv(65_536):
            pass
    except ConnectionResetError:
        pass
    except OSError:
        return False
    return True


def can_listen(port: int) -> bool:
    """Whether another server can listen there, though connections of the last one may not be forgotten yet."""
    with socket.socket() as tried:
        tried.setsockopt(socket.SOL_SOCKET, socket.SO_REUSEADDR, 1)
        try:
            tried.bind(("127.0.0.1", port))
            tried.listen()
        except OSError:
            return False
    return True


def ports_of(server: Server) -> Iterator[bool]:
    """Whether each port that the server had can be bound."""
    yield can_listen(server.port)
    for port in range(server.first_port, server.first_port + 2 * server.pairs):
        yield is_free(socket.SOCK_DGRAM, port)


def ends_cleanly(checks: Checks, server: Server, within: float = WITHIN) -> None:
    began = time.monotonic()
    checks.same("the status", 0, server.ends(within + 5))
    took = time.monotonic() - began
    checks.that(f"it ends within {within} s", took <= within, took)
    checks.that("its ports can be bound at once", all(ports_of(server)))


def is_refused(player: Player) -> bool:
    try:
        player.tear_down()
    except (Refused, OSError):
        return True
    return False


def stops(checks: Checks, asked: signal.Signals) -> None:
    with Server(checks, LONG, holds_signals=True) as server:
        players = [server.player(way) for way in (Way.UDP, Way.TCP)]
        for player in players:
            set_up_all(player)
            player.play(0.0)
        idle, half, in_hand = server.socket(), server.socket(), server.socket()
        half.sendall(OPTIONS[:10])
        time.sleep(0.5)
        in_hand.sendall(OPTIONS * PIPELINED)
        server.process.send_signal(asked)
        in_hand.settimeout(5)
        answers = b""
        while piece := in_hand.recv(65_536):
            answers += piece
        checks.same("the requests in hand that are answered", PIPELINED, answers.count(b"RTSP/2.0 200 OK"))
        for name, talk in ("an idle connection", idle), ("half a request", half):
            checks.that(f"{name} is hung up", is_hung_up(talk))
        ends_cleanly(checks, server)
        for player in players:
            checks.that("a player's connection is hung up", is_refused(player))
            player.close()


@serving_test(limit=30, is_timed=True)
def stops_at_sigterm(checks: Checks) -> None:
    """SIGTERM beside players over UDP and TCP, an idle connection, half a request, and requests in hand."""
    stops(checks, signal.SIGTERM)


@serving_test(limit=30, is_timed=True)
def stops_at_sigint(checks: Checks) -> None:
    """The same by SIGINT."""
    stops(checks, signal.SIGINT)


@serving_test(limit=30, is_timed=True)
def stops_at_sighup(checks: Checks) -> None:
    """The same by SIGHUP, as where a terminal is closed."""
    stops(checks, signal.SIGHUP)


@serving_test(limit=30)
def a_hangup_writes_the_journal(checks: Checks) -> None:
    """The last book is in the file after SIGHUP too, and has no session."""
    with chronicled(checks, holds_signals=True) as server:
        set_up(server.connect(), server)
        server.process.send_signal(signal.SIGHUP)
        ends_cleanly(checks, server)
        status, book, complaint = audited(server, files(server)[-1])
        checks.same("the audit", (0, "", []), (status, complaint, sessions_in(book)))


class Immune(Server):
    """A server that was started as `nohup` starts one."""

    def command(self) -> List[str]:
        return ["env", "--ignore-signal=HUP", *super().command()]


@serving_test(limit=30, is_timed=True)
def a_hangup_that_is_ignored(checks: Checks) -> None:
    """Where it was ignored before it was held back, as under nohup, it is no stop; SIGTERM is one still."""
    with Immune(checks, holds_signals=True) as server:
        server.process.send_signal(signal.SIGHUP)
        time.sleep(0.5)
        server.answers("after a hangup")
        server.process.send_signal(signal.SIGTERM)
        ends_cleanly(checks, server)


def deaf_readers(server: Server) -> List[socket.socket]:
    """Players that ask for much and read nothing."""
    talks = []
    for _ in range(8):
        talk = socket.socket()
        talk.setsockopt(socket.SOL_SOCKET, socket.SO_RCVBUF, 2048)
        talk.connect((server.host, server.port))
        talk.setblocking(False)
        request = written(f"DESCRIBE {server.uri} RTSP/2.0", [("CSeq", "1")])
        try:
            while True:
                talk.send(request * 100)
        except BlockingIOError:
            pass
        talks.append(talk)
    return talks


@serving_test(limit=30, is_timed=True)
def stops_beside_deaf_readers(checks: Checks) -> None:
    """Players that read nothing, and fill what waits for them, hold nothing up for longer than 3 s."""
    with Server(checks, holds_signals=True) as server:
        talks = deaf_readers(server)
        time.sleep(0.5)
        server.process.send_signal(signal.SIGTERM)
        ends_cleanly(checks, server)
        for talk in talks:
            talk.close()


@serving_test(limit=30, is_timed=True)
def stops_at_once(checks: Checks) -> None:
    """Another of the signals behind the first ends it at once, beside players that read nothing."""
    with Server(checks, holds_signals=True) as server:
        talks = deaf_readers(server)
        time.sleep(0.5)
        server.process.send_signal(signal.SIGTERM)
        server.process.send_signal(signal.SIGINT)
        ends_cleanly(checks, server, 1.0)
        for talk in talks:
            talk.close()


@serving_test(limit=30)
def stops_without_descriptors(checks: Checks) -> None:
    """A server that has no descriptor left ends as well."""
    with Server(checks, descriptors=64, holds_signals=True) as server:
        talks = []
        for _ in range(80):
            talks.append(server.socket())
        time.sleep(0.5)
        server.process.send_signal(signal.SIGTERM)
        checks.same("the status", 0, server.ends(WITHIN + 5))
        for talk in talks:
            talk.close()


@serving_test(limit=30)
def ends_where_signals_are_not_held(checks: Checks) -> None:
    """Where nobody holds the signals back the system ends the server at once, as it does any program."""
    for number in signal.SIGTERM, signal.SIGHUP:
        with Server(checks) as server:
            server.answers("before")
            server.process.send_signal(number)
            checks.same("the status", -number, server.ends(WITHIN))


@serving_test(limit=30)
def stops_as_process_1(checks: Checks) -> None:
    """As process 1 of a namespace, where a signal that isn't handled is ignored: as in a container."""
    tried = ["unshare", "--pid", "--fork", "--mount-proc", "true"]
    if not shutil.which("unshare") or subprocess.run(tried, stderr=subprocess.DEVNULL).returncode:
        checks.skip("a stop as process 1", "no namespace of processes can be made here")
        return
    with Server(checks, holds_signals=True) as server:
        # The one that the harness has started is done with; its configuration and ports are used again.
        server.process.send_signal(signal.SIGTERM)
        server.ends(WITHIN + 5)
        alone = ["unshare", "--pid", "--fork", "--kill-child", "--mount-proc"]
        command = [*alone, "env", "--block-signal=TERM,INT,HUP,XFSZ"]
        with subprocess.Popen(
            [*command, *server.command()], cwd=server.path, stdout=subprocess.PIPE, stdin=subprocess.DEVNULL
        ) as outer:
            outer.stdout.readline()
            children = f"/proc/{outer.pid}/task/{outer.pid}/children"
            with open(children) as file:
                inner = int(file.read().split()[0])
            server.answers("as process 1")
            began = time.monotonic()
            os.kill(inner, signal.SIGTERM)
            checks.same("the status", 0, outer.wait(timeout=WITHIN + 5))
            took = time.monotonic() - began
            checks.that(f"it ends within {WITHIN} s", took <= WITHIN, took)
