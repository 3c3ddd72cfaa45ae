"""Many connections at once: those that say nothing, those that say little, and more than are allowed."""
import re
import resource
import select
import socket
import statistics
import threading
import time
from typing import List

from checks import Checks
from rtsp_client.messages import Message, Reader, written

from .runner import serving_test
from .server import Server, leases

IDLE = 10_000
MOST_CONNECTIONS = 16_384
# What a process needs beside its connections.
OTHER_DESCRIPTORS = 300
SLOW = 1000


def milliseconds_to_answer(server: Server) -> float:
    """From the start of a new connection to its answer."""
    began = time.monotonic()
    talk = server.connect()
    talk.ask("OPTIONS", "*")
    took = (time.monotonic() - began) * 1000
    talk.close()
    return took


def is_closed_by_server(talk: socket.socket, seconds: float) -> bool:
    talk.settimeout(seconds)
    try:
        return talk.recv(1) == b""
    except ConnectionError:
        return True
    except TimeoutError:
        return False


def answered_among(talks: List[socket.socket], seconds: float) -> List[socket.socket]:
    """Those that are answered, of connections that the server answers or closes within so many seconds."""
    until = time.monotonic() + seconds
    answered = []
    for talk in talks:
        try:
            talk.sendall(written("OPTIONS * RTSP/2.0", [("CSeq", "1")]))
            talk.settimeout(max(until - time.monotonic(), 0.01))
            if talk.recv(4096).startswith(b"RTSP/2.0 200 OK"):
                answered.append(talk)
        except OSError:
            # It was closed, or it waits: whoever asks next sees which.
            pass
    return answered


def many(server: Server, count: int) -> List[socket.socket]:
    return [server.socket() for _ in range(count)]


@serving_test(limit=60, is_alone=True)
def ten_thousand_idle_connections(checks: Checks) -> None:
    """A new connection is answered within 50 ms beside them; above the greatest number one is closed at once."""
    _, hard = resource.getrlimit(resource.RLIMIT_NOFILE)
    count = min(IDLE, hard - OTHER_DESCRIPTORS)
    with Server(checks) as server:
        before, memory = server.descriptors_at_rest(), server.resident_bytes()
        idle = many(server, count)
        took = [milliseconds_to_answer(server) for _ in range(30)]
        soon = sorted(took)[len(took) * 9 // 10 - 1]
        checks.that(f"beside {count} connections 9 of 10 are answered within 50 ms", soon <= 50, sorted(took))
        each = (server.resident_bytes() - memory) / count
        checks.that("an idle connection takes less than 4 kB of memory", each < 4096, each)
        spent = server.processor_seconds()
        time.sleep(1.0)
        spent = server.processor_seconds() - spent
        checks.that("idle connections take no processor time", spent <= 0.1, spent)
        if hard >= MOST_CONNECTIONS + OTHER_DESCRIPTORS:
            idle += many(server, MOST_CONNECTIONS - count)
            most = before + MOST_CONNECTIONS
            checks.same("the descriptors of as many as may be", most, server.descriptors_rise_to(most, 10.0))
            more = many(server, 10)
            closed = [is_closed_by_server(talk, 3.0) for talk in more]
            checks.same("above the greatest number each is closed at once", [True] * 10, closed)
            idle[0].sendall(written("OPTIONS * RTSP/2.0", [("CSeq", "1")]))
            idle[0].settimeout(5)
            checks.that("those that are there are answered", idle[0].recv(100).startswith(b"RTSP/2.0 200 OK"))
            for talk in [*idle[1:101], *more]:
                talk.close()
            time.sleep(0.5)
            server.answers("once some have gone a new one is answered")
        else:
            print(f"the hard limit of {hard} descriptors doesn't let {MOST_CONNECTIONS} connections be tried")
        for talk in idle:
            talk.close()
        checks.same("the descriptors afterwards", before, server.descriptors_fall_to(before, 15.0))


@serving_test(limit=40, is_alone=True)
def a_byte_a_second_on_a_thousand_connections(checks: Checks) -> None:
    """Beside them, and at last on them, half of the answers come within 100 ms."""
    with Server(checks) as server:
        slow = many(server, SLOW)
        request = written("OPTIONS * RTSP/2.0", [("CSeq", "1")])
        sent = 0

        def feed() -> None:
            nonlocal sent
            for sent in range(1, 7):
                began = time.monotonic()
                for number, talk in enumerate(slow):
                    talk.sendall(request[sent - 1 : sent])
                    if number % 50 == 49:
                        time.sleep(max(began + number / SLOW - time.monotonic(), 0))

        feeding = threading.Thread(target=feed)
        feeding.start()
        beside = []
        while feeding.is_alive():
            beside.append(milliseconds_to_answer(server))
            time.sleep(0.05)
        middle = statistics.median(beside)
        checks.that("half of the new connections are answered within 100 ms", middle <= 100, middle)
        took = []
        for talk in slow:
            began = time.monotonic()
            talk.sendall(request[sent:])
            talk.settimeout(5)
            answers = [it for it in Reader().take(talk.recv(4096)) if isinstance(it, Message)]
            took.append((time.monotonic() - began) * 1000)
            if [it.status for it in answers] != [200]:
                checks.that("each of the thousand is answered", False, answers)
                break
        middle = statistics.median(took)
        checks.that("half of the thousand are answered within 100 ms", middle <= 100, middle)


@serving_test(limit=30)
def sixty_four_descriptors(checks: Checks) -> None:
    """Connections get what all pairs leave. One more is accepted and closed; those that are there are served, each pair
    can be bound, and nothing spins."""
    with Server(checks, descriptors=64) as server:
        before = server.descriptors_at_rest()
        first = [server.connect() for _ in range(10)]
        checks.same("the first 10", [200] * 10, [talk.ask("OPTIONS", "*").status for talk in first])
        more = many(server, 120)
        left = answered_among(more, 3.0)
        waiting = [talk for talk in more if talk not in left and not is_closed_by_server(talk, 0.01)]
        checks.same("of 120 more, those that wait", 0, len(waiting))
        closed = len(more) - len(left)
        checks.that("of 120 more at least 60 are closed at once", closed >= 60, closed)
        checks.same("the first 10 are still served", [200] * 10, [talk.ask("OPTIONS", "*").status for talk in first])
        began = time.monotonic()
        granted = leases(first[0], f"{server.uri}/a", server.pairs)
        took = time.monotonic() - began
        checks.same("beside all connections, the pairs that are granted", server.pairs, len(granted))
        checks.that("they are granted within a second", took < 1, took)
        spent = server.processor_seconds()
        time.sleep(1.0)
        spent = server.processor_seconds() - spent
        checks.that("it doesn't spin meanwhile", spent <= 0.3, spent)
        for talk in left:
            talk.close()
        wanted = before + len(first) + 2 * len(granted)
        checks.that("descriptors are free again", server.descriptors_fall_to(wanted, 3.0) <= wanted)
        server.answers("then a new connection is answered")
        for talk in first:
            talk.close()


@serving_test(limit=30)
def more_pairs_than_connections(checks: Checks) -> None:
    """A server whose descriptors suffice for less connections than pairs says for how many, and serves as many."""
    with Server(checks, descriptors=140, pairs=40) as server:
        ready, _, _ = select.select([server.process.stderr], [], [], 1.0)
        told = server.process.stderr.readline() if ready else b""
        said = re.fullmatch(rb"\S+Z warning beside the pairs there are descriptors for (\d+) connections\n", told)
        room = int(said[1]) if said else None
        checks.that("it says for how many connections there is room", room is not None and 20 <= room < 40, told)
        left = answered_among(many(server, 60), 3.0)
        checks.same("those that are served", room, len(left))


@serving_test(limit=30)
def no_room_for_a_connection(checks: Checks) -> None:
    """A server whose pairs may take all descriptors doesn't start, and says how many it wants of what; also where it
    can't open all that it needs."""
    wanted = rb"rtspd: (\d+) descriptors are wanted at least, 80 for pairs of ports, "
    wanted += rb"(\d+) for files, lanes and listeners, and 1 for a connection; the limit is (\d+)\n"
    for limit in 64, 24:
        server = Server(checks, descriptors=limit, pairs=40)
        server.write_media()
        with server.start() as starting:
            said, complaint = starting.communicate(timeout=10)
        server.folder.cleanup()
        checks.same(f"how it ends with {limit}", (4, b""), (starting.returncode, said))
        figures = re.fullmatch(wanted, complaint)
        whole, others, given = map(int, figures.groups()) if figures else (0, 0, 0)
        checks.that(f"its line with {limit}", whole == 80 + others + 1 and given == limit, complaint)
