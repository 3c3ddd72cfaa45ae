"""Fifty clients come and go for so long that one run has several files: joined, these tell of each session all that it did."""
import collections
import multiprocessing
import pathlib
import re
import signal
import socket
import sys
import time
from multiprocessing.connection import Connection as Channel
from typing import Dict, List, NamedTuple, Tuple

from checks import TOP, Checks
from rtsp_client.messages import END, written

from .histories import audited, checked, chronicled, files
from .runner import serving_test
from .server import HERE, Server

sys.path.insert(0, str(TOP / "tools"))
from journal_chain import GOES_ON, Chain

PROCESSES, CLIENTS_OF_ONE = 5, 10
CLIENTS = PROCESSES * CLIENTS_OF_ONE
# A session is played so often in turn.
PLAYS = 2
# Clients go on until there are so many files, on a slow machine until the patience is over. What they make is bounded so:
# reading the files again takes a fast machine longer than making them.
FILES, PATIENCE = 3, 90.0
OVER_UDP = ("Transport", 'RTP/AVP;unicast;dest_addr=":9"/":9"')
SESSION = re.compile(rb"(?m)^Session: ([0-9a-f]{32})")
# What the entries of a session are. A pair that can't be bound yet, since a play has just let go of it, is given back.
STRAND = re.compile("open hold (?:hold free )*hold add ((?:move )*)drop free free close")


class Lived(NamedTuple):
    """A session by its id, and how often it was played and paused."""

    id: str
    moves: int


class Client:
    """One connection, over which one session after another lives."""

    def __init__(self, port: int, uri: str) -> None:
        self.talk = socket.create_connection((HERE, port), timeout=30)
        self.talk.setsockopt(socket.IPPROTO_TCP, socket.TCP_NODELAY, 1)
        self.uri = uri
        self.held = b""

    def request(self, method: str, *headers: Tuple[str, str], path: str = "") -> bytes:
        return written(f"{method} {self.uri}{path} RTSP/2.0", [("CSeq", "1"), *headers])

    def send_setup(self) -> None:
        self.talk.sendall(self.request("SETUP", OVER_UDP, path="/a"))

    def send_rest(self, id: str, ends: bool) -> int:
        """What else a session does, all at once. How many answers there will be."""
        named = ("Session", id)
        asked = [self.request("PLAY", named, ("Range", "npt=0-")), self.request("PAUSE", named)] * PLAYS
        asked += [self.request("TEARDOWN", named)] if ends else []
        self.talk.sendall(b"".join(asked))
        return len(asked)

    def answers(self, count: int) -> List[bytes]:
        while self.held.count(END) < count:
            piece = self.talk.recv(1 << 16)
            if not piece:
                raise OSError("the server hung up")
            self.held += piece
        *answers, self.held = self.held.split(END, count)
        refused = [it for it in answers if not it.startswith(b"RTSP/2.0 200")]
        if refused:
            raise OSError(f"an answer was {refused[0]!r}")
        return answers


def live(clients: List[Client], ends: bool) -> List[Lived]:
    """A session of each client, side by side."""
    for client in clients:
        client.send_setup()
    ids = [SESSION.search(client.answers(1)[0])[1].decode() for client in clients]
    counts = [client.send_rest(id, ends) for client, id in zip(clients, ids)]
    for client, count in zip(clients, counts):
        client.answers(count)
    return [Lived(id, 2 * PLAYS) for id in ids]


def keep_living(port: int, uri: str, told: Channel) -> None:
    """The clients of a process, until it is told to end. The last sessions are left alive."""
    lived: List[Lived] = []
    fault = ""
    try:
        clients = [Client(port, uri) for _ in range(CLIENTS_OF_ONE)]
        while not told.poll():
            lived += live(clients, True)
        lived += live(clients, False)
    except OSError as why:
        fault = str(why)
    told.send((lived, fault))
    told.recv()


class Clients:
    """All of them, in some processes."""

    def __init__(self, server: Server) -> None:
        self.running = []
        for _ in range(PROCESSES):
            here, there = multiprocessing.Pipe()
            process = multiprocessing.Process(target=keep_living, args=(server.port, server.uri, there), daemon=True)
            process.start()
            self.running.append((process, here))

    def end(self) -> Tuple[List[Lived], List[str]]:
        """Who lived, and what went wrong."""
        for _, here in self.running:
            here.send(None)
        told = [here.recv() for _, here in self.running]
        return [it for lived, _ in told for it in lived], [fault for _, fault in told if fault]

    def close(self) -> None:
        for process, _ in self.running:
            process.kill()
            process.join()


def strands_of(checks: Checks, paths: List[pathlib.Path]) -> Dict[str, List[str]]:
    """The kinds of the entries of each session, by its id, over files that go on from each other."""
    chain, kinds, ids = Chain(), collections.defaultdict(list), {}
    for number, path in enumerate(paths):
        told, link = chain.take(path)
        known = link.known if number else 0
        checks.that(f"{path.name} goes on", number == 0 or link.kind == GOES_ON, link.kind)
        checks.same(f"{path.name}: what is wrong", ("", 0), (told.fault, told.rest))
        for line in path.read_text().splitlines()[known:]:
            _, kind, session, *fields = line.split(" ")
            if kind == "open":
                ids[session] = fields[0]
            kinds[session].append(kind)
    return {ids.get(session, f"session {session}, which wasn't opened"): it for session, it in kinds.items()}


def are_whole(checks: Checks, strands: Dict[str, List[str]], lived: List[Lived]) -> None:
    """That of each session that lived there is all that it did, and of no other one anything."""
    wanted = {it.id: it.moves for it in lived}
    checks.same("the sessions that are told of", (0, 0), (len(wanted.keys() - strands), len(strands.keys() - wanted)))
    odd = []
    for id, kinds in strands.items():
        found = STRAND.fullmatch(" ".join(it for it in kinds if it != "touch"))
        moves = found[1].count("move") if found else -1
        # At its end it is brought back to its first state.
        if moves not in (wanted.get(id), wanted.get(id, 0) + 1):
            odd.append((id, kinds))
    checks.that(f"each of {len(strands)} sessions is told of from its beginning to its end", not odd, odd[:3])


def fifty(checks: Checks, most: int) -> None:
    settings = {"pairs": 2 * CLIENTS, "sessions": 2 * CLIENTS, "uplink": 10_000_000}
    with chronicled(checks, holds_signals=True, **settings) as server:
        began, clients = time.monotonic(), Clients(server)
        try:
            while len(files(server)) <= most and time.monotonic() < began + PATIENCE:
                time.sleep(0.1)
            lived, faults = clients.end()
            checks.same("what went wrong", [], faults)
            server.process.send_signal(signal.SIGTERM)
            checks.same("the status", 0, server.ends(8))
        finally:
            clients.close()
        paths = files(server)
        checks.that(f"there are {FILES} files", len(paths) >= FILES, [it.name for it in paths])
        print(f"{len(lived)} sessions in {len(paths)} files of {sum(it.stat().st_size for it in paths):,} bytes")
        nothing = server.path / "nothing"
        nothing.touch()
        opening = audited(server, nothing)
        checks.same("the book of the last file is the opening one", opening, audited(server, paths[-1]))
        are_whole(checks, strands_of(checks, paths), lived)
        checked(checks, server, "after a clean end")


@serving_test(limit=300, is_long=True)
def fifty_clients(checks: Checks) -> None:
    """Fifty clients until a file more than three is begun, then a clean end."""
    fifty(checks, FILES)


@serving_test(limit=900, is_by_name=True)
def fifty_clients_for_long(checks: Checks) -> None:
    """The same for twenty files."""
    fifty(checks, 20)
