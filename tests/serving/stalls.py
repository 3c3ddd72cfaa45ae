"""Players over TCP that stop reading for a while, and messages that are begun and not ended: what waits, what is lost, and
how much memory that takes."""
import concurrent.futures
import contextlib
import resource
import select
import socket
import time
from typing import List, Optional

from checks import Checks
from rtsp_client.messages import Message, Reader, written
from rtsp_client.player import Player, Way

from .crowds import OTHER_DESCRIPTORS
from .operator import figures, shown_at
from .runner import serving_test
from .server import Presentation, Server, Track

# 2.6 Mbit/s in packets of seven packets of a transport stream, for 16 s.
FILM = Presentation("film", units=4000, unit_ms=4, tracks=(Track("a", octets=1316, ticks=32),))
# What a player's own system keeps of it, which hides a part of a stall.
RECEIVE_BUFFER = 1 << 14
MEBIBYTE = 1 << 20


def played(server: Server) -> Player:
    """A player over its connection that has just begun to play all tracks."""
    player = server.player(Way.TCP, receive_buffer=RECEIVE_BUFFER)
    for track in player.describe():
        player.set_up(track)
    player.play(0.0)
    return player


def is_whole(player: Player, presentation: Presentation) -> bool:
    """Whether each packet that came is a unit of the file, in its place."""
    return all(
        packet.payload == track.unit(place)
        for stream, track in zip(player.streams, presentation.tracks)
        for place, packet in zip(stream.reception.places, stream.reception.packets)
    )


@serving_test(limit=40, is_timed=True)
def a_second_of_a_film_unread(checks: Checks) -> None:
    """A reader of 2.6 Mbit/s over TCP that stalls for a second, three times, loses no frame."""
    with Server(checks, FILM, uplink=10**9) as server:
        player = played(server)
        for _ in range(3):
            player.connection.wait(1.5)
            time.sleep(1.0)
        player.connection.wait(1.5)
        came = player.streams[0].reception
        checks.that("it has played all the while", len(came.packets) > 1900, len(came.packets))
        checks.same("packets that are missing, and repeats", (0, 0), (len(came.missing), came.repeats))
        checks.that("each packet is as the file has it", is_whole(player, FILM))
        player.tear_down()


@serving_test(limit=60, is_timed=True)
def four_seconds_of_a_film_unread(checks: Checks) -> None:
    """What is beyond two seconds is dropped in whole frames, and counted as lost; what was kept comes."""
    port, address = shown_at()
    with Server(checks, FILM, uplink=10**9, status=address) as server:
        player = played(server)
        player.connection.wait(1.5)
        checks.same("lost before the stall", 0, figures(port)["rtspd_packets_lost_total"])
        time.sleep(4.0)
        checks.that("it ends", player.listen(20.0))
        came, counted = player.streams[0].reception, figures(port)
        missing = len(came.missing)
        checks.same("one run of packets is missing", 1, came.gaps)
        # Two of four seconds wait, and what the systems of both sides keep besides.
        checks.that("it is less than two seconds' packets", 100 <= missing <= 520, missing)
        checks.same("they are counted", missing, counted["rtspd_packets_lost_total"])
        checks.same("sent and lost are all", FILM.units, counted["rtspd_packets_sent_total"] + missing)
        checks.that("each packet is as the file has it", is_whole(player, FILM))
        player.tear_down()


# 45 Mbit/s, of which two seconds are more than may wait.
RAPIDS = Presentation(
    "rapids", units=6_000, unit_ms=1, tracks=tuple(Track(name, octets=1400, ticks=8) for name in "abcd")
)
STALLED = 8


@serving_test(limit=40, is_timed=True)
def four_mebibytes_of_a_torrent(checks: Checks) -> None:
    """However fast a stream is, no more than 4 MiB of it wait, which its buffer may hold twice; whoever comes later has the
    memory of those that have gone."""
    with Server(checks, RAPIDS, uplink=10**10) as server:
        server.answers("before")
        before = server.resident_bytes()
        for which in "first", "later":
            players = [played(server) for _ in range(STALLED)]
            time.sleep(4.0)
            each = (server.resident_bytes() - before) / STALLED / MEBIBYTE
            checks.that(f"a stalled player of the {which} ones takes 3 to 12 MiB", 3 <= each <= 12, each)
            for player in players:
                player.close()
            time.sleep(0.5)
        server.answers("then a new connection is answered")


HALF_BODIES = 5000
LENGTH, SMALL = 65_535, 4000
# Half messages are closed after 30 s, so they are sent side by side.
SENDERS = 16
# What a body of parameters is answered that the server doesn't know.
NOT_UNDERSTOOD = 451


def half_of_a_body(server: Server, length: int) -> socket.socket:
    """A connection on which a request was sent up to the last byte of its body; it may be closed meanwhile."""
    talk = server.socket()
    head = written(f"SET_PARAMETER {server.uri} RTSP/2.0", [("CSeq", "1"), ("Content-Length", str(length))])
    talk.settimeout(5)
    with contextlib.suppress(OSError):
        talk.sendall(head + b"a" * (length - 1))
    return talk


def ended_with(talk: socket.socket) -> Optional[int]:
    """The status of the answer to a request whose last byte was missing."""
    talk.settimeout(5)
    talk.sendall(b"a")
    answers = [it for it in Reader().take(talk.recv(4096)) if isinstance(it, Message)]
    return answers[0].status if answers else None


def closed_among(talks: List[socket.socket]) -> int:
    """How many of them the server has closed, of connections on which no answer comes."""
    poll = select.poll()
    for talk in talks:
        poll.register(talk, select.POLLIN)
    return len(poll.poll(0))


def closed_at_last(talks: List[socket.socket], within: float) -> int:
    """The same, once no more have been closed for a second."""
    until, before = time.monotonic() + within, -1
    while (closed := closed_among(talks)) != before and time.monotonic() < until:
        before = closed
        time.sleep(1.0)
    return closed


@serving_test(limit=100, is_timed=True)
def five_thousand_half_bodies(checks: Checks) -> None:
    """Half bodies take 64 MiB in all connections; who wants more is closed and counted. Small ones aren't bounded so, and
    once the others are gone there is room again."""
    _, hard = resource.getrlimit(resource.RLIMIT_NOFILE)
    count = min(HALF_BODIES, hard - OTHER_DESCRIPTORS)
    port, address = shown_at()
    with Server(checks, status=address) as server:
        server.answers("before")
        before = server.resident_bytes()
        with concurrent.futures.ThreadPoolExecutor(SENDERS) as pool:
            talks = list(pool.map(lambda _: half_of_a_body(server, LENGTH), range(count)))
        small = [half_of_a_body(server, SMALL) for _ in range(100)]
        server.answers("a new connection is answered beside them")
        closed = closed_at_last(talks, 20.0)
        grown = (server.resident_bytes() - before) / MEBIBYTE
        checks.that("the server's memory grew by less than 160 MiB", grown < 160, grown)
        held = (count - closed) * LENGTH / MEBIBYTE
        checks.that("what is held is less than 64 MiB, and more than a third of it", 21 < held <= 64, held)
        checks.same("the others are counted", closed, figures(port)["rtspd_connections_refused_total"])
        checks.same("of those that hold 4,000 bytes none is closed", 0, closed_among(small))
        checks.same("each of them is answered", [NOT_UNDERSTOOD] * len(small), [ended_with(talk) for talk in small])
        for talk in talks:
            talk.close()
        time.sleep(1.0)
        again = half_of_a_body(server, LENGTH)
        checks.same("then a great body is answered", NOT_UNDERSTOOD, ended_with(again))
        for talk in [again, *small]:
            talk.close()
