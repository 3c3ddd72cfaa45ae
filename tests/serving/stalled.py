"""Players that don't read: what becomes of them, and that nobody else notices."""
import contextlib
import multiprocessing
import select
import socket
import threading
import time
from multiprocessing.sharedctypes import Synchronized
from typing import Iterator, List

from checks import Checks
from rtsp_client.connection import Refused
from rtsp_client.messages import Frame, Message, Reader, written
from rtsp_client.player import Player, Way

from .runner import serving_test
from .server import HERE, Presentation, Server, Track, is_alive
from .witness import Punctuality, Witness

# When a player that reads nothing has to be gone, in seconds after its PLAY.
GONE_AFTER, GONE_BEFORE = 10.0, 13.0
TONE_OF_A_MINUTE = Presentation(units=3000)
# 1,400,000 bytes a second.
LOUD = Presentation("loud", units=20_000, unit_ms=1, tracks=(Track("a", octets=1400, ticks=8),))
MEGABYTES = 1 << 20


def played(server: Server, receive_buffer: int) -> Player:
    """A player over its connection that has just begun to play."""
    player = server.player(Way.TCP, receive_buffer=receive_buffer)
    for track in player.describe():
        player.set_up(track)
    player.play(0.0)
    return player


def ended_at(server: Server, stalled: Player, before: int, began: float) -> float:
    """After how many seconds the descriptor of the stalled connection was gone."""
    while server.descriptors() >= before and time.monotonic() < began + GONE_BEFORE + 3:
        time.sleep(0.05)
    return time.monotonic() - began


@serving_test(limit=45, is_alone=True)
def a_player_that_never_reads(checks: Checks) -> None:
    """It is gone after ten seconds, and its session; beside it another one hears every packet on time."""
    with Witness() as witness, Server(checks, TONE_OF_A_MINUTE) as server:
        reader = played(server, 1 << 18)
        stalled = played(server, 4096)
        began = time.monotonic()
        before = server.descriptors()
        listening = threading.Thread(target=lambda: reader.listen(GONE_BEFORE + 2))
        listening.start()
        seconds = ended_at(server, stalled, before, began)
        is_right = GONE_AFTER <= seconds <= GONE_BEFORE
        checks.that("the player that never reads is gone after 10 to 13 s", is_right, seconds)
        time.sleep(0.5)
        talk = server.connect()
        checks.same("its session has ended", False, is_alive(talk, server.uri, stalled.session or ""))
        talk.close()
        listening.join()
        punctuality = Punctuality(checks, witness.stalls())
        for stream in reader.streams:
            came = stream.reception
            checks.that("the other one has played all the while", len(came.packets) >= 50 * (GONE_BEFORE + 1))
            checks.same("the other one: gaps and repeats", (0, 0), (came.gaps, came.repeats))
            punctuality.judge("the other one", came, came.packets)
        reader.tear_down()
        stalled.close()


# A player that reads so many bytes a second, for so many seconds; then more is to come.
SLOWLY, SLOW_FOR = 2000, 60.0
TONE_OF_TWO_MINUTES = Presentation(units=6000)
LOOKS = 10


def read_slowly(player: Player, seconds: float) -> bytes:
    """What is read of a connection in so many seconds, a few bytes at a time; less where it was closed."""
    player.connection.socket.setblocking(False)
    began, came = time.monotonic(), bytearray()
    for look in range(int(seconds * LOOKS)):
        time.sleep(max(began + look / LOOKS - time.monotonic(), 0))
        try:
            piece = player.connection.socket.recv(SLOWLY // LOOKS)
        except BlockingIOError:
            continue
        except OSError:
            break
        if not piece:
            break
        came += piece
    return bytes(came)


def read_until_answered(player: Player, seconds: float) -> bytes:
    """What comes on a connection up to the answer to its last request, within so many seconds, and for a second more: all
    that waited was read by then, so frames come again."""
    until, came = time.monotonic() + seconds, bytearray()
    answer = f"RTSP/2.0 200 OK\r\nCSeq: {player.connection.cseq}\r\n".encode()
    player.connection.socket.settimeout(seconds)
    is_answered = False
    while time.monotonic() < until:
        with contextlib.suppress(OSError):
            came += player.connection.socket.recv(MEGABYTES)
        if not is_answered and answer in came:
            is_answered, until = True, time.monotonic() + 1.0
            player.connection.socket.settimeout(0.2)
    return bytes(came)


@serving_test(limit=110, is_alone=True, is_long=True)
def a_player_that_reads_slowly(checks: Checks) -> None:
    """It is served as long as it takes what it can, and loses whole frames; beside it another one is on time."""
    with Witness() as witness, Server(checks, TONE_OF_TWO_MINUTES, timeout=120) as server:
        reader = played(server, 1 << 18)
        slow = played(server, 4096)
        listening = threading.Thread(target=lambda: reader.listen(50.0))
        listening.start()
        began = time.monotonic()
        text = read_slowly(slow, SLOW_FOR)
        seconds = time.monotonic() - began
        checks.that(f"it is served for {SLOW_FOR:.0f} s", seconds >= SLOW_FOR - 1, seconds)
        least = SLOWLY * SLOW_FOR * 0.8
        checks.that("it was sent what it could take", len(text) >= least, (len(text), least))
        slow.connection.send("GET_PARAMETER", server.uri, [("Session", slow.session or "")])
        items = slow.connection.reader.take(text + read_until_answered(slow, 15.0))
        answers = [it.status for it in items if isinstance(it, Message) and it.status is not None]
        checks.same("its request is answered", [200], answers)
        for stream, track in zip(slow.streams, TONE_OF_TWO_MINUTES.tracks):
            came = stream.reception
            for it in items:
                if isinstance(it, Frame) and it.channel == stream.channel:
                    came.take(it.payload, began)
            due = int(SLOW_FOR * 1000 / TONE_OF_TWO_MINUTES.unit_ms)
            checks.that("frames of it were dropped", len(came.packets) < 0.8 * due, (len(came.packets), due))
            checks.same("no frame came twice, or is somebody else's", (0, 0), (came.repeats, came.strangers))
            whole = all(packet.payload == track.unit(place) for place, packet in zip(came.places, came.packets))
            checks.that("each frame is whole, and as the file has it", whole)
        listening.join()
        punctuality = Punctuality(checks, witness.stalls())
        for stream in reader.streams:
            came = stream.reception
            checks.same("the other one: gaps and repeats", (0, 0), (came.gaps, came.repeats))
            punctuality.judge("the other one", came, came.packets)
        reader.tear_down()
        slow.close()


@serving_test(limit=30, is_timed=True)
def a_player_that_pauses_its_reading(checks: Checks) -> None:
    """What it missed are whole frames; each of its requests is answered."""
    asked = 30
    with Server(checks, LOUD) as server:
        player = played(server, 1 << 16)
        for _ in range(asked):
            time.sleep(0.1)
            player.connection.send("OPTIONS", "*")
        connection = player.connection
        first = connection.cseq - asked + 1
        came = player.streams[0].reception
        # The gap is seen by the frame after it, which may come later than the last answer.
        connection.wait(5.0, lambda: len(connection.answers) >= asked and len(came.missing) > 0)
        cseqs = [answer.cseq for answer in connection.answers]
        checks.same("the answers", list(range(first, first + asked)), cseqs)
        checks.that("frames were dropped", len(came.missing) > 0)
        checks.same("no frame came twice", 0, came.repeats)
        track = LOUD.tracks[0]
        whole = all(packet.payload == track.unit(place) for place, packet in zip(came.places, came.packets))
        checks.that("each frame is whole, and as the file has it", whole)
        checks.same("datagrams that aren't its own", 0, came.strangers)
        player.close()


def send_all(talk: socket.socket, data: bytes) -> None:
    try:
        talk.sendall(data)
    except OSError:
        # What is answered is counted by whoever reads.
        pass


def asked_without_reading(talk: socket.socket, seconds: float) -> int:
    """Asks as much as the server takes, and tells how many requests are under way."""
    request = written("OPTIONS * RTSP/2.0", [("CSeq", "1")])
    talk.setblocking(False)
    until, sent = time.monotonic() + seconds, 0
    block = request * 100
    while time.monotonic() < until:
        try:
            sent += talk.send(block[sent % len(request) :])
        except BlockingIOError:
            time.sleep(0.001)
    talk.setblocking(True)
    # The request that is cut is sent to its end while answers are read.
    rest = request[sent % len(request) :] if sent % len(request) else b""
    threading.Thread(target=send_all, args=(talk, rest), daemon=True).start()
    return (sent + len(rest)) // len(request)


def answers_to(talk: socket.socket, count: int) -> int:
    """How many answers of 200 come, of so many."""
    talk.settimeout(5)
    reader, came = Reader(), 0
    while came < count:
        try:
            piece = talk.recv(1 << 20)
        except (TimeoutError, ConnectionError):
            break
        if not piece:
            break
        came += sum(isinstance(item, Message) and item.status == 200 for item in reader.take(piece))
    return came


@serving_test(limit=45, is_timed=True)
def one_that_asks_and_doesnt_read(checks: Checks) -> None:
    """The server stops reading what it can't answer: its memory stays small, and later each request is answered."""
    with Server(checks) as server:
        server.answers("before")
        before = server.resident_bytes()
        talk = server.socket()
        count = asked_without_reading(talk, 2.0)
        grown = server.resident_bytes() - before
        checks.that("it asked much", count > 1000, count)
        checks.that("the server's memory grew by less than 4 MB", grown < 4 * MEGABYTES, grown)
        server.answers("meanwhile it answers others")
        checks.same("the answers", count, answers_to(talk, count))
        talk.close()


FLOODS = 8
# The server reads at most so many bytes of a connection in one visit (crates/rtsp_server/src/limits.rt).
IN_ONE_VISIT = 16 * 4096
# A new connection waits for the rest of a turn, is accepted in the next and answered in the one after: three turns. It
# may lose some more where the machine has other work.
TURNS_AT_MOST = 6
NEW_ONES, FLOODED_FOR = 40, 8.0
# Small segments: with the loopback's of 64 KiB the system lets a buffer run empty before it asks for more.
SEGMENT = 1400
REQUEST = written("OPTIONS * RTSP/2.0", [("CSeq", "1")])


def flood(port: int, came: Synchronized) -> None:
    """Asks without end, so that requests always wait to be read, and counts the bytes of the answers."""
    talk = socket.socket()
    talk.setsockopt(socket.IPPROTO_TCP, socket.TCP_MAXSEG, SEGMENT)
    # What waits here goes on by itself while this process doesn't run.
    talk.setsockopt(socket.SOL_SOCKET, socket.SO_SNDBUF, 4 * MEGABYTES)
    talk.setsockopt(socket.SOL_SOCKET, socket.SO_RCVBUF, 4 * MEGABYTES)
    talk.connect((HERE, port))
    talk.setblocking(False)
    block, piece, at = memoryview(REQUEST * 10_000), bytearray(MEGABYTES), 0
    poll = select.poll()
    poll.register(talk, select.POLLIN | select.POLLOUT)
    while True:
        for _, events in poll.poll():
            if events & select.POLLIN:
                came.value += talk.recv_into(piece)
            if events & select.POLLOUT:
                at = (at + talk.send(block[at:])) % len(block)


@contextlib.contextmanager
def flooded(server: Server) -> Iterator[List[Synchronized]]:
    """Connections that flood, each in a process of its own: of each how many bytes of answers have come."""
    counts = [multiprocessing.Value("Q", 0, lock=False) for _ in range(FLOODS)]
    floods = [multiprocessing.Process(target=flood, args=(server.port, it), daemon=True) for it in counts]
    for process in floods:
        process.start()
    try:
        time.sleep(0.5)
        yield counts
        server.checks.same("how many still flood", FLOODS, sum(process.is_alive() for process in floods))
    finally:
        for process in floods:
            process.kill()
            process.join()


def octets_of_an_answer(server: Server) -> int:
    talk = server.socket()
    talk.sendall(REQUEST)
    octets = len(talk.recv(4096))
    talk.close()
    return octets


@serving_test(limit=40, is_alone=True)
def one_that_floods(checks: Checks) -> None:
    """Eight connections of one lane ask without end and read: a new one is answered after a few visits to each.

    It is told by how much of the flood is answered meanwhile, which neither a slow server nor a busy machine changes.
    """
    with Server(checks, workers=1) as server:
        in_one_turn = FLOODS * IN_ONE_VISIT // len(REQUEST) * octets_of_an_answer(server)
        with flooded(server) as counts:
            before, until = sum(it.value for it in counts), time.monotonic() + FLOODED_FOR
            answered = 0
            while answered < NEW_ONES and time.monotonic() < until:
                try:
                    server.answers("a new connection")
                except Refused as why:
                    checks.that("a new connection is answered", False, why)
                    break
                answered += 1
            flooded_by = sum(it.value for it in counts) - before
        checks.that("they flood", flooded_by > in_one_turn, flooded_by)
        turns = flooded_by / in_one_turn / max(answered, 1)
        checks.that(f"turns of a lane for a new connection, at most {TURNS_AT_MOST}", turns <= TURNS_AT_MOST, turns)


@serving_test(limit=20)
def a_reset_in_the_middle_of_an_answer(checks: Checks) -> None:
    """Connections that are reset while they are answered, or play: nothing of them is left."""
    with Server(checks) as server:
        before = server.descriptors_at_rest()
        block = written("OPTIONS * RTSP/2.0", [("CSeq", "1")]) * 2000
        for number in range(40):
            talk = server.socket()
            talk.sendall(block)
            talk.recv(10 + number)
            talk.setsockopt(socket.SOL_SOCKET, socket.SO_LINGER, b"\1\0\0\0\0\0\0\0")
            talk.close()
        sessions = []
        for _ in range(8):
            player = played(server, 1 << 16)
            sessions.append(player.session or "")
            player.connection.socket.setsockopt(socket.SOL_SOCKET, socket.SO_LINGER, b"\1\0\0\0\0\0\0\0")
            player.close()
        checks.same("the descriptors afterwards", before, server.descriptors_fall_to(before, 5.0))
        talk = server.connect()
        checks.same("sessions that live", [], [it for it in sessions if is_alive(talk, server.uri, it)])
        talk.close()
        player = played(server, 1 << 16)
        checks.that("a new player plays", len(player.streams) == 2)
        try:
            player.tear_down()
        except Refused as why:
            checks.that("a new player tears down", False, why)


@serving_test(limit=20)
def one_that_half_closes(checks: Checks) -> None:
    """After 1,000 requests it says that it sends no more: each is answered, also where it plays."""
    with Server(checks) as server:
        for plays in False, True:
            where = "while it plays" if plays else "with requests alone"
            player = played(server, 1 << 16) if plays else None
            talk = player.connection.socket if player else server.socket()
            requests = (written("OPTIONS * RTSP/2.0", [("CSeq", str(number))]) for number in range(5001, 6001))
            talk.sendall(b"".join(requests))
            talk.shutdown(socket.SHUT_WR)
            talk.settimeout(5)
            reader = player.connection.reader if player else Reader()
            came: List[int] = []
            while True:
                piece = talk.recv(1 << 16)
                items = [it for it in reader.take(piece) if isinstance(it, Message)]
                came += [it.cseq for it in items if it.status == 200 and (it.cseq or 0) > 5000]
                if not piece:
                    break
            checks.same(f"{where}: the answers", list(range(5001, 6001)), came)
            checks.same(f"{where}: what is left at the end", b"", bytes(reader.held))
            talk.close()
            if player:
                other = server.connect()
                checks.same("its session has ended", False, is_alive(other, server.uri, player.session or ""))
                other.close()
