"""What is sent: each packet once and as the file has it, over UDP and over the connection."""
import array
import os
import pathlib
import re
import signal
import socket
import subprocess
import sys
import threading
import time
import wave
from typing import Callable, Dict, List, NamedTuple, Optional

from checks import EXAMPLES, Checks
from rtsp_client.connection import Connection
from rtsp_client.player import Player, Stream, Way
from rtsp_client.rtp import Reception
from rtsp_client.sound import SAMPLES

from .relay import Relay
from .runner import serving_test
from .server import HERE, TONE, Presentation, Server, Track, is_alive, is_free, lease, leases
from .witness import Punctuality, Witness

# A window in which packets are counted, in seconds, and how many of a stream may come in it: at twice its pace it is 10.
WINDOW, MOST_IN_IT = 0.1, 20
# A packet that is before the point of a PAUSE may come after its answer, in seconds.
UNDER_WAY = 0.1


def most_at_once(came: Reception, since: float) -> int:
    """The most packets that came within a window, from a second on."""
    times = [it.at for it in came.packets if it.at >= since]
    return max((sum(begin <= at < begin + WINDOW for at in times) for begin in times), default=0)


def set_up_all(player: Player) -> List[Stream]:
    return [player.set_up(track) for track in player.describe()]


def runs(places: List[int]) -> str:
    """Numbers as they came, those side by side as one run."""
    parts: List[List[int]] = []
    for place in places:
        if parts and parts[-1][1] + 1 == place:
            parts[-1][1] = place
        else:
            parts.append([place, place])
    return ", ".join(f"{first}" if first == last else f"{first} to {last}" for first, last in parts)


def numbers_fit(checks: Checks, where: str, stream: Stream, track: Track, units: int) -> None:
    """That each packet came once, in order, with the number, the timestamp, the type and the octets of its unit."""
    came = stream.reception
    checks.same(f"{where}: the units", runs(list(range(units))), runs(came.places))
    checks.same(f"{where}: datagrams of somebody else", 0, came.strangers)
    for place, packet in zip(came.places, came.packets):
        fits = came.tick_of(packet) == place * track.ticks and packet.payload_type == track.pt
        fits = fits and packet.payload == track.unit(place)
        if not checks.that(f"{where}: unit {place} is as the file has it", fits):
            break


def notice_fits(checks: Checks, where: str, player: Player, cseq: int) -> None:
    """That the server told of the end of the play, on the connection that asked for it."""
    notice = player.notice
    if not checks.that(f"{where}: PLAY_NOTIFY came", notice is not None):
        return
    parts = []
    for stream, track in zip(player.streams, TONE.tracks):
        came = stream.reception
        sequence = (came.first_sequence + TONE.units) % 2**16
        timestamp = (came.first_timestamp + TONE.units * track.ticks) % 2**32
        parts.append(f'url="{stream.track.uri}" ssrc={came.ssrc:08x}:seq={sequence};rtptime={timestamp}')
    wanted = [("CSeq", "1"), ("Session", player.session or ""), ("Notify-Reason", "end-of-stream")]
    wanted += [("Request-Status", f'cseq={cseq} status=200 reason="OK"'), ("Range", "npt=-10.000")]
    wanted += [("RTP-Info", ",".join(parts))]
    checks.same(f"{where}: PLAY_NOTIFY", f"PLAY_NOTIFY {player.uri} RTSP/2.0", notice.first_line)
    checks.same(f"{where}: its headers", wanted, notice.headers)


class Played(NamedTuple):
    """What came of a track over its two plays, and how many packets of it came in the first."""

    where: str
    came: Reception
    first: int


def play_with_a_pause(checks: Checks, server: Server, way: Way) -> List[Played]:
    """Ten seconds of tone with a pause in them."""
    where = way.value
    player = server.player(way)
    streams = set_up_all(player)
    player.play(0.0)
    player.listen(8.0, lambda: all(len(stream.reception.packets) >= 200 for stream in streams))
    # In the middle of a unit: of one that is due and hasn't left yet the packet comes after the answer.
    player.connection.wait(TONE.unit_ms / 2000)
    paused = player.pause()
    player.connection.wait(UNDER_WAY)
    sent = [len(stream.reception.packets) for stream in streams]
    player.connection.wait(0.6)
    checks.same(f"{where}: nothing is sent after PAUSE", sent, [len(it.reception.packets) for it in streams])
    point = TONE.unit_ms * sent[0] / 1000
    checks.same(f"{where}: the Range of PAUSE", f"npt={point:.3f}-10.000", paused.header("Range"))
    firsts = [(it.reception.first_sequence, it.reception.first_timestamp) for it in streams]
    again = player.play()
    checks.same(f"{where}: the Range of the second PLAY", paused.header("Range"), again.header("Range"))
    told = re.findall(r"seq=(\d+);rtptime=(\d+)", again.header("RTP-Info") or "")
    wanted = [((seq + sent[0]) % 2**16, (rtptime + 160 * sent[0]) % 2**32) for seq, rtptime in firsts]
    checks.same(f"{where}: RTP-Info goes on", wanted, [(int(seq), int(rtptime)) for seq, rtptime in told])
    cseq = player.connection.cseq
    checks.that(f"{where}: the play ends", player.listen(12.0))
    for stream, track in zip(streams, TONE.tracks):
        numbers_fit(checks, f"{where}, {track.name}", stream, track, TONE.units)
    notice_fits(checks, where, player, cseq)
    player.tear_down()
    return [Played(f"{where}, {it.track.uri}", it.reception, count) for it, count in zip(streams, sent)]


def side_by_side(checks: Checks, *parts: Callable[[], None]) -> None:
    """Runs the parts of a test at once; one that stops is a difference."""

    def kept(part: Callable[[], None]) -> None:
        try:
            part()
        except Exception as why:
            checks.that("a part of the test goes to its end", False, f"{type(why).__name__}: {why}")

    threads = [threading.Thread(target=kept, args=(part,)) for part in parts]
    for thread in threads:
        thread.start()
    for thread in threads:
        thread.join()


@serving_test(limit=40, is_alone=True)
def players_at_once(checks: Checks) -> None:
    """One over UDP, one over one port and one over its connection, each with ten seconds of tone and a pause in them."""
    with Witness() as witness, Server(checks) as server:
        played: List[Played] = []
        ways = (Way.UDP, Way.ONE_PORT, Way.TCP)
        tasks = [lambda way=way: played.extend(play_with_a_pause(checks, server, way)) for way in ways]
        side_by_side(checks, *tasks)
        punctuality = Punctuality(checks, witness.stalls())
        for where, came, first in played:
            punctuality.judge(f"{where}, before the pause", came, came.packets[:first])
            punctuality.judge(f"{where}, after it", came, came.packets[first:])


def samples_of(path: os.PathLike) -> List[List[int]]:
    """The channels of a .wav."""
    with wave.open(os.fspath(path), "rb") as wav:
        samples = array.array("h", wav.readframes(wav.getnframes()))
        if sys.byteorder == "big":
            samples.byteswap()
        return [list(samples[number :: wav.getnchannels()]) for number in range(wav.getnchannels())]


@serving_test(limit=40, is_timed=True)
def the_player_of_the_examples(checks: Checks) -> None:
    """examples/play: the samples that it writes are the file's; a refusal is one line; ^C tears down."""
    # The bandwidth of the four players, which is that of a track for each pair.
    with Server(checks, uplink=4 * TONE.whole_rate) as server:

        def heard(*words: str) -> None:
            out = server.path / f"heard{''.join(words)}.wav"
            command = [EXAMPLES / "play", server.uri, "--from", "8.5", "--out", out, *words]
            done = subprocess.run(command, capture_output=True, text=True, timeout=20)
            where = f"play {' '.join(words)}"
            checks.same(f"{where}: status and standard error", (0, ""), (done.returncode, done.stderr))
            for name in "a", "b":
                counted = rf"(?m)^track {name}: PCM[UA], 75 packets, 0 gaps, 0 repeats; late by .* ms"
                checks.that(f"{where}: what it counts", re.search(counted, done.stdout) is not None, done.stdout)
            wanted = []
            for track in TONE.tracks:
                octets = b"".join(map(track.unit, range(425, 500)))
                wanted.append([SAMPLES[track.encoding][octet] for octet in octets])
            checks.that(f"{where}: the samples are the file's", samples_of(out) == wanted)

        side_by_side(checks, heard, lambda: heard("--mux"), lambda: heard("--tcp"), lambda: stopped(checks, server))
        talk = server.connect()
        checks.same("pairs and bandwidth that are free again", 8, len(leases(talk, f"{server.uri}/a", 8)))
        talk.close()
        done = subprocess.run([EXAMPLES / "play", f"{server.uri}x"], capture_output=True, text=True, timeout=20)
        came = done.returncode, done.stderr
        checks.same("play of what isn't there", (1, "play: DESCRIBE was answered 404 Not Found\n"), came)
        for words in (), ("x",), (server.uri, "--from", "x"), (server.uri, "--none"), (server.uri, server.uri), (
            server.uri,
            "--mux",
            "--tcp",
        ):
            done = subprocess.run([EXAMPLES / "play", *words], capture_output=True, text=True, timeout=20)
            came = done.returncode, done.stdout, done.stderr.count("\n")
            checks.same(f"play {' '.join(words)}: status 2 and one line", (2, "", 1), came)


def stopped(checks: Checks, server: Server) -> None:
    """A player that is stopped by ^C pauses, tears its session down, and has counted."""
    pipes = {"stdout": subprocess.PIPE, "stderr": subprocess.PIPE, "text": True}
    with Relay(server.port) as relay:
        uri = server.uri.replace(f":{server.port}/", f":{relay.port}/")
        with subprocess.Popen([EXAMPLES / "play", uri], **pipes) as running:
            first = running.stdout.readline()
            checks.same("play: its first line", "playing 0.000 to 10.000 s over UDP; ^C ends it\n", first)
            time.sleep(0.5)
            running.send_signal(signal.SIGINT)
            said, complaint = running.communicate(timeout=10)
        checks.same("play, after ^C", (0, ""), (running.returncode, complaint))
        checks.same("play, after ^C: it has counted", 2, len(re.findall(r"(?m)^track [ab]: .* 0 repeats", said)))
        checks.same("play, after ^C: its last requests", ["PLAY", "PAUSE", "TEARDOWN"], relay.methods()[-3:])


ONE_PORT = ("Transport", 'RTP/AVP;unicast;dest_addr=":9";RTCP-mux')


def granted_port(talk: Connection, uri: str) -> Optional[int]:
    """Sets up a track with RTP and RTCP on one port; the server's port, or None where it is refused."""
    answer = talk.ask("SETUP", uri, [ONE_PORT])
    port = re.search(r'src_addr=":(\d+)";RTCP-mux', answer.header("Transport") or "")
    return int(port[1]) if port else None


@serving_test(limit=20, is_timed=True)
def one_port_for_both(checks: Checks) -> None:
    """With RTP and RTCP on one port the server binds one, and sends from it; the next one is another session's."""
    with Server(checks, pairs=2) as server:
        player = server.player(Way.ONE_PORT)
        stream = player.set_up(player.describe()[0])
        first = server.first_port
        checks.that("the granted port", f'src_addr=":{first}";RTCP-mux;' in stream.transport, stream.transport)
        checks.same("who is bound", [False, True], [is_free(socket.SOCK_DGRAM, first + it) for it in (0, 1)])
        came_from = set()
        player.connection.datagrams[stream.ports.rtp] = lambda datagram, at: None
        player.play(0.0)
        for _ in range(20):
            stream.ports.rtp.settimeout(1)
            came_from.add(stream.ports.rtp.recvfrom(2048)[1])
        checks.same("where packets come from", {(HERE, first)}, came_from)
        talk = server.connect()
        ports = [granted_port(talk, f"{server.uri}/a") for _ in range(4)]
        checks.same("the other ports", [first + 1, first + 2, first + 3, None], ports)
        player.tear_down()
        # The pacer lets go of the socket once it has seen the end of the play.
        time.sleep(UNDER_WAY)
        checks.same("no pair is free beside a held port", None, lease(talk, f"{server.uri}/a"))
        checks.same("the port that was given back", first, granted_port(talk, f"{server.uri}/a"))
        talk.close()


OTHER_HERE = "127.0.0.2"


@serving_test(limit=20, is_timed=True)
def the_address_that_packets_leave_from(checks: Checks) -> None:
    """A server that listens on all addresses of its host sends from the one that the player connected to."""
    with Server(checks, host="0.0.0.0", pairs=2) as server:
        for way in Way.UDP, Way.ONE_PORT:
            player = Player(server.uri.replace(HERE, OTHER_HERE), way)
            stream = player.set_up(player.describe()[0])
            came_from = set()
            player.connection.datagrams[stream.ports.rtp] = lambda datagram, at: None
            player.play(0.0)
            for _ in range(20):
                stream.ports.rtp.settimeout(1)
                came_from.add(stream.ports.rtp.recvfrom(2048)[1][0])
            checks.same(f"where packets come from, over {way.value}", {OTHER_HERE}, came_from)
            player.tear_down()


# A datagram takes some 2,300 bytes of the system's memory, and one may come above the least that can be set.
KEPT_AT_MOST = 8192


def bytes_that_wait(port: int) -> Optional[int]:
    """How many bytes the system keeps of what came to a UDP port and wasn't read."""
    for line in pathlib.Path("/proc/net/udp").read_text().splitlines()[1:]:
        _, local, _, _, queues, *_ = line.split()
        if int(local.rpartition(":")[2], 16) == port:
            return int(queues.partition(":")[2], 16)
    return None


@serving_test(limit=20)
def reports_that_nobody_reads(checks: Checks) -> None:
    """What players send to the ports of media is dropped by the system, and doesn't fill its memory."""
    with Server(checks, pairs=2) as server, socket.socket(socket.AF_INET, socket.SOCK_DGRAM) as reporter:
        talk = server.connect()
        checks.that("the pair", lease(talk, f"{server.uri}/a") is not None)
        checks.same("the port", server.first_port + 2, granted_port(talk, f"{server.uri}/a"))
        for port in range(server.first_port, server.first_port + 3):
            for _ in range(300):
                reporter.sendto(bytes(1000), (HERE, port))
            waiting = bytes_that_wait(port)
            checks.that(f"port {port}", waiting is not None and waiting <= KEPT_AT_MOST, f"{waiting} bytes wait")
        talk.close()


@serving_test(limit=20)
def pairs_that_others_hold(checks: Checks) -> None:
    """A pair one port of which another process has is passed over; where all are taken, it is 503."""
    with Server(checks, pairs=3) as server:
        talk = server.connect()
        with socket.socket(socket.AF_INET, socket.SOCK_DGRAM) as first, socket.socket(
            socket.AF_INET, socket.SOCK_DGRAM
        ) as second:
            first.bind(("0.0.0.0", server.first_port))
            second.bind(("0.0.0.0", server.first_port + 5))
            granted = lease(talk, f"{server.uri}/a")
            checks.same("the pair that is free", server.first_port + 2, granted.port if granted else None)
            checks.same("no pair is left", None, lease(talk, f"{server.uri}/a"))
        ports = [granted.port if granted else None for granted in (lease(talk, f"{server.uri}/a") for _ in range(2))]
        checks.same("the others, once they are free", [server.first_port, server.first_port + 4], ports)
        talk.close()


@serving_test(limit=20)
def ports_that_others_hold(checks: Checks) -> None:
    """A port that another process has is passed over; where all are taken, it is 503."""
    with Server(checks, pairs=1) as server:
        talk = server.connect()
        with socket.socket(socket.AF_INET, socket.SOCK_DGRAM) as other:
            other.bind(("0.0.0.0", server.first_port))
            checks.same("the port that is free", server.first_port + 1, granted_port(talk, f"{server.uri}/a"))
            checks.same("no port is left", None, granted_port(talk, f"{server.uri}/a"))
        checks.same("the other, once it is free", server.first_port, granted_port(talk, f"{server.uri}/a"))
        talk.close()


@serving_test(limit=20, is_timed=True)
def a_player_that_opens_its_port_late(checks: Checks) -> None:
    """Packets to a port that nobody has are lost, at first and later; from the first that is received on none is."""
    with Server(checks) as server, socket.socket(socket.AF_INET, socket.SOCK_DGRAM) as late:
        late.bind((HERE, 0))
        port = late.getsockname()[1]
        late.close()
        talk = server.connect()
        ports = ("Transport", f'RTP/AVP;unicast;dest_addr=":{port}"/":{port + 1 if port < 65535 else port - 1}"')
        setup = talk.ask("SETUP", f"{server.uri}/a", [ports])
        session = (setup.header("Session") or "").partition(";")[0]
        played = talk.ask("PLAY", server.uri, [("Session", session)])
        checks.same("PLAY", 200, played.status)
        time.sleep(0.5)
        ssrc = re.search(r"ssrc=([0-9a-f]{8})", setup.header("Transport") or "")
        for time_open in "first", "second":
            reception = Reception(int(ssrc[1], 16), 8000)
            with socket.socket(socket.AF_INET, socket.SOCK_DGRAM) as open_at_last:
                open_at_last.bind((HERE, port))
                open_at_last.settimeout(1)
                for _ in range(50):
                    reception.take(open_at_last.recv(2048), time.monotonic())
            checks.same(f"50 packets side by side, the {time_open} time", runs(list(range(50))), runs(reception.places))
            time.sleep(0.3)
        checks.that("the session lives", is_alive(talk, server.uri, session))
        talk.close()


LONG = Presentation("long", units=200_000, tracks=(Track("a", octets=1400),))


@serving_test(limit=30, is_timed=True)
def a_file_that_is_cut_short(checks: Checks) -> None:
    """A file too large to be held in memory is cut while it plays: behind what was read ahead its packets stop, the server
    goes on."""
    server = Server(checks, LONG)
    server.may_tell = b"can't be read"
    track = LONG.tracks[0]
    first = b"".join(map(track.unit, range(500)))
    # Behind its first units the file is zeros, which take no room.
    with open(server.path / "a.raw", "wb") as file:
        file.write(first)
        file.truncate(LONG.units * track.octets)
    with server:
        player = server.player(Way.TCP)
        stream = set_up_all(player)[0]
        player.play(0.0)
        came = stream.reception.packets
        player.connection.wait(1.0)
        before = len(came)
        checks.that("it plays", before >= 40, before)
        os.truncate(server.path / "a.raw", 0)
        # What was read ahead is less than a second.
        player.connection.wait(1.1)
        stopped_at = len(came)
        player.connection.wait(0.7)
        checks.same("without its file nothing is sent", stopped_at, len(came))
        server.answers("meanwhile it answers others")
        checks.same("meanwhile it answers the player", 200, player.ask("GET_PARAMETER").status)
        (server.path / "a.raw").write_bytes(first)
        os.truncate(server.path / "a.raw", LONG.units * track.octets)
        goes_on = time.monotonic()
        player.connection.wait(1.0)
        checks.that("with its file it goes on", len(came) >= stopped_at + 20, len(came) - stopped_at)
        most = most_at_once(stream.reception, goes_on)
        checks.that(f"at most {MOST_IN_IT} packets in 100 ms", most <= MOST_IN_IT, most)
        checks.same("the units", runs(list(range(len(came)))), runs(stream.reception.places))
        whole = all(packet.payload == track.unit(place) for place, packet in zip(stream.reception.places, came))
        checks.that("the octets are the file's", whole)
        checks.same("PAUSE", 200, player.pause().status)
        player.tear_down()


def busy_threads(server: Server, seconds: float, wakes: int) -> int:
    """How many threads of the server have gone to sleep at least so often within so many seconds."""
    tasks = pathlib.Path(f"/proc/{server.process.pid}/task")

    def sleeps() -> Dict[str, int]:
        texts = {it.name: (it / "status").read_text() for it in tasks.iterdir()}
        return {name: int(re.search(r"(?m)^voluntary_ctxt_switches:\s*(\d+)", text)[1]) for name, text in texts.items()}

    before = sleeps()
    time.sleep(seconds)
    return sum(count - before.get(name, 0) >= wakes for name, count in sleeps().items())


@serving_test(limit=20, is_timed=True)
def plays_of_two_pacers(checks: Checks) -> None:
    """Sessions with even and with odd numbers play at once: each packet once; each pacer has its share."""
    with Server(checks) as server:
        players = [server.player(Way.UDP) for _ in range(4)]
        # A track more makes the number of the next session odd where this one's is even.
        for place, player in enumerate(players):
            for track in player.describe()[: 2 - place % 2]:
                player.set_up(track)
        began = [player.play(9.0) for player in players]
        checks.same("PLAY", [200] * 4, [it.status for it in began])
        pacers = max(len(os.sched_getaffinity(0)) // 2, 1)
        checks.same("threads that send", min(pacers, 2), busy_threads(server, 0.6, 20))
        for player in players:
            checks.that("the play ends", player.listen(3.0))
            for stream in player.streams:
                checks.same(f"units of {stream.track.uri}", runs(list(range(50))), runs(stream.reception.places))
            player.tear_down()
