"""Several servers behind HAProxy, with the configurations of packaging/fleet, in namespaces of the network: the balancer
has 10.77.0.1, three servers .11 to .13, a fourth .14, and players .101 to .103. Left out where there is no HAProxy, or no
leave to make namespaces."""
import contextlib
import os
import pathlib
import signal
import subprocess
import sys
import tempfile
import time
from typing import Dict, Iterator, List, NamedTuple, Optional

from checks import TOP, Checks, Failed

from . import gstreamer
from .runner import serving_test
from .server import TRIED, Presentation, configuration

BALANCER = "10.77.0.1"
# So many stand at first.
SERVERS, AT_FIRST = ["10.77.0.11", "10.77.0.12", "10.77.0.13", "10.77.0.14"], 3
PLAYERS = ["10.77.0.101", "10.77.0.102", "10.77.0.103"]
FLEET = TOP / "packaging/fleet"
SHARE, CONNECTIONS = 8, 6
TONE = Presentation(units=300)
SOON = 15.0
# The log's lines come together, so many seconds later at most.
LATE = 0.5
# How GStreamer has its packets sent.
WAYS = "tcp", "udp"
# Opens so many connections to the balancer, asks OPTIONS on each, says how many were answered, and holds them until its
# input ends.
ASKS = """
import socket, sys
held, answered = [], 0
for _ in range(int(sys.argv[1])):
    try:
        held.append(socket.create_connection(("10.77.0.1", 554), timeout=5))
        held[-1].sendall(b"OPTIONS * RTSP/2.0\\r\\nCSeq: 1\\r\\n\\r\\n")
        answered += held[-1].recv(999).startswith(b"RTSP/2.0 200")
    except OSError:
        pass
print(answered, flush=True)
sys.stdin.read()
"""
# The same of one request of a scheme under TLS, whose first half is sent alone before.
ASKS_BY_TLS = """
import socket, ssl, sys, time
trust = ssl._create_unverified_context()
talk = trust.wrap_socket(socket.create_connection(("10.77.0.1", 322), timeout=5))
request = b"DESCRIBE rtsps://10.77.0.1/tone RTSP/2.0\\r\\nCSeq: 1\\r\\n\\r\\n"
talk.sendall(request[:20]); time.sleep(0.2); talk.sendall(request[20:])
print(talk.recv(4000).decode().splitlines()[:3], flush=True)
"""


def run(*words: str, check: bool = True) -> subprocess.CompletedProcess:
    return subprocess.run(words, capture_output=True, text=True, check=check)


class Namespaces:
    """One of balancer and servers, and one of each player, joined by a bridge."""

    def __init__(self) -> None:
        self.inside = f"rtspd-fleet-{os.getpid()}"
        self.players = [f"{self.inside}-{number}" for number in range(len(PLAYERS))]

    def __enter__(self) -> "Namespaces":
        try:
            self.make()
        except subprocess.CalledProcessError:
            self.__exit__()
            raise
        return self

    def make(self) -> None:
        def inside(*words: str) -> None:
            run(*self.words(self.inside, "ip", *words))

        for name in (self.inside, *self.players):
            run("ip", "netns", "add", name)
            run(*self.words(name, "ip", "link", "set", "lo", "up"))
        inside("link", "add", "br0", "type", "bridge")
        for address in (BALANCER, *SERVERS):
            inside("addr", "add", f"{address}/24", "dev", "br0")
        inside("link", "set", "br0", "up")
        for number, (name, address) in enumerate(zip(self.players, PLAYERS)):
            run("ip", "link", "add", f"fv{number}", "netns", self.inside, "type", "veth", "peer", "name", "eth0", "netns", name)
            inside("link", "set", f"fv{number}", "master", "br0", "up")
            run(*self.words(name, "ip", "addr", "add", f"{address}/24", "dev", "eth0"))
            run(*self.words(name, "ip", "link", "set", "eth0", "up"))

    def __exit__(self, *_: object) -> None:
        for name in (self.inside, *self.players):
            run("ip", "netns", "del", name, check=False)

    def words(self, name: str, *words: str) -> List[str]:
        """What runs a command in one of them."""
        return ["ip", "netns", "exec", name, *words]

    def begin(self, name: str, *words: str, **how: object) -> subprocess.Popen:
        return subprocess.Popen(self.words(name, *words), **how)


class Played(NamedTuple):
    """How examples/play ended, and what it said."""

    status: int
    said: str

    def is_whole(self, packets: int) -> bool:
        """Whether each track had so many packets, and lacked none."""
        return self.status == 0 and self.said.count(f" {packets} packets, 0 gaps") == len(TONE.tracks)


def ended(play: subprocess.Popen) -> Played:
    said, _ = play.communicate(timeout=60)
    return Played(play.returncode, said)


class Fleet:
    """Three servers, and one that may be added, and their balancer."""

    def __init__(self, nets: Namespaces, folder: pathlib.Path) -> None:
        self.nets, self.folder = nets, folder
        self.running: Dict[str, subprocess.Popen] = {}

    @property
    def admin(self) -> pathlib.Path:
        """HAProxy's socket."""
        return self.folder / "admin.sock"

    def begin_server(self, number: int) -> None:
        address = SERVERS[number]
        text = configuration(
            TONE,
            20_000 + 1_000 * number,
            pairs=40,
            sessions=40,
            uplink=40 * TONE.whole_rate,
            connections_per_address=SHARE,
            access_log="true",
            media=f'"{self.folder}"',
            status=f'"{address}:9554"',
            proxy=f'["{BALANCER}"]',
            players=gstreamer.PLAYERS,
        )
        path = self.folder / f"{number}.toml"
        path.write_text(text)
        held = ["env", "--block-signal=TERM,INT,HUP,XFSZ"]
        words = [*held, str(TRIED), "serve", "--config", str(path), "--listen", f"{address}:8554"]
        log = (self.folder / f"{number}.log").open("ab")
        self.running[address] = self.nets.begin(self.nets.inside, *words, stdout=log, stderr=log)

    def begin_balancer(self) -> None:
        key, made = self.folder / "key.pem", self.folder / "made.pem"
        subject = ["-subj", "/CN=media.example", "-days", "2"]
        run("openssl", "req", "-x509", "-newkey", "rsa:2048", "-nodes", "-keyout", str(key), "-out", str(made), *subject)
        (self.folder / "rtsps.pem").write_text(made.read_text() + key.read_text())
        text = (FLEET / "haproxy.cfg").read_text()
        for there, here in {"/run/haproxy/admin.sock": "admin.sock", "/etc/haproxy/rtsps.pem": "rtsps.pem"}.items():
            if there not in text:
                raise Failed(f"{there} isn't in haproxy.cfg")
            text = text.replace(there, str(self.folder / here))
        (self.folder / "haproxy.cfg").write_text(text)
        log = (self.folder / "haproxy.log").open("ab")
        words = ["haproxy", "-db", "-f", str(self.folder / "haproxy.cfg")]
        self.running[BALANCER] = self.nets.begin(self.nets.inside, *words, stdout=log, stderr=log)

    def __enter__(self) -> "Fleet":
        for track in TONE.tracks:
            (self.folder / f"{track.name}.raw").write_bytes(b"".join(map(track.unit, range(TONE.units))))
        for number in range(AT_FIRST):
            self.begin_server(number)
        for number in range(AT_FIRST):
            self.tells(number, "listening on")
        self.begin_balancer()
        return self

    def __exit__(self, *_: object) -> None:
        for it in self.running.values():
            it.kill()
            it.wait()

    def lines(self, number: int, *words: str) -> List[str]:
        """The lines of a server's log that have all of these words."""
        path = self.folder / f"{number}.log"
        lines = path.read_text(errors="replace").splitlines() if path.exists() else []
        return [it for it in lines if all(word in it for word in words)]

    def tells(self, number: int, *words: str, times: int = 1) -> bool:
        """Whether a server's log has so many lines with all of these words, or comes to."""
        until = time.monotonic() + SOON
        while len(self.lines(number, *words)) < times and time.monotonic() < until:
            time.sleep(0.05)
        return len(self.lines(number, *words)) >= times

    def asks(self, player: int, count: int) -> subprocess.Popen:
        words = [sys.executable, "-c", ASKS, str(count)]
        return self.nets.begin(self.nets.players[player], *words, stdin=subprocess.PIPE, stdout=subprocess.PIPE, text=True)

    def begin_play(self, player: int, *words: str) -> subprocess.Popen:
        tool = [sys.executable, str(TOP / "examples/play"), *words, f"rtsp://{BALANCER}:554/tone"]
        pipes = {"stdout": subprocess.PIPE, "stderr": subprocess.STDOUT, "text": True}
        return self.nets.begin(self.nets.players[player], *tool, **pipes)

    def begin_gstreamer(self, player: int, way: str) -> gstreamer.Play:
        """One by TLS, which takes the certificate as it is."""
        uri = f"rtsps://{BALANCER}:322/tone"
        words = gstreamer.launch(TONE, uri, f"protocols={way}", "tls-validation-flags=0")
        return gstreamer.begun_in(self.folder / way, TONE, self.folder, self.nets.words(self.nets.players[player], *words))

    def stands(self) -> bool:
        """Whether the balancer passes a player on, or comes to."""
        until = time.monotonic() + SOON
        while time.monotonic() < until:
            asked = self.asks(0, 1)
            count = answered(asked)
            let_go(asked)
            if count == 1:
                return True
            time.sleep(0.3)
        return False


@contextlib.contextmanager
def fleet(checks: Checks) -> Iterator[Optional[Fleet]]:
    """The whole of it, where it can be made here; it stands."""
    what = "a fleet behind HAProxy"
    if not checks.has(what, "haproxy", "ip", "openssl"):
        yield None
        return
    with contextlib.ExitStack() as held:
        try:
            nets = held.enter_context(Namespaces())
        except subprocess.CalledProcessError as why:
            checks.skip(what, f"namespaces of the network can't be made here: {why.stderr.strip()}")
            yield None
            return
        folder = held.enter_context(tempfile.TemporaryDirectory())
        made = held.enter_context(Fleet(nets, pathlib.Path(folder)))
        checks.that("the fleet stands", made.stands(), (made.folder / "haproxy.log").read_text()[-2000:])
        time.sleep(0.5)
        yield made


def answered(asked: subprocess.Popen) -> int:
    """How many of its connections were answered, which it holds."""
    return int((asked.stdout.readline() if asked.stdout else "") or "0")


def let_go(*asked: subprocess.Popen) -> None:
    for it in asked:
        it.communicate(timeout=10)


def homes(made: Fleet, *players: int) -> List[List[int]]:
    """By which servers each of these players was answered."""
    time.sleep(LATE)
    marks = [f" access {PLAYERS[it]} " for it in players]
    return [[number for number in range(len(SERVERS)) if made.lines(number, mark)] for mark in marks]


def plays_on(made: Fleet, player: int, *words: str) -> subprocess.Popen:
    """A play that has begun, on the only server that the player ever came to."""
    ((number,),) = homes(made, player)
    before = len(made.lines(number, PLAYERS[player], '"PLAY"'))
    play = made.begin_play(player, *words)
    made.tells(number, PLAYERS[player], '"PLAY"', times=before + 1)
    return play


def come_to_stay(checks: Checks, made: Fleet, count: int) -> List[subprocess.Popen]:
    """Has each player open so many connections, one after another, which are held: each has a server of its own."""
    talks = []
    for player in range(len(PLAYERS)):
        talks.append(made.asks(player, count))
        checks.same(f"connections of player {player} that are answered", count, answered(talks[-1]))
    checks.same("the servers that they came to", [[it] for it in range(AT_FIRST)], sorted(homes(made, *range(len(PLAYERS)))))
    return talks


def shares_are_the_players(checks: Checks, made: Fleet) -> None:
    talks = come_to_stay(checks, made, CONNECTIONS)
    talks.append(made.asks(0, SHARE))
    checks.same("of one player beyond its share", SHARE - CONNECTIONS, answered(talks[-1]))
    let_go(*talks)
    spent = [it for number in range(AT_FIRST) for it in made.lines(number, "has its whole share")]
    checks.that("the log names the player, not the balancer", all(PLAYERS[0] in it for it in spent) and len(spent) > 0, spent)


def plays_again(checks: Checks, made: Fleet, player: int) -> None:
    """Its server is killed while it plays."""
    ((mine,),) = homes(made, player)
    play = plays_on(made, player, "--tcp")
    made.running[SERVERS[mine]].send_signal(signal.SIGKILL)
    died = time.monotonic()
    checks.that("its play ends", ended(play).status != 0)
    while made.begin_play(player, "--seconds", "1").wait(60) and time.monotonic() < died + 10:
        time.sleep(0.1)
    took = time.monotonic() - died - 1.0
    checks.that("its player plays again within 3 s", took < 3.0, took)


@serving_test(limit=120)
def a_fleet_behind_haproxy(checks: Checks) -> None:
    """Players have shares of their own and stay with their server; UDP passes the balancer by; TLS; one server dies."""
    with fleet(checks) as made:
        if not made:
            return
        shares_are_the_players(checks, made)
        for way in [], ["--tcp"]:
            done = ended(made.begin_play(1, "--seconds", "3", *way))
            checks.that(f"a play {way or 'over UDP'}: each packet", done.is_whole(150), done)
        asked = made.nets.begin(made.nets.players[0], sys.executable, "-c", ASKS_BY_TLS, stdout=subprocess.PIPE, text=True)
        came, _ = asked.communicate(timeout=15)
        wanted = "['RTSP/2.0 200 OK', 'CSeq: 1', 'Content-Base: rtsps://10.77.0.1/tone/']"
        checks.same("a request of rtsps, cut in the middle", wanted, came.strip())
        plays_again(checks, made, 1)


@serving_test(limit=60, is_timed=True)
def a_fleet_by_gstreamer(checks: Checks) -> None:
    """By rtsps to the end of the stream, each octet as it was served: through the balancer, and over UDP past it."""
    if not gstreamer.is_here(checks, "gst-launch-1.0"):
        return
    with fleet(checks) as made:
        if not made:
            return
        plays = [made.begin_gstreamer(player, way) for player, way in enumerate(WAYS)]
        for player, (play, way) in enumerate(zip(plays, WAYS)):
            checks.that(f"over {way}: it ends whole", play.ends_whole())
            told = [it for (home,) in homes(made, player) for it in made.lines(home, f" of {PLAYERS[player]} ended by ")]
            wanted = f" over {way.upper()} for ", f", {len(TONE.tracks) * TONE.units} packets sent, 0 lost"
            checks.that("what its server tells of it", len(told) == 1 and all(it in told[0] for it in wanted), told)
