"""A server of a test's own: a configuration with its media, ports that are free, and `rtspd serve` over them."""
import os
import pathlib
import random
import re
import select
import socket
import struct
import subprocess
import tempfile
import time
from typing import Any, Dict, List, NamedTuple, Optional, Sequence, Tuple

from checks import PROGRAM, Checks, Failed
from rtsp_client.connection import Connection
from rtsp_client.player import Player, Way

HERE = "127.0.0.1"
# Another program than the built one may be tried.
TRIED = pathlib.Path(os.environ.get("RTSPD_PROGRAM", PROGRAM)).resolve()
# Below the ports that the system gives to clients.
TCP_PORTS, UDP_PORTS = range(10_240, 18_000), range(18_000, 32_000)
TICK = os.sysconf("SC_CLK_TCK")
PAGE = os.sysconf("SC_PAGE_SIZE")
STARTS_WITHIN = 20.0
# A line of the log.
LOGGED = re.compile(rb"\d{4}-\d\d-\d\dT\d\d:\d\d:\d\d\.\d{3}Z (?:info|access|warning|error) [^\n]*\n")


class Track(NamedTuple):
    """A track of a configuration."""

    name: str
    pt: int = 0
    encoding: str = "PCMU"
    octets: int = 160
    ticks: int = 160
    # With `packets`, how many a unit has at most, and how they stand in the file.
    packets: Optional[int] = None
    packing: str = "slots"

    @property
    def unit_octets(self) -> int:
        """What a unit takes in the file."""
        is_slots = self.packets is not None and self.packing == "slots"
        return self.octets + (8 * self.packets if is_slots else 0)

    def unit(self, number: int) -> bytes:
        """The octets of a unit of the file, no two alike; in a slot its packets have one length."""
        mark = self.name.encode()[:1] + number.to_bytes(4, "big")
        octets = (mark * (self.octets // len(mark) + 1))[: self.octets]
        if self.unit_octets == self.octets:
            return octets
        size, slot = self.octets // self.packets, b""
        for place in range(self.packets):
            head = struct.pack(">HHI", size, 0, place * self.ticks // self.packets)
            slot += head + octets[size * place : size * (place + 1)]
        return slot.ljust(self.unit_octets, b"\0")


class Presentation(NamedTuple):
    """A presentation of a configuration."""

    name: str = "tone"
    units: int = 500
    unit_ms: int = 20
    tracks: Tuple[Track, ...] = (Track("a"), Track("b", 8, "PCMA"))
    starts: Tuple[int, ...] = ()

    def rate(self, track: Track) -> int:
        """Bits a second of the uplink."""
        rate = -(-(track.octets + 40 * (track.packets or 1)) * 8000 // self.unit_ms)
        return rate + (576 if track.packets else 0)

    @property
    def whole_rate(self) -> int:
        return sum(map(self.rate, self.tracks))


TONE = Presentation()


def configuration(presentation: Presentation, first_port: int, **server: Any) -> str:
    """The text of a configuration."""
    settings = {"pairs": 8, "uplink": 8 * presentation.whole_rate, "sessions": 64, **server}
    lines = ["[server]", f"first_port = {first_port}", *(f"{key} = {value}" for key, value in settings.items())]
    lines += ["[[presentation]]", f'name = "{presentation.name}"']
    lines += [f"units = {presentation.units}", f"unit_ms = {presentation.unit_ms}"]
    lines += [f"starts = {[*presentation.starts]}"] if presentation.starts else []
    for track in presentation.tracks:
        lines += ["[[presentation.track]]", f'name = "{track.name}"', 'media = "audio"', f"pt = {track.pt}"]
        lines += [f'encoding = "{track.encoding}"', "clock = 8000", f"octets = {track.octets}"]
        lines += [f"ticks = {track.ticks}", f'file = "{track.name}.raw"']
        lines += [f"packets = {track.packets}", f'packing = "{track.packing}"'] if track.packets else []
    return "".join(f"{line}\n" for line in lines)


def is_free(kind: socket.SocketKind, port: int) -> bool:
    with socket.socket(socket.AF_INET, kind) as tried:
        try:
            tried.bind(("0.0.0.0", port))
        except OSError:
            return False
    return True


def free_ports(kind: socket.SocketKind, count: int) -> int:
    """The first of so many ports side by side that nobody has; it is even."""
    among = TCP_PORTS if kind == socket.SOCK_STREAM else UDP_PORTS
    for _ in range(1000):
        first = random.randrange(among.start, among.stop - count) & ~1
        if all(is_free(kind, first + number) for number in range(count)):
            return first
    raise Failed(f"no {count} ports side by side are free")


class Server:
    """A running `rtspd serve`, in a folder of its own."""

    def __init__(
        self,
        checks: Checks,
        presentation: Presentation = TONE,
        words: Sequence[str] = (),
        descriptors: Optional[int] = None,
        text: Optional[str] = None,
        host: str = HERE,
        holds_signals: bool = False,
        **server: Any,
    ) -> None:
        self.checks = checks
        self.holds_signals = holds_signals
        self.presentation = presentation
        self.words = words
        self.descriptors_allowed = descriptors
        self.host = host
        self.pairs = server.get("pairs", 8)
        self.first_port = free_ports(socket.SOCK_DGRAM, 2 * max(self.pairs, 1))
        self.port = free_ports(socket.SOCK_STREAM, 1)
        self.text = text or configuration(presentation, self.first_port, **server)
        self.folder = tempfile.TemporaryDirectory()
        self.environment: Dict[str, str] = {}
        self.status: Optional[int] = None
        self.log: List[bytes] = []
        # Words of errors that the log may tell of.
        self.may_tell: Optional[bytes] = None

    @property
    def path(self) -> pathlib.Path:
        return pathlib.Path(self.folder.name)

    @property
    def uri(self) -> str:
        return f"rtsp://{HERE}:{self.port}/{self.presentation.name}"

    def write_media(self) -> None:
        """A file for each track, unless the test has put one there."""
        for track in self.presentation.tracks:
            path = self.path / f"{track.name}.raw"
            if not path.exists():
                path.write_bytes(b"".join(map(track.unit, range(self.presentation.units))))

    def command(self) -> List[str]:
        return [str(TRIED), "serve", "--config", "server.toml", "--listen", f"{self.host}:{self.port}", *self.words]

    def start(self) -> "subprocess.Popen[bytes]":
        (self.path / "server.toml").write_text(self.text)
        limit = self.descriptors_allowed or "$(ulimit -Hn)"
        # Whoever runs the tests may ignore a hangup.
        held = ["--default-signal=HUP"]
        if self.holds_signals:
            held.append("--block-signal=TERM,INT,HUP,XFSZ")
        given = [*held, *(f"{name}={value}" for name, value in self.environment.items())]
        shell = ["bash", "-c", f'ulimit -n {limit} && exec "$0" "$@"', "env", *given, *self.command()]
        pipes = {"stdout": subprocess.PIPE, "stderr": subprocess.PIPE, "stdin": subprocess.DEVNULL}
        return subprocess.Popen(shell, cwd=self.path, **pipes)

    def __enter__(self) -> "Server":
        self.write_media()
        self.process = self.start()
        ready, _, _ = select.select([self.process.stdout], [], [], STARTS_WITHIN)
        line = self.process.stdout.readline() if ready else b""
        if line != f"rtspd: listening on {self.host}:{self.port}\n".encode():
            self.process.kill()
            _, complaint = self.process.communicate()
            raise Failed(f"the server didn't start: it wrote {line!r}, and on standard error {complaint!r}")
        return self

    def __exit__(self, kind: object, *_: object) -> None:
        if self.process.poll() is None:
            self.process.kill()
            said, complaint = self.process.communicate()
        else:
            said, complaint = self.process.communicate()
            if self.status is None:
                self.checks.that("the server runs until the test ends", False, self.process.returncode)
        self.log = [it[0] for it in LOGGED.finditer(complaint)]
        if not self.environment:
            errors = [it for it in self.log if b"Z error " in it and (self.may_tell is None or self.may_tell not in it)]
            self.checks.same("errors that the log tells of", [], errors)
        complaint = LOGGED.sub(b"", complaint)
        self.checks.same("what the server writes besides, and on standard error", (b"", b""), (said, complaint))
        self.folder.cleanup()

    def ends(self, within: float) -> int:
        """Waits until the server ends by itself, and gives its status."""
        self.status = self.process.wait(timeout=within)
        return self.status

    def connect(self, receive_buffer: Optional[int] = None) -> Connection:
        return Connection(HERE, self.port, receive_buffer)

    def player(self, way: Way, receive_buffer: Optional[int] = None) -> Player:
        return Player(self.uri, way, receive_buffer)

    def socket(self) -> socket.socket:
        made = socket.create_connection((HERE, self.port), timeout=10)
        made.setsockopt(socket.IPPROTO_TCP, socket.TCP_NODELAY, 1)
        return made

    def answers(self, where: str) -> None:
        """That it answers a new connection."""
        talk = self.connect()
        self.checks.same(where, 200, talk.ask("OPTIONS", "*").status)
        talk.close()

    def descriptors(self) -> int:
        return len(os.listdir(f"/proc/{self.process.pid}/fd"))

    def descriptors_at_rest(self) -> int:
        """The descriptors before a test, once its first connection has come and gone."""
        self.answers("before")
        time.sleep(0.3)
        return self.descriptors()

    def descriptors_fall_to(self, wanted: int, within: float) -> int:
        """The descriptors, once they are as many or the time is over."""
        until = time.monotonic() + within
        while self.descriptors() > wanted and time.monotonic() < until:
            time.sleep(0.05)
        return self.descriptors()

    def descriptors_rise_to(self, wanted: int, within: float) -> int:
        """The descriptors, once they are as many or the time is over: a connection that stands for its player may still
        wait in the system's queue."""
        until = time.monotonic() + within
        while self.descriptors() < wanted and time.monotonic() < until:
            time.sleep(0.05)
        return self.descriptors()

    def processor_seconds(self) -> float:
        stat = pathlib.Path(f"/proc/{self.process.pid}/stat").read_text()
        fields = stat[stat.rindex(")") + 2 :].split()
        return (int(fields[11]) + int(fields[12])) / TICK

    def resident_bytes(self) -> int:
        return int(pathlib.Path(f"/proc/{self.process.pid}/statm").read_text().split()[1]) * PAGE


class Lease(NamedTuple):
    """A stream over UDP that a test has set up without a player."""

    session: str
    port: int


def lease(talk: Connection, uri: str, session: Optional[str] = None) -> Optional[Lease]:
    """Sets up a track over UDP, in a new session or one that is there; None where it is refused."""
    named = [("Session", session)] if session else []
    wanted = ("Transport", 'RTP/AVP;unicast;dest_addr=":9"/":9"')
    answer = talk.ask("SETUP", uri, [*named, wanted])
    if answer.status != 200:
        return None
    port = re.search(r'src_addr="[\d.]*:(\d+)"', answer.header("Transport") or "")
    return Lease((answer.header("Session") or "").partition(";")[0], int(port[1]))


def leases(talk: Connection, uri: str, count: int) -> List[Lease]:
    """So many sessions over UDP, as far as they aren't refused."""
    made = (lease(talk, uri) for _ in range(count))
    return [it for it in made if it]


def is_alive(talk: Connection, uri: str, session: str) -> bool:
    """Whether a session lives, which renews it."""
    return talk.ask("GET_PARAMETER", uri, [("Session", session)]).status == 200
