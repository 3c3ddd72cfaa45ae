"""GStreamer as a distribution has it, by RTSP 2.0, where the configuration's players are such.

Where its tools, or its element rtspsrc, aren't installed, the tests are left out, which ./test counts.
"""
import os
import pathlib
import pty
import re
import subprocess
import time
from typing import Any, List, NamedTuple, Sequence, Tuple

from checks import Checks
from rtsp_client.player import Way

from .plays import side_by_side
from .runner import serving_test
from .server import TONE, Presentation, Server, is_alive

PLAYERS = '"gstreamer"'
# So many plays over each way, and so many of them at once.
PLAYS, AT_ONCE = 20, 5
SHORT = Presentation(units=100)
# The jitter buffer of gst-launch here, and that of the other tools, in seconds.
LATENCY, LATENCY_OF_TOOLS = 0.3, 2.0
# What gst-launch says where the stream has ended.
END = 'Got EOS from element "pipeline0".'
# A tool is so much slower than its media and its buffer at most, in seconds.
STARTS_AND_ENDS = 6.0


def is_here(checks: Checks, tool: str) -> bool:
    """Whether a tool, and rtspsrc, are installed; where one isn't, what it would do is left out."""
    what = f"what {tool} does"
    if not checks.has(what, "gst-inspect-1.0", tool):
        return False
    if subprocess.run(["gst-inspect-1.0", "--exists", "rtspsrc"]).returncode:
        checks.skip(what, "rtspsrc isn't installed: tests/install")
        return False
    return True


def seconds_of(presentation: Presentation) -> float:
    return presentation.units * presentation.unit_ms / 1000


class Play(NamedTuple):
    """A running gst-launch-1.0 that writes the payload of each track to a file of its folder, and where the media is."""

    presentation: Presentation
    media: pathlib.Path
    folder: pathlib.Path
    process: "subprocess.Popen[bytes]"

    def said(self) -> str:
        return (self.folder / "said").read_text(errors="replace")

    def units(self) -> List[float]:
        """How many units of each track have come."""
        paths = [(self.folder / track.name, track.octets) for track in self.presentation.tracks]
        return [path.stat().st_size / octets if path.exists() else 0.0 for path, octets in paths]

    def is_whole(self) -> bool:
        """Whether the tracks' files have just the octets that were served."""
        pairs = [(self.folder / it.name, self.media / f"{it.name}.raw") for it in self.presentation.tracks]
        return all(path.exists() and path.read_bytes() == served.read_bytes() for path, served in pairs)

    def ends_whole(self) -> bool:
        """Whether it comes to the end of the stream by itself, with all octets."""
        limit = seconds_of(self.presentation) + LATENCY + STARTS_AND_ENDS
        how = "it ended by itself"
        try:
            self.process.wait(limit)
        except subprocess.TimeoutExpired:
            how = f"it hadn't ended after {limit} s"
            self.process.kill()
            self.process.wait()
        # What it says behind that, as that its last PAUSE was broken off by its own end, is about itself.
        if END in self.said() and self.is_whole():
            return True
        print(f"{self.folder.name}: {how}, status {self.process.returncode}, units {self.units()}")
        print(self.said(), end="")
        return False


def launch(presentation: Presentation, uri: str, *settings: str) -> List[str]:
    """The words of a gst-launch-1.0 that writes the payload of each track to a file of its name."""
    words = ["gst-launch-1.0", "rtspsrc", "name=source", f"location={uri}"]
    words += ["default-rtsp-version=2-0", f"latency={1000 * LATENCY:.0f}", *settings]
    # Each depayloader takes the pad whose payload it knows. With a filter of capabilities before them gst-launch tries
    # each on each pad, and where two pads appear at once, one misses its own.
    for track in presentation.tracks:
        words += ["source.", "!", f"rtp{track.encoding.lower()}depay", "!", "filesink", f"location={track.name}"]
    return words


def begun_in(folder: pathlib.Path, presentation: Presentation, media: pathlib.Path, words: Sequence[str]) -> Play:
    folder.mkdir()
    pipes = {"stdout": (folder / "said").open("wb"), "stderr": subprocess.STDOUT, "stdin": subprocess.DEVNULL}
    return Play(presentation, media, folder, subprocess.Popen(words, cwd=folder, **pipes))


def begun(server: Server, way: str, number: int, *more: str) -> Play:
    """With more properties of its source."""
    words = launch(server.presentation, server.uri, f"protocols={way}", *more)
    return begun_in(server.path / f"{way}{number}", server.presentation, server.path, words)


def whole_plays(server: Server, way: str) -> int:
    """How many of the plays over a way have come whole and to their end."""
    whole = 0
    for first in range(0, PLAYS, AT_ONCE):
        plays = [begun(server, way, first + number) for number in range(AT_ONCE)]
        whole += sum(play.ends_whole() for play in plays)
    return whole


def plays_of(checks: Checks, way: str) -> None:
    if not is_here(checks, "gst-launch-1.0"):
        return
    with Server(checks, SHORT, pairs=4 * AT_ONCE, uplink=10**9, players=PLAYERS) as server:
        checks.same(f"plays over {way} of {PLAYS}", PLAYS, whole_plays(server, way))
        server.answers("afterwards")


@serving_test(limit=110, is_timed=True)
def gstreamer_plays_over_tcp(checks: Checks) -> None:
    plays_of(checks, "tcp")


@serving_test(limit=110, is_timed=True)
def gstreamer_plays_over_udp(checks: Checks) -> None:
    plays_of(checks, "udp")


# A timeout above the longest time between two reports of GStreamer, 7.5 s, and media for three times that.
PATIENT, LONG = 10, Presentation(units=1_550)


@serving_test(limit=60, is_timed=True)
def gstreamer_plays_longer_than_the_timeout(checks: Checks) -> None:
    """Over the connection, where it sends nothing but RTCP while it plays."""
    if is_here(checks, "gst-launch-1.0"):
        with Server(checks, LONG, timeout=PATIENT, players=PLAYERS) as server:
            checks.that(f"{seconds_of(LONG)} s with a timeout of {PATIENT} s", begun(server, "tcp", 0).ends_whole())


# A receiver report without blocks, as a frame of a channel.
def report_on(channel: int) -> bytes:
    return bytes((0x24, channel, 0, 8, 0x80, 201, 0, 1, 0, 0, 0, 9))


class Reporting(NamedTuple):
    """A session over a connection that plays, and is sent nothing more but these writes, over and over."""

    where: str
    players: str
    writes: Tuple[bytes, ...]
    lives: bool


REPORT = report_on(1)
REPORTING = (
    Reporting("reports of GStreamer", PLAYERS, (REPORT,), True),
    Reporting("reports in two writes", PLAYERS, (REPORT[:7], REPORT[7:]), True),
    Reporting("reports behind an empty line", PLAYERS, (b"\r\n" + REPORT,), True),
    Reporting("reports behind frames of RTP", PLAYERS, (report_on(0) + REPORT,), True),
    Reporting("reports and frames of RTP by turns", PLAYERS, (report_on(0), REPORT), True),
    Reporting("frames on the channel of RTP", PLAYERS, (report_on(0),), False),
    Reporting("frames on a channel of nobody", PLAYERS, (report_on(9),), False),
    Reporting("reports of another player", '"strict"', (REPORT,), False),
)
# In seconds; a write comes so often.
IMPATIENT, EVERY = 2, 0.15


def keeps_reporting(checks: Checks, it: Reporting) -> None:
    with Server(checks, timeout=IMPATIENT, players=it.players) as server:
        player = server.player(Way.TCP)
        for track in player.describe():
            player.set_up(track)
        player.play(0.0)
        until = time.monotonic() + 3 * IMPATIENT
        while time.monotonic() < until:
            for write in it.writes:
                player.connection.send_bytes(write)
                player.connection.wait(EVERY)
        talk = server.connect()
        checks.same(f"{it.where}: the session lives", it.lives, is_alive(talk, server.uri, player.session or ""))
        talk.close()


@serving_test(limit=40, is_timed=True)
def reports_are_signs_of_life(checks: Checks) -> None:
    """Frames on the channel of RTCP keep a session of GStreamer alive; nothing else does."""
    side_by_side(checks, *(lambda it=it: keeps_reporting(checks, it) for it in REPORTING))


class Watched(NamedTuple):
    """How gst-play-1.0 ended: its status, in how many seconds, and what it said."""

    status: int
    seconds: float
    said: str

    def positions(self) -> List[float]:
        """The seconds of the media that it showed, one after another."""
        found = re.findall(r"(\d+):(\d+):(\d+\.\d) / ", self.said)
        return [3600 * int(hours) + 60 * int(minutes) + float(seconds) for hours, minutes, seconds in found]


def watch(server: Server, keys: Sequence[Tuple[float, bytes]], limit: float) -> Watched:
    """Plays with gst-play-1.0, and presses keys at these seconds."""
    screen, keyboard = pty.openpty()
    words = ["gst-play-1.0", "--audiosink=fakesink sync=true", server.uri]
    began = time.monotonic()
    said = server.path / "said"
    with said.open("wb") as out:
        pipes: Any = {"stdin": keyboard, "stdout": out, "stderr": subprocess.STDOUT}
        with subprocess.Popen(words, cwd=server.path, **pipes) as playing:
            for at, key in keys:
                time.sleep(max(0.0, began + at - time.monotonic()))
                os.write(screen, key)
            try:
                playing.wait(max(0.1, began + limit - time.monotonic()))
            except subprocess.TimeoutExpired:
                playing.kill()
    os.close(screen)
    os.close(keyboard)
    return Watched(playing.returncode, time.monotonic() - began, said.read_text(errors="replace"))


MIDDLE = Presentation(units=300)
SPACE, RIGHT = b" ", b"\x1b[C"


def watched(checks: Checks, where: str, keys: Sequence[Tuple[float, bytes]], more: float) -> Watched:
    """Plays six seconds with gst-play-1.0 to their end, which takes so much longer."""
    with Server(checks, MIDDLE, players=PLAYERS) as server:
        most = seconds_of(MIDDLE) + LATENCY_OF_TOOLS + more + STARTS_AND_ENDS
        it = watch(server, keys, most)
        came_to_end = it.status == 0 and "Reached end of play list." in it.said
        checks.that(f"{where}: it comes to its end", came_to_end, (it.status, it.seconds, it.said[-300:]))
        server.answers(f"{where}: afterwards")
        return it


@serving_test(limit=40, is_timed=True)
def gstreamer_player_plays_to_its_end(checks: Checks) -> None:
    if is_here(checks, "gst-play-1.0"):
        it = watched(checks, "gst-play-1.0", [], 0.0)
        checks.that("gst-play-1.0: what it showed last", max(it.positions(), default=0.0) >= 5.5, it.positions()[-5:])


@serving_test(limit=40, is_timed=True)
def gstreamer_player_pauses(checks: Checks) -> None:
    if is_here(checks, "gst-play-1.0"):
        it = watched(checks, "a pause", [(3.5, SPACE), (6.5, SPACE)], 3.0)
        checks.that("a pause: it takes its three seconds", it.seconds >= seconds_of(MIDDLE) + 3.0, it.seconds)


@serving_test(limit=40, is_timed=True)
def gstreamer_player_seeks(checks: Checks) -> None:
    if is_here(checks, "gst-play-1.0"):
        it = watched(checks, "a seek", [(3.5, RIGHT)], LATENCY_OF_TOOLS)
        shown = it.positions()
        leaps = [after - before for before, after in zip(shown, shown[1:])]
        checks.that("a seek: it leaps forward", max(leaps, default=0.0) >= 0.3, shown)


@serving_test(limit=40, is_timed=True)
def gstreamer_discovers(checks: Checks) -> None:
    if not is_here(checks, "gst-discoverer-1.0"):
        return
    with Server(checks, TONE, players=PLAYERS) as server:
        done = subprocess.run(["gst-discoverer-1.0", server.uri], capture_output=True, text=True, timeout=30)
        checks.same("gst-discoverer-1.0: its status", 0, done.returncode)
        for wanted in "Duration: 0:00:10.000000000", "Seekable: yes", "A-Law", "Mu-Law":
            checks.that(f"gst-discoverer-1.0: {wanted}", wanted in done.stdout, done.stdout)
