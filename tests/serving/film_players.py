"""Films as they are, by players that a distribution has: GStreamer over UDP and TCP, and ffmpeg by a description.

They are made by ffmpeg, and added by examples/import. Where a tool isn't installed, the test is left out, which ./test
counts.
"""
import concurrent.futures
import contextlib
import pathlib
import re
import signal
import subprocess
import time
from typing import Any, Dict, Iterator, List, NamedTuple

import film_player
from checks import Checks, Failed
from film_player import Compared
from film_source import digest, frames_of, pictures_in, read_film, units_of
from films import IMPORT, PLAY

from .runner import serving_test
from .server import Presentation, Server

SECONDS = 6
# So many plays over each way, and so many of them at once.
PLAYS, AT_ONCE = 20, 4
# A picture whose B-frames are shown before what they were made of, with a key frame each two seconds.
CODEC = ["-c:v", "libx264", "-preset", "veryfast", "-bf", "3", "-g", "50", "-pix_fmt", "yuv420p"]
# Milliseconds that picture and sound may be apart, five seconds after the first picture: where nothing is late by
# design, and where packets are by half a second.
TOGETHER, NEARLY = 20.0, 100.0
SETTLED = 5.0


class Kind(NamedTuple):
    """A film: its frames a second, the samples of its first sound, and the seconds of a second one."""

    rate: str = "25"
    samples: int = 48_000
    seconds: int = SECONDS
    second_sound: int = 0

    def make(self, path: pathlib.Path) -> pathlib.Path:
        picture = f"testsrc2=size=320x180:rate={self.rate}:duration={self.seconds}"
        noise = "anoisesrc=color=pink:seed={}:sample_rate={}:duration={}".format
        words = ["-f", "lavfi", "-i", picture, "-f", "lavfi", "-i", noise(1, self.samples, self.seconds)]
        words += ["-f", "lavfi", "-i", noise(2, 48_000, self.second_sound)] if self.second_sound else []
        words += [it for place in range(3 if self.second_sound else 2) for it in ("-map", str(place))]
        command = ["ffmpeg", "-v", "error", "-nostdin", *words, *CODEC, "-c:a", "aac", "-b:a", "96k", "-y", str(path)]
        subprocess.run(command, check=True, timeout=100)
        return path


class Served(NamedTuple):
    """A film that is served, and what import wrote of it."""

    server: Server
    film: pathlib.Path
    written: Dict[str, Any]

    def plays(self, way: str, *words: str) -> Compared:
        return film_player.play(self.server.uri, self.film, way, *words)

    def at_once(self, *plays: List[str]) -> List[Compared]:
        """Plays of so many ways and words side by side."""
        with concurrent.futures.ThreadPoolExecutor(AT_ONCE) as players:
            return [*players.map(lambda words: self.plays(*words), plays)]


@contextlib.contextmanager
def served(checks: Checks, kind: Kind, *words: str) -> Iterator[Served]:
    """A server of a film that was imported with these words."""
    # Of Python 3.11, as import is.
    import tomllib

    server = Server(checks, Presentation("film", tracks=()), pairs=4 * AT_ONCE)
    film = kind.make(server.path / "film.mp4")
    command = [str(IMPORT), str(film), "film", *words, "--config", "films.toml"]
    done = subprocess.run(command, cwd=server.path, capture_output=True, text=True, timeout=100)
    if done.returncode:
        raise Failed(f"the film wasn't imported: {done.stderr}")
    text = (server.path / "films.toml").read_text()
    ports = f"first_port = {server.first_port}\npairs = {server.pairs}\naccess_log = true\n"
    server.text = re.sub(r"first_port = .*\npairs = .*\n", ports, text)
    with server:
        yield Served(server, film, tomllib.loads(text)["presentation"][0])


def is_here(checks: Checks, what: str) -> bool:
    if not checks.has(what, "ffmpeg", "ffprobe"):
        return False
    if not film_player.is_there():
        checks.skip(what, "GStreamer or its Python isn't installed: tests/install")
        return False
    return True


def is_whole(checks: Checks, where: str, came: Compared, picture: int = 0) -> bool:
    said = came._replace(lip_sync=[])
    what = f"{where}: all pictures from {picture} on, and all sounds, came bit by bit"
    return checks.that(what, came.is_whole_from(picture), said)


@serving_test(limit=60, is_timed=True)
def gstreamer_plays_a_film(checks: Checks) -> None:
    """Of 23.976 frames a second with 44.1 kHz, and a second, shorter sound: each NAL unit and each frame of sound."""
    if is_here(checks, "films by GStreamer"):
        with served(checks, Kind("24000/1001", 44_100, SECONDS, 4)) as film:
            checks.same("its tracks", ["v", "a", "a2"], [it["name"] for it in film.written["track"]])
            for way, came in zip(("udp", "tcp"), film.at_once(["udp"], ["tcp"])):
                is_whole(checks, way, came)


@serving_test(limit=400, is_by_name=True)
def gstreamer_plays_a_film_twenty_times(checks: Checks) -> None:
    """Over each way 20 of 20 plays are whole."""
    if is_here(checks, "films by GStreamer"):
        with served(checks, Kind("24000/1001", 44_100)) as film:
            for way in "udp", "tcp":
                came = film.at_once(*[[way]] * PLAYS)
                for it in came:
                    if not it.is_whole_from():
                        print(f"over {way}, not whole: {it._replace(lip_sync=[])}")
                checks.same(f"whole plays over {way} of {PLAYS}", PLAYS, sum(it.is_whole_from() for it in came))
                worst = max(it.apart_after(SETTLED) for it in came)
                print(f"over {way}, {SETTLED:g} s on, picture and sound are {worst:.1f} ms apart at most")


def together(checks: Checks, late: str, most: float) -> None:
    """Picture and sound, five seconds after the first picture, of a film whose packets may be late by so much."""
    if not is_here(checks, "films by GStreamer"):
        return
    with served(checks, Kind(seconds=9), "--late", late) as film:
        for way, came in zip(("udp", "tcp"), film.at_once(["udp"], ["tcp"])):
            is_whole(checks, way, came)
            apart = came.apart_after(SETTLED)
            checks.that(f"{way}: at most {most:g} ms apart", apart <= most, apart)
            checks.that(f"{way}: that is known of pictures", len(came.lip_sync) > 150, len(came.lip_sync))


@serving_test(limit=60, is_timed=True)
def picture_and_sound_where_nothing_is_late(checks: Checks) -> None:
    """They are 20 ms apart at most."""
    together(checks, "0", TOGETHER)


@serving_test(limit=60, is_timed=True)
def picture_and_sound_half_a_second_late(checks: Checks) -> None:
    """They are 100 ms apart at most."""
    together(checks, "0.5", NEARLY)


@serving_test(limit=60, is_timed=True)
def gstreamer_pauses_a_film(checks: Checks) -> None:
    """After a pause, at which the numbers of packets jump, it plays on to the end, and nothing is missing."""
    if is_here(checks, "films by GStreamer"):
        with served(checks, Kind()) as film:
            pause = ["--pause", "1.5", "1"]
            for way, came in zip(("udp", "tcp"), film.at_once(["udp", *pause], ["tcp", *pause])):
                is_whole(checks, way, came)
        checks.same("answers to PLAY", 4, sum(b'"PLAY"' in line for line in film.server.log))


@serving_test(limit=60, is_timed=True)
def gstreamer_seeks_in_a_film(checks: Checks) -> None:
    """To a start, and behind it: the first picture is the start's key frame, and all from it on come."""
    if not is_here(checks, "films by GStreamer"):
        return
    with served(checks, Kind()) as film:
        starts = film.written["starts"]
        checks.same("the starts", 3, len(starts))
        at = starts[2] * film.written["unit_ms"] / 1000
        plays = [[way, "--seek", f"{second:.3f}", "1"] for second in (at, at + 1.0) for way in ("udp", "tcp")]
        for words, came in zip(plays, film.at_once(*plays)):
            is_whole(checks, " ".join(words), came, 100)


def receives(film: Served, folder: pathlib.Path) -> None:
    """ffmpeg takes a film by the description that examples/play writes, until its play has ended."""
    sdp = folder / "film.sdp"
    words = [str(PLAY), film.server.uri, "--sdp", str(sdp)]
    with subprocess.Popen(words, stdout=subprocess.PIPE, stderr=subprocess.STDOUT, text=True) as playing:
        if not playing.stdout.readline().startswith("wrote "):
            raise Failed("play writes no description")
        command = ["ffmpeg", "-v", "error", "-nostdin", "-protocol_whitelist", "file,rtp,udp", "-i", str(sdp)]
        command += ["-map", "0:v", "-c", "copy", "-f", "h264", "-y", str(folder / "v"), "-map", "0:a:0", "-c", "copy"]
        receiver = subprocess.Popen([*command, "-f", "adts", "-y", str(folder / "a")])
        playing.wait(timeout=60)
    time.sleep(0.5)
    receiver.send_signal(signal.SIGINT)
    receiver.wait(timeout=10)


@serving_test(limit=60, is_timed=True)
def ffmpeg_receives_a_film(checks: Checks) -> None:
    """By examples/play's description, over UDP."""
    if not checks.has("films by ffmpeg", "ffmpeg", "ffprobe"):
        return
    with served(checks, Kind()) as film:
        receives(film, film.server.path)
        source = read_film(film.film)
        came = pictures_in(units_of((film.server.path / "v").read_bytes()), "h264")
        checks.that("its pictures", [digest(it) for it in came] == source.units, (len(came), len(source.units)))
        sounds = [digest(it) for it in frames_of((film.server.path / "a").read_bytes())]
        is_same = sounds == source.frames[: len(sounds)] and len(sounds) >= len(source.frames) - 1
        checks.that("its sounds", is_same, (len(sounds), len(source.frames)))
