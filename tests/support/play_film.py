#!/usr/bin/python3
"""play_film.py URL FILM udp|tcp [--seek SECOND AT] [--pause AT FOR]: plays by GStreamer's rtspsrc, as it comes with a
distribution, and prints as JSON how what is depayloaded compares with the film: what came, in which order, and when
each picture and frame of sound is shown beside its time in the film. AT is so many seconds behind the first picture. It
is run by the system's Python, which has gi."""
import argparse
import bisect
import json
import pathlib
import sys
from typing import Any, Dict, List, NamedTuple, Optional, Tuple

sys.path.insert(0, str(pathlib.Path(__file__).resolve().parent))
import gi
from film_source import Film, digest, pictures_in, read_film, units_of

gi.require_version("Gst", "1.0")
gi.require_version("GstApp", "1.0")
from gi.repository import GLib, Gst, GstApp  # noqa: F401

DEPAYLOADERS = {
    "h264": "rtph264depay ! video/x-h264,stream-format=byte-stream,alignment=au",
    "hevc": "rtph265depay ! video/x-h265,stream-format=byte-stream,alignment=au",
    "aac": "rtpmp4gdepay",
    "opus": "rtpopusdepay",
}
# What examples/import gives the picture, and the first sound behind it.
FIRST_PAYLOAD_TYPE = {"video": 96, "audio": 97}
# Nothing plays for longer, in seconds.
LONGEST = 220


class Came(NamedTuple):
    """A picture or a frame of sound, and the second at which it is shown."""

    content: bytes
    shown: float


class Play:
    """A play by a pipeline of GStreamer's."""

    def __init__(self, film: Film, words: argparse.Namespace) -> None:
        self.film = film
        self.came: Dict[str, List[Came]] = {"video": [], "audio": []}
        self.end = "nothing"
        self.loop = GLib.MainLoop()
        self.pipeline = Gst.Pipeline.new("play")
        source = Gst.ElementFactory.make("rtspsrc", "source")
        self.pipeline.add(source)
        for key, value in ("location", words.url), ("default-rtsp-version", "2-0"), ("protocols", words.protocol):
            Gst.util_set_object_arg(source, key, value)
        source.connect("pad-added", self._added)
        bus = self.pipeline.get_bus()
        bus.add_signal_watch()
        bus.connect("message", self._heard)
        GLib.timeout_add(LONGEST * 1000, self._stop, "it doesn't end")
        self.words = words
        self.has_begun = False

    def run(self) -> None:
        self.pipeline.set_state(Gst.State.PLAYING)
        self.loop.run()
        self.pipeline.set_state(Gst.State.NULL)

    def _added(self, _source: Any, pad: Any) -> None:
        caps = (pad.get_current_caps() or pad.query_caps()).get_structure(0)
        media = caps.get_string("media")
        if caps.get_int("payload")[1] != FIRST_PAYLOAD_TYPE[media]:
            # Of two sounds the second is played to nobody.
            rest = Gst.parse_bin_from_description("fakesink sync=false async=false", True)
            self.pipeline.add(rest)
            rest.sync_state_with_parent()
            pad.link(rest.get_static_pad("sink"))
            return
        depayloader = DEPAYLOADERS[self.film.picture if media == "video" else self.film.sound]
        sink = "appsink name=taken emit-signals=true sync=false async=false max-buffers=0"
        part = Gst.parse_bin_from_description(f"{depayloader} ! {sink}", True)
        part.get_by_name("taken").connect("new-sample", self._take, media)
        self.pipeline.add(part)
        part.sync_state_with_parent()
        pad.link(part.get_static_pad("sink"))

    def _take(self, sink: Any, media: str) -> Any:
        sample = sink.emit("pull-sample")
        buffer = sample.get_buffer()
        shown = sample.get_segment().to_running_time(Gst.Format.TIME, buffer.pts)
        if media == "video" and not self.has_begun:
            self._begin()
        self.came[media].append(Came(buffer.extract_dup(0, buffer.get_size()), shown / 1e9))
        return Gst.FlowReturn.OK

    def _begin(self) -> None:
        """The first picture has come, so all is there that a seek and a pause go through."""
        self.has_begun = True
        if self.words.seek:
            GLib.timeout_add(int(self.words.seek[1] * 1000), self._seek, self.words.seek[0])
        if self.words.pause:
            GLib.timeout_add(int(self.words.pause[0] * 1000), self._pause, self.words.pause[1])

    def _heard(self, _bus: Any, message: Any) -> None:
        if message.type == Gst.MessageType.EOS:
            self._stop("the end")
        elif message.type == Gst.MessageType.ERROR:
            self._stop(str(message.parse_error()[0].message))

    def _stop(self, why: str) -> bool:
        self.end = why
        self.loop.quit()
        return False

    def _seek(self, second: float) -> bool:
        self.came = {"video": [], "audio": []}
        if not self.pipeline.seek_simple(Gst.Format.TIME, Gst.SeekFlags.FLUSH, int(second * 1e9)):
            self._stop("the seek was refused")
        return False

    def _pause(self, seconds: float) -> bool:
        self.pipeline.set_state(Gst.State.PAUSED)
        GLib.timeout_add(int(seconds * 1000), self._resume)
        return False

    def _resume(self) -> bool:
        self.pipeline.set_state(Gst.State.PLAYING)
        return False


def offsets(play: Play) -> Tuple[List[Tuple[float, float]], List[Tuple[float, float]]]:
    """Of each picture and of each frame of sound its time in the film, and how much later it is shown."""
    film = play.film
    pictures = []
    for came in play.came["video"]:
        units = pictures_in(units_of(came.content), film.picture)
        number = film.begins.get(digest(units[0])) if units else None
        if number is not None:
            pictures.append((film.picture_times[number], came.shown - film.picture_times[number]))
    places = {it: at for at, it in enumerate(film.frames)}
    sounds = []
    for at, came in enumerate(play.came["audio"]):
        place = places.get(digest(came.content)) if film.frames else at
        if place is not None and place < len(film.sound_times):
            sounds.append((film.sound_times[place], came.shown - film.sound_times[place]))
    return sorted(pictures), sorted(sounds)


def lip_sync(play: Play) -> List[Tuple[float, float]]:
    """By the times of pictures in the film, how many milliseconds each is shown later than the sound of its time."""
    pictures, sounds = offsets(play)
    at = [time_in_film for time_in_film, _ in sounds]
    found = []
    for time_in_film, late in pictures:
        place = bisect.bisect_left(at, time_in_film)
        if place < len(sounds):
            found.append((time_in_film, (late - sounds[place][1]) * 1000))
    return found


def said_of(play: Play) -> Dict[str, Any]:
    film = play.film
    units = [digest(it) for came in play.came["video"] for it in pictures_in(units_of(came.content), film.picture)]
    frames = [digest(came.content) for came in play.came["audio"]]
    first: Optional[int] = film.units.index(units[0]) if units and units[0] in film.units else None
    begins = film.frames.index(frames[0]) if frames and frames[0] in film.frames else 0
    return {
        "end": play.end,
        "pictures": len(play.came["video"]),
        "pictures_wanted": len(film.picture_times),
        "same_pictures": first is not None and units == film.units[first : first + len(units)],
        "first_unit": first,
        "sounds": len(frames),
        "sounds_wanted": len(film.sound_times),
        "first_sound": begins,
        "same_sounds": not film.frames or frames == film.frames[begins : begins + len(frames)],
        "lip_sync": lip_sync(play),
    }


def main() -> None:
    parser = argparse.ArgumentParser(description=__doc__)
    parser.add_argument("url")
    parser.add_argument("film", type=pathlib.Path)
    parser.add_argument("protocol", choices=("udp", "tcp"))
    parser.add_argument("--seek", type=float, nargs=2, metavar=("SECOND", "AT"))
    parser.add_argument("--pause", type=float, nargs=2, metavar=("AT", "FOR"))
    words = parser.parse_args()
    Gst.init(None)
    play = Play(read_film(words.film), words)
    play.run()
    print(json.dumps(said_of(play)))


if __name__ == "__main__":
    main()
