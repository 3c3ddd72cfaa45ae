"""A film as it is: its picture and each of its sounds become a track of packets."""
import pathlib
from typing import List, NamedTuple, Optional

from .configuration import Configuration, MadeFilm, MediaFile, Refused
from .media import Source
from .packets import SOUND_ANEW, Encoding, FilmStream, Packets, packetize, picture_anew, streams_of
from .slots import Plan, film_of, plans, write_film

MOST_TRACKS = 8


class Asked(NamedTuple):
    """What is asked of a film: the rate of its picture, whether that is encoded anew, and how late a packet may be."""

    megabits: Optional[float]
    anew: bool
    late_ms: int


class Film:
    """A film that is imported under a name."""

    def __init__(self, source: Source, name: str, asked: Asked) -> None:
        self.source, self.name, self.asked = source, name, asked

    def __str__(self) -> str:
        return f"{self.source.path} as {self.name}"

    def take(self, configuration: Configuration) -> MadeFilm:
        """Makes its media in the configuration's folder, and adds it; what fails leaves nothing."""
        folder = configuration.folder
        streams = streams_of(self.source.path, MOST_TRACKS)
        folder.mkdir(parents=True, exist_ok=True)
        found = plans([self._packets_of(stream, folder) for stream in streams], self.asked.late_ms)
        made = film_of(self.name, found)
        self._tell_uplink(made, found, configuration.document["server"]["uplink"], str(configuration.path))
        files = [MediaFile(folder / f".{part.file}.part", part.file) for part in made.parts]
        for file in files:
            if (folder / file.name).exists():
                raise Refused(f"{folder / file.name} is there already")
        try:
            write_film(made, found, [file.unfinished for file in files])
            configuration.add(made, files)
        finally:
            for file in files:
                file.unfinished.unlink(missing_ok=True)
        return made

    def _tell_uplink(self, made: MadeFilm, found: List[Plan], uplink: int, path: str) -> None:
        """What it takes of the uplink beside its mean, before its media is written."""
        mean = sum(it.mean for it in found) / 1e6
        held = made.rate / 1e6
        if made.rate > uplink:
            rather = f"--mbit {max(uplink / 2e6, 0.1):.3g} makes less of it"
            raise Refused(f"{self.source.path} takes {held:.3f} Mbit/s, more than the uplink of {path}; {rather}")
        print(f"{self}: it takes {held:.3f} Mbit/s of the uplink, and {mean:.3f} in the mean", flush=True)

    def _packets_of(self, stream: FilmStream, folder: pathlib.Path) -> Packets:
        """The packets of a stream: as it is, or encoded anew where that is asked for or can't be helped."""
        is_picture = stream.media == "video"
        anew = picture_anew(self.asked.megabits) if is_picture else SOUND_ANEW
        if is_picture and (self.asked.anew or self.asked.megabits is not None):
            return self._packetized(stream, anew, folder)
        if stream.is_taken:
            try:
                return self._packetized(stream, None, folder)
            except Refused:
                pass
        print(f"{self}: nobody packs {stream.codec}, so it is encoded anew as {anew.codec}", flush=True)
        return self._packetized(stream, anew, folder)

    def _packetized(self, stream: FilmStream, anew: Optional[Encoding], folder: pathlib.Path) -> Packets:
        return packetize(self.source, str(self), stream, anew, folder)
