"""Where a play goes beside its counts: sound as a .wav, a track as it comes, all tracks as a film, another program."""
import pathlib
import shutil
import subprocess
import sys
import time
from typing import List, NamedTuple, Optional, Union

from .connection import Refused
from .elementary import Elementary, elementary_of
from .files import NewFile, Pipe
from .frames import Frame, Frames, has_frames
from .matroska import Matroska, fits
from .parameters import of_track
from .payload import InOrder, PayloadWriter
from .player import Player, Stream, Track
from .receiver import description_for, is_taken
from .sound import DECODED, Sound, little_endian, samples_of, wav_head, write_wav
from .stopping import Stop

# A receiver that has taken its first port may need so many seconds for the others.
SETTLES = 0.3
# What a film is called as a file: by ffmpeg, which takes a stream of Matroska, or as that.
FILMS = (".mkv", ".mka", ".mp4", ".m4a", ".mov", ".webm")
STREAMED = (".mkv", ".mka")


class Out(NamedTuple):
    """What is written: a file, or standard output, and what it is called."""

    to: Union[NewFile, Pipe]
    name: str

    @property
    def is_pipe(self) -> bool:
        return isinstance(self.to, Pipe)

    @property
    def told(self) -> str:
        return "standard output" if self.is_pipe else self.name

    @property
    def suffix(self) -> str:
        return pathlib.PurePath(self.name).suffix.lower()

    def write(self, piece: bytes) -> None:
        if isinstance(self.to, Pipe):
            self.to.write(piece)
        else:
            self.to.file.write(piece)

    def flush(self) -> None:
        if isinstance(self.to, Pipe):
            self.to.flush()
        else:
            self.to.file.flush()


def count(number: int, what: str) -> str:
    return f"{number:,} {what}{'' if number == 1 else 's'}"


class Sink:
    """Nowhere, until a kind of it says more."""

    def say(self, text: str) -> None:
        print(text, flush=True)

    def chosen(self, tracks: List[Track]) -> List[Track]:
        """The tracks that it takes."""
        return tracks

    def ready(self, player: Player) -> None:
        """The tracks are set up, and none of them is played yet."""

    @property
    def is_gone(self) -> bool:
        """Whether nobody takes anything any more."""
        return False

    def end(self, player: Player) -> None:
        """No more comes, however that is."""

    def finish(self, player: Player) -> None:
        """The play has ended, or ^C ended it."""


class WavSink(Sink):
    """The sound of all tracks that are known, as a .wav."""

    def __init__(self, out: NewFile, name: str) -> None:
        self.out = out
        self.name = name

    @staticmethod
    def sounding(streams: List[Stream]) -> List[Stream]:
        """The streams that are decoded: those of the first one's clock."""
        known = [stream for stream in streams if stream.track.encoding.upper() in DECODED]
        return [stream for stream in known if stream.track.clock == known[0].track.clock]

    def ready(self, player: Player) -> None:
        if not self.sounding(player.streams):
            raise Refused("no track is PCMU, PCMA or L16, so there is no sound to write; another FILE gets payload")

    def finish(self, player: Player) -> None:
        decoded = self.sounding(player.streams)
        sounds = [Sound(stream.track.encoding.upper(), stream.track.channels) for stream in decoded]
        for stream, sound in zip(decoded, sounds):
            for packet in stream.reception.packets:
                sound.put(stream.reception.tick_of(packet), packet.payload)
        channels = [it for sound in sounds for it in sound.channels]
        length = write_wav(self.out.file, decoded[0].track.clock, channels)
        self.out.keep()
        rate = f"{decoded[0].track.clock:,} samples a second"
        self.say(f"wrote {self.name}: {length:.3f} s, {count(len(channels), 'channel')} of {rate}")


class OutSink(Sink):
    """What is written while it comes."""

    def __init__(self, out: Out) -> None:
        self.out = out
        self.orders: List[InOrder] = []

    def say(self, text: str) -> None:
        print(text, file=sys.stderr if self.out.is_pipe else sys.stdout, flush=True)

    @property
    def is_gone(self) -> bool:
        return isinstance(self.out.to, Pipe) and self.out.to.is_gone

    def keep(self, octets: int) -> None:
        self.out.flush()
        if isinstance(self.out.to, NewFile) and octets:
            self.out.to.keep()


class PayloadSink(OutSink):
    """One track: its elementary stream where it has one, else its payload, as it comes."""

    def __init__(self, out: Out) -> None:
        super().__init__(out)
        self.writer = PayloadWriter(out.to if isinstance(out.to, Pipe) else out.to.file)
        self.frames: Optional[Frames] = None

    def chosen(self, tracks: List[Track]) -> List[Track]:
        return tracks[:1]

    def ready(self, player: Player) -> None:
        stream = player.streams[0]
        track = stream.track
        elementary = elementary_of(track, of_track(player.description, track)) if has_frames(track) else None
        encoding = track.encoding.upper()
        if elementary:
            self.frames = self._frames_to(stream, elementary)
            order = InOrder(self.frames.take)
        else:
            order = InOrder(self.writer.take)
        self.orders.append(order)
        stream.reception.taker = order.take
        if self.out.is_pipe and encoding in DECODED:
            # Of bare samples no player knows what they are.
            self.out.write(wav_head(track.clock, track.channels))
            self.writer.form = lambda payload: little_endian(samples_of(encoding, payload))

    def _frames_to(self, stream: Stream, elementary: Elementary) -> Frames:
        before = elementary.before

        def write(frame: Frame) -> None:
            nonlocal before
            piece, before = before + elementary.form(frame), b""
            self.out.write(piece)
            self.writer.octets += len(piece)

        return Frames(stream.track, lambda: stream.reception.first_timestamp, write)

    def end(self, player: Player) -> None:
        for order in self.orders:
            order.end()
        if self.frames:
            self.frames.end()
        self.keep(self.writer.octets)
        track = player.streams[0].track
        self.say(f"wrote {self.out.told}: {count(self.writer.octets, 'octet')} of {track.name}, {track.encoding}")


class Remaking:
    """ffmpeg, which makes a file of a stream of Matroska, by its name."""

    def __init__(self, out: NewFile, suffix: str) -> None:
        out.file.close()
        form = ["-f", "matroska"] if suffix in STREAMED else ["-f", "ipod" if suffix == ".m4a" else suffix[1:]]
        command = ["ffmpeg", "-hide_banner", "-v", "error", "-f", "matroska", "-i", "pipe:0", "-map", "0", "-c", "copy"]
        # A stop is for the play, which ends the stream.
        pipes = {"stdin": subprocess.PIPE, "stdout": subprocess.DEVNULL, "stderr": subprocess.PIPE}
        path = f"file:{out.unfinished or out.path}"
        self.running = subprocess.Popen([*command, *form, "-y", path], start_new_session=True, **pipes)
        self.pipe = Pipe(self.running.stdin)

    def end(self) -> None:
        self.pipe.flush()
        _, complaint = self.running.communicate()
        if self.running.returncode:
            lines = complaint.decode(errors="replace").strip().splitlines()
            raise Refused(f"ffmpeg makes no file of it: {lines[-1] if lines else self.running.returncode}")


class FilmSink(OutSink):
    """All tracks as one film: a stream of Matroska, of which ffmpeg makes a file where it is there."""

    def __init__(self, out: Out) -> None:
        super().__init__(out)
        self.remaking: Optional[Remaking] = None
        self.matroska: Optional[Matroska] = None
        self.frames: List[Frames] = []

    def ready(self, player: Player) -> None:
        tracks = [stream.track for stream in player.streams]
        for track in tracks:
            if not fits(track):
                raise Refused(f"no film is made of {track.encoding}; --track chooses another one")
        if isinstance(self.out.to, NewFile) and shutil.which("ffmpeg"):
            self.remaking = Remaking(self.out.to, self.out.suffix)
        elif not self.out.is_pipe and self.out.suffix not in STREAMED:
            raise Refused(f"the program ffmpeg isn't on the PATH, which a {self.out.suffix} takes; a .mkv does without")
        write = self.remaking.pipe.write if self.remaking else self.out.write
        matroska = self.matroska = Matroska(write, player.description, tracks)
        for place, stream in enumerate(player.streams):
            self._take(stream, place, matroska)

    def _take(self, stream: Stream, place: int, matroska: Matroska) -> None:
        frames = Frames(stream.track, lambda: stream.reception.first_timestamp, lambda it: matroska.take(place, it))
        order = InOrder(frames.take)
        self.frames.append(frames)
        self.orders.append(order)
        stream.reception.taker = order.take

    def end(self, player: Player) -> None:
        if not self.matroska:
            return
        for order, frames in zip(self.orders, self.frames):
            order.end()
            frames.end()
        self.matroska.end()
        came = sum(self.matroska.frames)
        if self.remaking:
            self.remaking.end()
        else:
            self.out.flush()
        if isinstance(self.out.to, NewFile) and came:
            self.out.to.keep()
        names = [stream.track.name for stream in player.streams]
        parts = [f"{count(many, 'frame')} of {name}" for many, name in zip(self.matroska.frames, names)]
        self.say(f"wrote {self.out.told}: {' and '.join(parts)}")


class ReceiverSink(Sink):
    """Another program, which gets the packets by a description."""

    def __init__(self, out: NewFile, name: str) -> None:
        self.out = out
        self.name = name

    def ready(self, player: Player) -> None:
        host = player.connection.socket.getsockname()[0]
        self.out.file.write(description_for(player.description, host, player.streams).encode())
        self.out.keep()
        command = f"ffplay -protocol_whitelist file,rtp,udp -i {self.name}"
        self.say(f"wrote {self.name}; waiting for a receiver, as {command}")
        has_come = lambda: any(is_taken(stream.ports.port) for stream in player.streams)
        with Stop() as stop:
            player.hold(lambda: stop.is_asked or has_come())
        if stop.is_asked:
            player.tear_down()
            raise KeyboardInterrupt
        time.sleep(SETTLES)


def is_film(tracks: List[Track]) -> bool:
    """Whether tracks go to a pipe as a film: there is more than sound that a .wav has."""
    return all(map(fits, tracks)) and any(it.encoding.upper() not in DECODED for it in tracks)
