"""Media in units, made of films and sound by ffmpeg."""
import json
import os
import pathlib
import re
import shutil
import subprocess
import sys
import tempfile
import time
from typing import IO, Any, Dict, List, NamedTuple, Optional

from .configuration import Made, Refused

MOST_UNITS, MOST_UNIT_MS = 10_000_000, 1000
# What ffmpeg makes films of, and nobody else: a picture, and a text as on a terminal.
NO_FILMS = re.compile(r"image2.*|.*_pipe|tty|gif")
# A packet of a transport stream (ISO 13818-1), and one that stands for nothing.
PACKET = 188
NULL_PACKET = bytes([0x47, 0x1F, 0xFF, 0x10]) + b"\xff" * (PACKET - 4)
# A unit of a film: seven packets, as usual over RTP (RFC 2250).
UNIT = 7 * PACKET
# The rate of units of one millisecond, in bits a second.
FASTEST = UNIT * 8000
# Milliseconds of a unit by the lines of a picture, up to so many; more lines have 1.
BY_LINES = (480, 7), (720, 4), (1080, 2)
WITHOUT_PICTURES = 32
# What a rate that was asked for may differ from one that fits.
TOLERANCE = 0.02
SOUND_RATE, SOUND_LAYER = 192_000, "mp2"
# Pictures that are taken as they are, where they fit: what all players decode.
KEPT_CODECS, KEPT_FORMS = ("h264", "mpeg2video"), ("yuv420p", "yuvj420p")
# What ffmpeg complains of where a packet comes later than it is shown, so that the rate is too small.
TOO_LATE = "dts < pcr"
# So much of what ffmpeg complains of is looked at while it runs, in octets.
MOST_SEEN = 65_536
# Pictures of changing rate fit into so many times what they take in the middle, most times.
PEAK = 1.5
# The part of a transport stream that is for pictures and sound; packets, tables and padding take the others.
USED = 0.85


class Sound(NamedTuple):
    """An encoding of sound: one unit is a packet."""

    encoding: str
    pt: int
    clock: int
    channels: int
    octets: int
    unit_ms: int
    ffmpeg: str
    silence: bytes


SOUNDS = {
    "l16": Sound("L16", 96, 48_000, 2, 960, 5, "s16be", b"\0"),
    "pcmu": Sound("PCMU", 0, 8_000, 1, 160, 20, "mulaw", b"\xff"),
    "pcma": Sound("PCMA", 8, 8_000, 1, 160, 20, "alaw", b"\xd5"),
}


def mbit(unit_ms: int) -> str:
    return f"{FASTEST / unit_ms / 1e6:.3f}"


def unit_for(megabits: float) -> int:
    """The milliseconds of a unit at which a film has this rate."""
    near = min(max(round(FASTEST / 1e6 / megabits), 1), MOST_UNIT_MS)
    if abs(FASTEST / near / 1e6 / megabits - 1) <= TOLERANCE:
        return near
    if megabits * 1e6 > FASTEST:
        raise Refused(f"--mbit {megabits:g} doesn't fit: a track carries at most {mbit(1)}")
    if megabits * 1e6 * MOST_UNIT_MS < FASTEST:
        raise Refused(f"--mbit {megabits:g} doesn't fit: {mbit(MOST_UNIT_MS)} is the least that does")
    above = int(FASTEST / 1e6 / megabits)
    raise Refused(f"--mbit {megabits:g} doesn't fit: {mbit(above + 1)} would, and {mbit(above)}")


class Progress:
    """A line that tells how far it is."""

    def __init__(self, name: str, seconds: Optional[float]) -> None:
        self.name = name
        self.seconds = seconds
        self.told = time.monotonic()
        self.is_terminal = sys.stderr.isatty()

    def at(self, seconds: float) -> None:
        if time.monotonic() - self.told < (0.2 if self.is_terminal else 10.0):
            return
        self.told = time.monotonic()
        part = f"{min(seconds / self.seconds, 1):4.0%}" if self.seconds else f"{seconds:,.0f} s"
        before, after = ("\r", "") if self.is_terminal else ("", "\n")
        print(f"{before}{self.name}: {part}", end=after, file=sys.stderr, flush=True)

    def end(self) -> None:
        if self.is_terminal:
            print("\r\x1b[K", end="", file=sys.stderr, flush=True)


class Source(NamedTuple):
    """What ffmpeg finds in a file."""

    path: pathlib.Path
    seconds: Optional[float]
    # The lines of its picture, or its columns, where it stands upright: what is fewer.
    lines: Optional[int]
    has_sound: bool
    # Whether its pictures are such as may be taken as they are.
    may_keep: bool = False
    # Bits a second, in the middle.
    rate: float = 0.0


def probe(path: pathlib.Path) -> Optional[Source]:
    """What is in a file; None where ffmpeg reads neither pictures nor sound in it."""
    command = ["ffprobe", "-v", "error", "-show_streams", "-show_format", "-of", "json", f"file:{path.resolve()}"]
    done = subprocess.run(command, capture_output=True, stdin=subprocess.DEVNULL)
    found = json.loads(done.stdout or b"{}") if done.returncode == 0 else {}
    streams = found.get("streams", [])
    is_cover = lambda stream: stream.get("disposition", {}).get("attached_pic") == 1
    pictures = [it for it in streams if it.get("codec_type") == "video" and not is_cover(it)]
    has_sound = any(it.get("codec_type") == "audio" for it in streams)
    described = found.get("format", {})
    if NO_FILMS.fullmatch(described.get("format_name", "")) or not (pictures or has_sound):
        return None
    length = float(described["duration"]) if "duration" in described else None
    sides = [pictures[0][it] for it in ("width", "height") if pictures[0].get(it)] if pictures else []
    may_keep = bool(pictures) and may_be_kept(pictures[0])
    return Source(path, length, min(sides, default=None), has_sound, may_keep, float(described.get("bit_rate", 0)))


def may_be_kept(pictures: Dict[str, Any]) -> bool:
    """Whether all players show them as they are; that they have to be turned stands beside them, and would be lost."""
    turned = [it.get("rotation") for it in pictures.get("side_data_list", [])]
    turned.append(int(pictures.get("tags", {}).get("rotate", 0)))
    return pictures.get("codec_name") in KEPT_CODECS and pictures.get("pix_fmt") in KEPT_FORMS and not any(turned)


class Asked(NamedTuple):
    """What is asked of a film: its rate, and whether its pictures are encoded anew in any case."""

    megabits: Optional[float]
    anew: bool


class Plan:
    """What is to be made of a source, under which name; refused where it is too long."""

    def __init__(self, source: Source, name: str, kind: str, asked: Asked) -> None:
        self.source, self.name, self.kind = source, name, kind
        self.keeps = source.may_keep and not asked.anew
        megabits = asked.megabits
        self.unit_ms = unit_of(source, megabits) if kind == "ts" else SOUNDS[kind].unit_ms
        self.octets = UNIT if kind == "ts" else SOUNDS[kind].octets
        self.units = (source.seconds or 0) * 1000 / self.unit_ms
        if self.units > MOST_UNITS:
            least = -(-int((source.seconds or 0) * 1000) // MOST_UNITS)
            rather = f"--mbit {mbit(least)}" if kind == "ts" else "--as ts"
            raise Refused(f"{source.path} is too long for units of {self.unit_ms} ms; {rather} would do")

    def __str__(self) -> str:
        return f"{self.source.path} as {self.name}"

    def has_room(self, folder: pathlib.Path) -> None:
        """Refuses what the disk of a folder, which may not be there yet, has no room for."""
        there = next(it for it in (folder.absolute(), *folder.absolute().parents) if it.is_dir())
        needed, free = int(self.units * self.octets), shutil.disk_usage(there).free
        if needed > free:
            raise Refused(f"{self.source.path} becomes {needed / 1e6:,.1f} MB, and {folder} has room for {free / 1e6:,.1f}")


def ffmpeg(source: Source, told: str, words: List[str], gives_up_at: str = "") -> str:
    """Runs ffmpeg over a source, with its progress under the name that is told, and returns what it complained of; at
    one complaint it may end at once."""
    command = ["ffmpeg", "-hide_banner", "-nostdin", "-v", "warning", "-nostats", "-progress", "pipe:1"]
    # A name may look like an option, or like a URI.
    command += ["-i", f"file:{source.path.resolve()}", "-sn", "-dn", "-map_metadata", "-1", *words]
    progress = Progress(told, source.seconds)
    with tempfile.TemporaryFile("w+", errors="replace") as complaints:
        pipes = {"stdin": subprocess.DEVNULL, "stdout": subprocess.PIPE, "stderr": complaints, "text": True}
        with subprocess.Popen(command, **pipes) as running:
            try:
                for line in running.stdout:
                    at = re.fullmatch(r"out_time_us=(\d+)", line.strip())
                    if at:
                        progress.at(int(at[1]) / 1e6)
                    if gives_up_at and gives_up_at in written_to(complaints):
                        running.kill()
                        return gives_up_at
            except BaseException:
                running.kill()
                raise
            finally:
                progress.end()
        complaints.seek(0)
        said = complaints.read()
    if running.returncode:
        lines = [line.strip() for line in said.splitlines() if line.strip()]
        why = lines[-1] if lines else f"status {running.returncode}"
        raise Refused(f"ffmpeg makes nothing of {source.path}: {why}")
    return said


def ffmpeg_into(out: pathlib.Path, plan: Plan, words: List[str], gives_up_at: str = "") -> str:
    """The same, into a file."""
    return ffmpeg(plan.source, str(plan), [*words, "-y", f"file:{out.absolute()}"], gives_up_at)


def written_to(complaints: IO[str]) -> str:
    """What another program has written to a file so far."""
    return os.pread(complaints.fileno(), MOST_SEEN, 0).decode(errors="replace")


def pictures_by() -> List[str]:
    """How pictures are encoded: by H.264 where this ffmpeg can, else by MPEG-2."""
    done = subprocess.run(["ffmpeg", "-hide_banner", "-v", "quiet", "-encoders"], capture_output=True, text=True)
    if " libx264 " in done.stdout:
        return ["-c:v", "libx264", "-preset", "veryfast", "-profile:v", "main"]
    return ["-c:v", "mpeg2video"]


def film_words(source: Source, unit_ms: int, keeps: bool) -> List[str]:
    """What makes a transport stream of one rate."""
    whole = FASTEST // unit_ms
    sound = min(SOUND_RATE, whole // 8 // 32_000 * 32_000 or 32_000) if source.has_sound else 0
    picture = int(whole * USED - sound * 1.1)
    # Pictures that aren't the cover of a song.
    words = ["-map", "0:V:0"] if source.lines else []
    words += ["-map", "0:a:0"] if source.has_sound else []
    if source.lines and keeps:
        words += ["-c:v", "copy"]
    elif source.lines:
        if picture < 50_000:
            raise Refused(f"{mbit(unit_ms)} Mbit/s is too little for pictures")
        # Pictures of this form have an even width and height.
        words += ["-vf", "scale=trunc(iw/2)*2:trunc(ih/2)*2", "-pix_fmt", "yuv420p"]
        words += [*pictures_by(), "-force_key_frames", "expr:gte(t,n_forced)"]
        words += ["-b:v", str(picture), "-maxrate", str(picture), "-bufsize", str(picture // 2)]
    if source.has_sound:
        words += ["-c:a", SOUND_LAYER, "-b:a", str(sound), "-ar", "48000", "-ac", "2" if sound >= 64_000 else "1"]
    return [*words, "-f", "mpegts", "-muxrate", str(whole), "-pcr_period", "20"]


def unit_of(source: Source, megabits: Optional[float]) -> int:
    if megabits is not None:
        return unit_for(megabits)
    lines = source.lines
    return WITHOUT_PICTURES if lines is None else next((unit_ms for most, unit_ms in BY_LINES if lines <= most), 1)


def fits_as_it_is(plan: Plan, out: pathlib.Path) -> bool:
    """Whether a film was made with its pictures as they are. If not, it says why they have to be encoded."""
    try:
        if TOO_LATE not in ffmpeg_into(out, plan, film_words(plan.source, plan.unit_ms, True), TOO_LATE):
            return True
        why = f"don't fit into {mbit(plan.unit_ms)} Mbit/s as they are"
        enough = int(FASTEST / plan.source.rate / PEAK) if plan.source.rate else 0
        rather = f"; --mbit {mbit(enough)} may keep them" if 0 < enough < plan.unit_ms else ""
    except Refused:
        why, rather = "can't be taken as they are", ""
    print(f"{plan}: its pictures {why}, so they are encoded anew{rather}", flush=True)
    return False


def make_film(plan: Plan, out: pathlib.Path) -> Made:
    source, unit_ms = plan.source, plan.unit_ms
    plan.keeps = plan.keeps and fits_as_it_is(plan, out)
    said = "" if plan.keeps else ffmpeg_into(out, plan, film_words(source, unit_ms, False))
    length = out.stat().st_size
    if TOO_LATE in said:
        # So much it takes, or a tenth more than it was given.
        needed = max(length * 8 / (source.seconds or 1), FASTEST / unit_ms * 1.1)
        rather = f"--mbit {mbit(int(FASTEST / needed))} would" if needed <= FASTEST else "no rate of a track would"
        raise Refused(f"{source.path} doesn't fit into {mbit(unit_ms)} Mbit/s; {rather}")
    with out.open("ab") as padded:
        padded.write(NULL_PACKET * (-(-length // UNIT) * UNIT // PACKET - length // PACKET))
    units = out.stat().st_size // UNIT
    if not units or out.stat().st_size % UNIT:
        raise Refused(f"ffmpeg made {length:,} octets of {source.path}, which are no packets")
    return Made(plan.name, "ts", "video", 33, "MP2T", 90_000, UNIT, unit_ms, units)


def make_sound(plan: Plan, out: pathlib.Path) -> Made:
    sound = SOUNDS[plan.kind]
    words = ["-map", "0:a:0", "-vn", "-f", sound.ffmpeg, "-ar", str(sound.clock), "-ac", str(sound.channels)]
    ffmpeg_into(out, plan, words)
    length = out.stat().st_size
    if not length:
        raise Refused(f"ffmpeg made no sound of {plan.source.path}")
    with out.open("ab") as padded:
        padded.write(sound.silence * (-length % sound.octets))
    units = -(-length // sound.octets)
    fixed = sound.encoding, sound.clock, sound.octets, sound.unit_ms, units, sound.channels
    return Made(plan.name, "sound", "audio", sound.pt, *fixed)
