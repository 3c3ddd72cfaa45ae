"""The configuration that presentations are added to."""
import contextlib
import json
import os
import pathlib
import re
import signal
import subprocess
import sys
import tempfile
import tomllib
from typing import Any, Callable, Dict, Iterator, List, NamedTuple, Sequence, Set, Union

from command import STOPS, called, is_installed

EXPLAIN = pathlib.Path(__file__).resolve().parent.parent.parent / "explain-configuration"
# What explain-configuration ends with where the program takes a configuration, whether or not its files are there.
TAKEN = (0, 3)
NAME = re.compile(r"[a-z0-9_-]{1,64}")
MOST_PRESENTATIONS = 256
# IP, UDP and RTP, as the server counts them into a stream's rate.
HEADERS = 40
# The sender reports of a track whose units have several packets, in bits a second.
REPORT_RATE = 576
NEW_CONFIGURATION = """\
[server]
first_port = 5000
pairs = 1024
uplink = 1000000000
sessions = 512
media = "media"
# Other players are answered as without it.
players = "gstreamer"
"""


def new_configuration() -> str:
    keys = "rtspd.toml(5)" if is_installed() else "docs/REFERENCE.md"
    return f"# Made by {called('examples/import')}. {keys} says what the keys mean.\n{NEW_CONFIGURATION}"


@contextlib.contextmanager
def unstopped() -> Iterator[None]:
    """Holds a stop back, which would leave the one of two files without the other."""
    before = signal.pthread_sigmask(signal.SIG_BLOCK, STOPS)
    try:
        yield
    finally:
        signal.pthread_sigmask(signal.SIG_SETMASK, before)


class Refused(Exception):
    """Why it doesn't go on, in one line."""


def allowed(users: Sequence[str]) -> List[str]:
    """The line of those for whom a presentation is there, where that isn't everybody."""
    return [f"allow = {json.dumps(list(users), ensure_ascii=False)}"] if users else []


class Made(NamedTuple):
    """What was made of a file: a presentation of one track."""

    name: str
    track: str
    media: str
    pt: int
    encoding: str
    clock: int
    octets: int
    unit_ms: int
    units: int
    channels: int = 1

    @property
    def rate(self) -> int:
        """Bits a second of the uplink."""
        return -(-(self.octets + HEADERS) * 8000 // self.unit_ms)

    @property
    def seconds(self) -> float:
        return self.units * self.unit_ms / 1000

    @property
    def tracks(self) -> int:
        return 1

    @property
    def file(self) -> str:
        return f"{self.name}.{'ts' if self.encoding == 'MP2T' else self.encoding.lower()}"

    def table(self, named: Callable[[str], str], users: Sequence[str]) -> str:
        lines = ["", "[[presentation]]", f'name = "{self.name}"', f"units = {self.units}", f"unit_ms = {self.unit_ms}"]
        lines += allowed(users)
        lines += ["[[presentation.track]]", f'name = "{self.track}"', f'media = "{self.media}"', f"pt = {self.pt}"]
        lines += [f'encoding = "{self.encoding}"', f"clock = {self.clock}", f"octets = {self.octets}"]
        lines += [f"ticks = {self.clock * self.unit_ms // 1000}", f"file = {json.dumps(named(self.file))}"]
        lines += [f"channels = {self.channels}"] if self.channels > 1 else []
        return "".join(f"{line}\n" for line in lines)


class FilmTrack(NamedTuple):
    """A track whose units are slots of packets."""

    name: str
    media: str
    pt: int
    encoding: str
    clock: int
    packets: int
    octets: int
    ticks: int
    file: str
    fmtp: str
    channels: int

    def rate(self, unit_ms: int) -> int:
        return -(-(self.octets + HEADERS * self.packets) * 8000 // unit_ms) + REPORT_RATE

    def table(self, named: Callable[[str], str]) -> List[str]:
        lines = ["[[presentation.track]]", f'name = "{self.name}"', f'media = "{self.media}"', f"pt = {self.pt}"]
        lines += [f'encoding = "{self.encoding}"', f"clock = {self.clock}", f"packets = {self.packets}"]
        lines += [f"octets = {self.octets}", f"ticks = {self.ticks}", f"file = {json.dumps(named(self.file))}"]
        lines += [f"fmtp = {json.dumps(self.fmtp)}"] if self.fmtp else []
        return lines + ([f"channels = {self.channels}"] if self.channels > 1 else [])


class MadeFilm(NamedTuple):
    """A film as it is: a presentation of a picture and of each sound."""

    name: str
    unit_ms: int
    units: int
    starts: List[int]
    parts: List[FilmTrack]

    @property
    def rate(self) -> int:
        return sum(part.rate(self.unit_ms) for part in self.parts)

    @property
    def tracks(self) -> int:
        return len(self.parts)

    @property
    def seconds(self) -> float:
        return self.units * self.unit_ms / 1000

    @property
    def encoding(self) -> str:
        return " and ".join(part.encoding for part in self.parts)

    def table(self, named: Callable[[str], str], users: Sequence[str]) -> str:
        lines = ["", "[[presentation]]", f'name = "{self.name}"', f"units = {self.units}", f"unit_ms = {self.unit_ms}"]
        lines += allowed(users)
        lines += [f"starts = {self.starts}"] if self.starts else []
        lines += [line for part in self.parts for line in part.table(named)]
        return "".join(f"{line}\n" for line in lines)


class MediaFile(NamedTuple):
    """A file of media under the name that it has while it is made, and the one that it gets."""

    unfinished: pathlib.Path
    name: str


# The head of a presentation, and of any other table that isn't of one.
PRESENTATION = re.compile(r"(?m)^[ \t]*\[\[[ \t]*presentation[ \t]*\]\]")
OTHER = re.compile(r"(?m)^[ \t]*\[(?!\[?[ \t]*presentation\b)")


def without(text: str, name: str) -> str:
    """The text of a configuration without the tables of a presentation, and without the empty lines before them."""
    heads = [*PRESENTATION.finditer(text)]
    for head, end in zip(heads, [*(it.start() for it in heads[1:]), len(text)]):
        other = OTHER.search(text, head.end(), end)
        part = text[head.start() : other.start() if other else end]
        if tomllib.loads(part)["presentation"][0].get("name") == name:
            before = text[: head.start()].rstrip("\n")
            behind = text[head.start() + len(part) :]
            return before + "\n" + ("\n" if behind else "") + behind
    return text


class Configuration:
    """The configuration that presentations are added to."""

    def __init__(self, path: pathlib.Path, users: Sequence[str] = ()) -> None:
        """What is added is there for these users alone, if some are given."""
        self.path = path
        self.users = users
        if not path.parent.is_dir():
            raise Refused(f"{path.parent} is no folder, so {path} can't be there")
        self.is_new = not path.exists()
        self.text = new_configuration() if self.is_new else path.read_text()
        try:
            self.document: Dict[str, Any] = tomllib.loads(self.text)
        except tomllib.TOMLDecodeError as why:
            raise Refused(f"{path} is no TOML: {why}") from None
        if not self.is_new:
            self.check(path)
        if users and "users" not in self.document["server"]:
            raise Refused(f"{path} names no file of users, so nobody is known")

    def check(self, path: pathlib.Path) -> None:
        """The program has to take it."""
        done = subprocess.run([sys.executable, EXPLAIN, path], capture_output=True, text=True)
        if done.returncode not in TAKEN:
            faults = [line for line in (done.stdout or done.stderr).splitlines() if not line.startswith("note: ")]
            raise Refused(f"the program refuses {faults[0] if faults else path}")

    @property
    def names(self) -> List[str]:
        return [table["name"] for table in self.document.get("presentation", [])]

    @property
    def is_watched(self) -> bool:
        """Whether a running server takes it up where it changes."""
        return self.document["server"].get("watch", True)

    @property
    def folder(self) -> pathlib.Path:
        """Where its media is found."""
        return self.path.parent / self.document["server"].get("media", ".")

    def file_named(self, name: str) -> str:
        """How a track names a file of that folder."""
        return name if "media" in self.document["server"] else str((self.folder / name).resolve())

    def refuse(self, name: str) -> None:
        """Refuses a name that a presentation can't be added by."""
        if not NAME.fullmatch(name):
            raise Refused(f"{name!r} is no name of a presentation: it has to be 1 to 64 of a to z, digits, - and _")
        if name in self.names:
            raise Refused(f"{self.path} has a presentation {name} already")
        if len(self.names) >= MOST_PRESENTATIONS:
            raise Refused(f"{self.path} has {MOST_PRESENTATIONS} presentations, the most that there may be")

    def add(self, made: Union[Made, MadeFilm], files: List[MediaFile]) -> None:
        """Adds a presentation at the end, and gives its media the names; all files are whole at all times."""
        self._put(self.text + ("" if self.text.endswith("\n") else "\n") + made.table(self.file_named, self.users), files)

    def remove(self, name: str) -> List[pathlib.Path]:
        """Takes a presentation out, and tells which of its files nothing names any more."""
        if name not in self.names:
            raise Refused(f"{self.path} has no presentation {name}")
        if len(self.names) == 1:
            raise Refused(f"{name} is the only presentation of {self.path}, and there has to be one")
        text = without(self.text, name)
        if [it for it in self.names if it != name] != [it["name"] for it in tomllib.loads(text)["presentation"]]:
            raise Refused(f"{self.path} isn't written as import writes it: take {name} out by hand")
        before = self._files()
        self._put(text, [])
        return sorted(before - self._files())

    def _files(self) -> Set[pathlib.Path]:
        """What its tracks name."""
        tracks = [track for table in self.document["presentation"] for track in table["track"]]
        folder = self.folder if "media" in self.document["server"] else pathlib.Path()
        return {folder / track["file"] for track in tracks}

    def _put(self, text: str, files: List[MediaFile]) -> None:
        """Puts a text in its place, last; all files are whole at all times."""
        number, name = tempfile.mkstemp(dir=self.path.parent, prefix=".", suffix=".toml")
        unfinished = pathlib.Path(name)
        try:
            with os.fdopen(number, "w") as out:
                out.write(text)
            document = tomllib.loads(text)
            self.check(unfinished)
            os.chmod(unfinished, 0o644 if self.is_new else self.path.stat().st_mode & 0o777)
            with unstopped():
                self._give_names(files, unfinished)
        finally:
            unfinished.unlink(missing_ok=True)
        self.text, self.document, self.is_new = text, document, False

    def _give_names(self, files: List[MediaFile], unfinished: pathlib.Path) -> None:
        """All of the files get their names, or none."""
        named: List[pathlib.Path] = []
        try:
            for file in files:
                os.replace(file.unfinished, self.folder / file.name)
                named.append(self.folder / file.name)
            os.replace(unfinished, self.path)
        except OSError:
            for path in named:
                path.unlink()
            raise

    def players(self, made: Union[Made, MadeFilm]) -> str:
        """How many players of a presentation there may be at once, and why no more."""
        server = self.document["server"]
        carried = server["uplink"] // made.rate
        said = f"{made.rate / 1e6:.3f} Mbit/s with the headers; the uplink of {self.path} carries {carried:,} players"
        each = {"sessions": 1, "pairs": made.tracks}
        less = [f"{key} = {server[key]}" for key in each if server[key] // each[key] < carried]
        return said + (f", but it has {' and '.join(less)}" if less else "")
