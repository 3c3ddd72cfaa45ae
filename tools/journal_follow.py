"""Follows the journal that a server writes to a folder: the book as it stands there, and who has ended."""
import pathlib
from collections import deque
from typing import BinaryIO, Deque, Dict, List, NamedTuple, Optional, Set, Tuple

from journal_book import Book, Session
from journal_files import files_in
from journal_text import Entry, address_of, entry_of

MOST_ENDINGS = 200
# Files that were changed within so many seconds of each other stand in the order of their numbers.
AT_ONCE = 1.0
# A file that is begun stays empty for a period at most, in seconds, if the server goes on.
BEGUN = 1.0
# So often it is looked whether there is a new file, in seconds.
LISTS = 0.5


def newest_in(folder: pathlib.Path) -> Optional[pathlib.Path]:
    """The file that was written last. May fail with OSError."""
    found = []
    for number, path in files_in(folder):
        try:
            found.append((path.stat().st_mtime, number, path))
        except FileNotFoundError:
            continue
    last = max((changed for changed, _, _ in found), default=0.0)
    recent = [(number, path) for changed, number, path in found if changed >= last - AT_ONCE]
    return max(recent)[1] if recent else None


class Ending(NamedTuple):
    """A session that has ended. The moment is that of the clock here, and None of what was there at the start."""

    at: Optional[float]
    session: str
    address: str
    is_told: bool


def addresses_of(session: Session) -> List[str]:
    """The addresses that a session's packets go to, which are one."""
    return sorted({address_of(stream) for stream in session.streams()})


class Follower:
    """The book of the file that is written now."""

    def __init__(self, folder: pathlib.Path, period: float, timeout: Optional[int]) -> None:
        self.folder = folder
        self.patience = 2 * period + BEGUN
        self.timeout = timeout
        self.endings: Deque[Ending] = deque(maxlen=MOST_ENDINGS)
        self.path: Optional[pathlib.Path] = None
        self.file: Optional[BinaryIO] = None
        self.waits_since: Optional[float] = None
        self.lists_at = 0.0
        self.before: Dict[str, Session] = {}
        # The ids of those who ended in this file and in the one before, which may tell of them too.
        self.ended: Set[str] = set()
        self.ended_before: Set[str] = set()
        self.most = 0
        self.begin()

    def begin(self) -> None:
        self.book = Book()
        self.addresses: Dict[str, str] = {}
        self.held = b""
        self.entries = 0
        self.fault = ""
        # The server's clock is so many milliseconds before the one here.
        self.offset: Optional[float] = None
        self.looks = 0

    def look(self, now: float) -> None:
        """Reads what is new. May fail with OSError."""
        self.read(now, False)
        if now >= self.lists_at:
            self.lists_at = now + LISTS
            newest, is_first = newest_in(self.folder), self.path is None
            if newest and newest != self.path and self.is_begun(newest, now):
                # Nothing is written to the one before any more.
                self.read(now, False)
                self.change(newest)
                self.read(newest.stat().st_mtime, is_first)
        self.looks += 1
        if self.looks == 2:
            self.miss(now)

    def is_begun(self, newest: pathlib.Path, now: float) -> bool:
        """Whether there is something in a new file, or there would be if it went on from the last one."""
        if self.path is None or newest.stat().st_size:
            self.waits_since = None
            return True
        self.waits_since = self.waits_since or now
        return now - self.waits_since > self.patience

    def change(self, newest: pathlib.Path) -> None:
        opened = open(newest, "rb")
        if self.file:
            self.file.close()
        self.before = self.book.sessions
        self.ended, self.ended_before = set(), self.ended
        self.path, self.file = newest, opened
        self.begin()

    def miss(self, now: float) -> None:
        """Sessions of the file before that aren't in this one: their ends were never written."""
        for number, session in self.before.items():
            there = self.book.sessions.get(number)
            if (there is None or there.id != session.id) and session.id not in self.addresses:
                self.endings.append(Ending(now, number, " ".join(addresses_of(session)) or "-", False))
        self.before = {}

    def read(self, at: float, is_first: bool) -> None:
        if self.file is None or self.fault:
            return
        *lines, self.held = (self.held + self.file.read()).split(b"\n")
        for line in lines:
            entry = entry_of(line.decode("latin-1"))
            self.entries += 1
            if entry is None or not self.take(entry, at, is_first):
                self.fault = f"line {self.entries} is none of a journal"
                return

    def take(self, entry: Entry, at: float, is_first: bool) -> bool:
        session = self.book.sessions.get(entry.session)
        if not self.book.take(entry):
            return False
        self.most = max(self.most, self.book.rate)
        if entry.kind == "add":
            self.addresses[self.book.sessions[entry.session].id] = address_of(entry.fields[2:])
        if entry.kind == "open":
            self.addresses[entry.fields[1]] = "-"
        if entry.kind == "close" and session:
            self.ended.add(session.id)
        if entry.kind == "close" and session and session.id not in self.ended_before:
            self.endings.append(Ending(None if is_first else at, entry.session, self.addresses[session.id], True))
        moment = self.moment_of(entry)
        if moment is not None:
            offset = moment - at * 1000
            self.offset = offset if self.offset is None else max(offset, self.offset)
        return True

    def moment_of(self, entry: Entry) -> Optional[int]:
        """The moment when an entry was made, where it tells that."""
        if entry.kind == "move" and entry.fields[2].startswith("playing"):
            return int(entry.fields[2].split(":")[1])
        if entry.kind in ("open", "touch") and self.timeout is not None:
            return int(entry.fields[-1]) - self.timeout * 1000
        return None

    def moment(self, now: float) -> Optional[int]:
        """The server's clock, as far as it is known."""
        return None if self.offset is None else int(now * 1000 + self.offset)

    def sessions(self) -> List[Tuple[str, Session]]:
        """Who lives, by address and number."""
        key = {number: [int(it) for part in addresses_of(session) for it in part.split(".")]
               for number, session in self.book.sessions.items()}
        return sorted(self.book.sessions.items(), key=lambda it: (key[it[0]], int(it[0])))
