"""Files that are written while or after a play, and take the place of others only once there is something to write."""
import os
import queue
import stat
import tempfile
import threading
from typing import BinaryIO, Optional


class NewFile:
    """A file that takes its name once it is kept, and leaves no trace else. Devices and pipes are written at once."""

    def __init__(self, name: str) -> None:
        self.path = os.path.realpath(name)
        self.unfinished: Optional[str] = None

    def __enter__(self) -> "NewFile":
        try:
            mode: Optional[int] = os.stat(self.path).st_mode
        except FileNotFoundError:
            mode = None
        if mode is not None and not stat.S_ISREG(mode):
            self.file: BinaryIO = open(self.path, "wb")
            return self
        number, self.unfinished = tempfile.mkstemp(dir=os.path.dirname(self.path), prefix=".play-")
        umask = os.umask(0)
        os.umask(umask)
        os.fchmod(number, stat.S_IMODE(mode) if mode is not None else 0o666 & ~umask)
        self.file = os.fdopen(number, "wb")
        return self

    def keep(self) -> None:
        """All is written: it takes its name."""
        self.file.close()
        if self.unfinished:
            os.replace(self.unfinished, self.path)
            self.unfinished = None

    def __exit__(self, *_: object) -> None:
        try:
            self.file.close()
        finally:
            if self.unfinished:
                os.unlink(self.unfinished)


class Pipe:
    """What goes to a program that may read late: a thread writes it, so that nobody waits for the reader."""

    def __init__(self, file: BinaryIO) -> None:
        self.file = file
        self.is_gone = False
        self._pieces: "queue.SimpleQueue[Optional[bytes]]" = queue.SimpleQueue()
        self._writer = threading.Thread(target=self._write, daemon=True)
        self._writer.start()

    def write(self, piece: bytes) -> None:
        self._pieces.put(piece)

    def flush(self) -> None:
        """Waits until all is written or the reader has gone."""
        self._pieces.put(None)
        self._writer.join()

    def _write(self) -> None:
        while (piece := self._pieces.get()) is not None:
            try:
                if not self.is_gone:
                    self.file.write(piece)
                    self.file.flush()
            except OSError:
                self.is_gone = True
