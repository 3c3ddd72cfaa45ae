"""A terminal that is drawn on as a whole, by plain ANSI: what has changed is written over, and nothing is erased."""
import os
import select
import signal
import sys
import termios
import tty
from types import FrameType
from typing import List, NamedTuple, NoReturn, Optional

# The other screen, without a cursor; and back.
ENTER, LEAVE = "\x1b[?1049h\x1b[?25l", "\x1b[?25h\x1b[?1049l"
CLEAR = "\x1b[2J"
PLAIN, BOLD, FAINT, REVERSE = "", "\x1b[1m", "\x1b[2m", "\x1b[7m"
RESET = "\x1b[0m"


class Line(NamedTuple):
    text: str
    style: str = PLAIN


class Size(NamedTuple):
    columns: int
    rows: int


def stopped(_number: int, _frame: Optional[FrameType]) -> NoReturn:
    """The terminal is left as it was found."""
    sys.exit(0)


class Terminal:
    """Standard input and output, as long as something is shown on them."""

    def __init__(self) -> None:
        self.out = sys.stdout.fileno()
        self.keys = sys.stdin.fileno() if sys.stdin and sys.stdin.isatty() else None
        self.shown: List[Line] = []
        self.size = Size(0, 0)

    def __enter__(self) -> "Terminal":
        for number in signal.SIGINT, signal.SIGTERM, signal.SIGHUP:
            signal.signal(number, stopped)
        signal.signal(signal.SIGTSTP, signal.SIG_IGN)
        if self.keys is not None:
            self.kept = termios.tcgetattr(self.keys)
            tty.setcbreak(self.keys)
        self.write(ENTER)
        return self

    def __exit__(self, *_: object) -> None:
        if self.keys is not None:
            termios.tcsetattr(self.keys, termios.TCSADRAIN, self.kept)
        try:
            self.write(LEAVE)
        except OSError:
            # It is gone.
            pass

    def write(self, text: str) -> None:
        left = text.encode()
        while left:
            left = left[os.write(self.out, left) :]

    def measure(self) -> Size:
        """How large it is now; where it doesn't say, as large as terminals are."""
        columns, rows = os.get_terminal_size(self.out)
        return Size(columns or 80, rows or 24)

    def draw(self, lines: List[Line], size: Size) -> None:
        """Shows these lines, of which each fits into the size."""
        parts = []
        if size != self.size:
            parts.append(CLEAR)
            self.shown, self.size = [], size
        blank = [Line("")] * size.rows
        for row, (line, old) in enumerate(zip([*lines, *blank][: size.rows], [*self.shown, *blank]), 1):
            if line != old:
                text = f"{line.style}{line.text}{RESET if line.style else ''}"
                parts.append(f"\x1b[{row};1H{text}{' ' * (len(old.text) - len(line.text))}")
        self.shown = lines
        self.write("".join(parts))

    def key(self, seconds: float) -> str:
        """What was typed within so many seconds; nothing where that is nothing."""
        found, _, _ = select.select([] if self.keys is None else [self.keys], [], [], seconds)
        return os.read(found[0], 64).decode(errors="replace") if found else ""
