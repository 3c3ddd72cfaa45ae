"""What making a program has that takes minutes: how far it is on standard error, what ends it, and what it ends with."""
import contextlib
import fcntl
import os
import pathlib
import shutil
import signal
import sys
import time
from typing import Callable, Iterator, List, NamedTuple, NoReturn

NOT_BUILT = 70
# The signals that end it.
ENDS = (signal.SIGINT, signal.SIGTERM, signal.SIGHUP)
# What a server looks for itself, and then ends cleanly or goes on.
OF_A_SERVER = (*ENDS, signal.SIGXFSZ)


class NotBuilt(Exception):
    """Why nothing was built, in one line."""


class Interrupted(Exception):
    """A signal asked for the end."""


def clock(seconds: float) -> str:
    return f"{int(seconds) // 60}:{int(seconds) % 60:02}"


class Display:
    """Lines on standard error: one that is written anew on a terminal, and else one after another."""

    def __init__(self) -> None:
        self.is_terminal = sys.stderr.isatty()
        self.pause = 1 if self.is_terminal else 10
        self.is_open = False

    def show(self, text: str) -> None:
        if self.is_terminal:
            width = shutil.get_terminal_size().columns - 1
            sys.stderr.write(f"\r\x1b[K{text[:width]}")
            self.is_open = True
        else:
            sys.stderr.write(f"{text}\n")
        sys.stderr.flush()

    def say(self, text: str) -> None:
        """A line that stays."""
        if self.is_open:
            sys.stderr.write("\r\x1b[K")
            self.is_open = False
        sys.stderr.write(f"{text}\n")
        sys.stderr.flush()


@contextlib.contextmanager
def uninterrupted() -> Iterator[None]:
    """Holds interrupts back, since a second one would leave what the first one ends."""
    before = signal.pthread_sigmask(signal.SIG_BLOCK, ENDS)
    try:
        yield
    finally:
        signal.pthread_sigmask(signal.SIG_SETMASK, before)


@contextlib.contextmanager
def locked(who: str, paths: List[pathlib.Path], display: Display, other: str) -> Iterator[None]:
    """Waits until nobody else has the locks of these files and folders, and has them meanwhile."""
    began = time.monotonic()
    shown = began - display.pause
    with contextlib.ExitStack() as held:
        for path in paths:
            lock = os.open(path, os.O_RDONLY)
            held.callback(os.close, lock)
            while True:
                try:
                    fcntl.flock(lock, fcntl.LOCK_EX | fcntl.LOCK_NB)
                    break
                except BlockingIOError:
                    if time.monotonic() >= shown + display.pause:
                        shown = time.monotonic()
                        display.show(f"{who}: {clock(shown - began)}  waiting for {other}")
                    time.sleep(0.2)
                except OSError:
                    # Some file systems have no locks.
                    break
        yield


def interrupted(number: int, _frame: object) -> None:
    raise Interrupted(number)


class Maker(NamedTuple):
    """Who makes a program, what of it an interrupt leaves for the next time, and how it is made."""

    who: str
    kept: str
    make: Callable[[], None]


def make_and_become(maker: Maker, display: Display, program: pathlib.Path) -> NoReturn:
    """Makes the program, and is it from then on, with the words of this command."""
    ends = [it for it in ENDS if signal.getsignal(it) != signal.SIG_IGN]
    for it in ends:
        signal.signal(it, interrupted)
    try:
        maker.make()
    except (NotBuilt, OSError) as why:
        display.say(f"{maker.who}: not built, and nothing is run: {why}")
        sys.exit(NOT_BUILT)
    except Interrupted as number:
        for it in ENDS:
            signal.signal(it, signal.SIG_IGN)
        display.say(f"{maker.who}: stopped; {maker.kept}")
        signal.signal(number.args[0], signal.SIG_DFL)
        os.kill(os.getpid(), number.args[0])
    if sys.argv[1:2] == ["serve"]:
        signal.pthread_sigmask(signal.SIG_BLOCK, OF_A_SERVER)
    # The program gets the signals as they were before Python.
    for it in (*ends, signal.SIGPIPE, signal.SIGXFSZ):
        signal.signal(it, signal.SIG_DFL)
    os.execv(program, [program, *sys.argv[1:]])
