"""What the tests share: the tree, the program, and how a difference is said.

A test makes `Checks`, calls `same` and `that`, and ends by `run`, which prints the count and never a traceback.
"""
import difflib
import os
import pathlib
import shutil
import subprocess
import sys
import traceback
from typing import Any, Callable, List, NoReturn, Set

TOP = pathlib.Path(__file__).resolve().parent.parent.parent
EXAMPLES = TOP / "examples"
PROGRAM = TOP / "crates/rtspd_program/out/rtspd_program"


class Failed(Exception):
    """Why a test can't go on, in one line."""


def need_program() -> None:
    """Builds the program where the sources have changed."""
    done = subprocess.run([TOP / "rtspd", "stdio"], stdin=subprocess.DEVNULL, stdout=subprocess.DEVNULL)
    if done.returncode:
        raise Failed(f"there is no program to test: ./rtspd ended with status {done.returncode}")


def shown(value: Any) -> List[str]:
    """A value as lines; of bytes and texts one for each of theirs."""
    if isinstance(value, bytes):
        return [repr(line)[2:-1] for line in value.splitlines(keepends=True)]
    if isinstance(value, str):
        return [repr(line)[1:-1] for line in value.splitlines(keepends=True)]
    return [repr(value)]


class Checks:
    """Counts what was compared, and prints each difference: what was wanted, and what came."""

    def __init__(self, what: str) -> None:
        self.what = what
        self.made = 0
        self.faults = 0
        self.left_out: Set[str] = set()

    def same(self, where: str, wanted: Any, came: Any) -> bool:
        self.made += 1
        if wanted == came:
            return True
        self.faults += 1
        lines = shown(wanted), shown(came)
        if type(wanted) is type(came) and max(map(len, lines)) > 1:
            print(f"{where} differs:")
            for line in difflib.unified_diff(*lines, "wanted", "came", lineterm="", n=1):
                print(f"  {line}")
        else:
            print(f"{where}:\n  wanted {wanted!r}\n  came   {came!r}")
        return False

    def that(self, where: str, holds: bool, came: Any = None) -> bool:
        self.made += 1
        if not holds:
            self.faults += 1
            print(f"not so: {where}{'' if came is None else f'; what came is {came!r}'}")
        return holds


    def skip(self, what: str, why: str) -> None:
        """Says, once, that something isn't tried here: a line that ./test counts."""
        if what not in self.left_out:
            self.left_out.add(what)
            print(f"skipped: {what}, since {why}")

    def has(self, what: str, *tools: str) -> bool:
        """Whether the commands that something takes are here; where one isn't, it is left out."""
        for tool in tools:
            if not shutil.which(tool):
                self.skip(what, f"{tool} isn't installed: tests/install")
                return False
        return True


def run(checks: Checks, test: Callable[[], None]) -> NoReturn:
    """Runs a test to its end, and ends with its status."""
    try:
        test()
    except Failed as why:
        checks.faults += 1
        print(f"stopped: {why}")
    except subprocess.TimeoutExpired as why:
        checks.faults += 1
        words = why.cmd if isinstance(why.cmd, str) else " ".join(map(os.fspath, why.cmd))
        print(f"stopped: {words} had not ended after {why.timeout} seconds")
    except Exception as why:
        checks.faults += 1
        at = [it for it in traceback.extract_tb(why.__traceback__) if str(TOP) in it.filename][-1]
        print(f"stopped at {os.path.relpath(at.filename, TOP)}:{at.lineno} ({at.line}): {type(why).__name__}: {why}")
    print(f"{checks.made} {checks.what}, {checks.faults} differences")
    sys.stdout.flush()
    sys.exit(1 if checks.faults else 0)
