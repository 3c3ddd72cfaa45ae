"""What the operator's tools are called, in the git tree and where a package has them, and how their words are read."""
import argparse
import os
import pathlib
import signal
import sys
from typing import Any, Dict, NoReturn

# The tools by their place in the git tree, and the name of each in a package.
INSTALLED = {
    "explain-configuration": "rtspd-explain",
    "watch": "rtspd-watch",
    "check-journals": "rtspd-check-journals",
    "whole-lines": "rtspd-whole-lines",
    "picture": "rtspd-picture",
    "user": "rtspd-user",
    "examples/play": "rtspd-play",
    "examples/import": "rtspd-import",
}
BAD_COMMAND_LINE = 2
# What asks for the end: ^C, whoever started it, and a terminal that is closed.
STOPS = (signal.SIGINT, signal.SIGTERM, signal.SIGHUP)


def own_name() -> str:
    """The name by which this tool was called, without its folder."""
    return os.path.basename(sys.argv[0])


def is_installed() -> bool:
    return own_name() in INSTALLED.values()


def called(tool: str) -> str:
    """What whoever called this tool calls another one, or the program."""
    if is_installed():
        return INSTALLED.get(tool, tool)
    return tool if "/" in tool else f"./{tool}"


def program_beside(top: pathlib.Path) -> str:
    """The program that belongs to the tools in a folder: the tree's, or that of the prefix they are installed under."""
    in_tree = top / "rtspd"
    return str(in_tree if in_tree.is_file() else top.parent.parent / "bin/rtspd")


def at_a_stop(handler: Any) -> None:
    """What is done at a stop; one that is ignored, as under nohup, stays so."""
    for number in STOPS:
        if signal.getsignal(number) != signal.SIG_IGN:
            signal.signal(number, handler)


def stopped(_number: int, _frame: object) -> NoReturn:
    """Each stop ends it as ^C does, by what it has to clean up, and no other one comes between."""
    at_a_stop(signal.SIG_IGN)
    raise KeyboardInterrupt


def path_word(text: str) -> str:
    """A path among the words, which an empty one is not."""
    if not text:
        raise argparse.ArgumentTypeError("is empty")
    return text


class Words(argparse.ArgumentParser):
    """The words after a tool's name, and its help. A bad command line is told in one line."""

    def __init__(self, tool: str, does: str, statuses: Dict[int, str]) -> None:
        rows = [f"  {number:<4} {meaning}" for number, meaning in statuses.items()]
        form = argparse.RawDescriptionHelpFormatter
        super().__init__(called(tool), None, does.strip(), "\n".join(["status:", *rows]), formatter_class=form)
        self.allow_abbrev = False

    def read(self) -> argparse.Namespace:
        words = sys.argv[1:]
        for word in words:
            if word.startswith("--") and words.count(word) > 1:
                self.error(f"{word} is given twice")
        return self.parse_args([self.as_path(word) for word in words])

    def as_path(self, word: str) -> str:
        """A file or folder whose name begins with a dash is no option."""
        is_option = word.partition("=")[0] in self._option_string_actions
        return f"./{word}" if word[:1] == "-" and word != "-" and not is_option and os.path.lexists(word) else word

    def error(self, message: str) -> NoReturn:
        print(f"{own_name()}: bad command line: {message}; {self.prog} --help says how", file=sys.stderr)
        sys.exit(BAD_COMMAND_LINE)
