"""The processes of the system, as /proc has them."""
import collections
import os
import pathlib
from typing import Iterator, List, NamedTuple

TICK = os.sysconf("SC_CLK_TCK")


class Process(NamedTuple):
    """A process as /proc has it; `seconds` are of it alone, on all cores."""

    number: int
    parent: int
    born: str
    seconds: float


def processes() -> Iterator[Process]:
    for entry in filter(str.isdigit, os.listdir("/proc")):
        try:
            stat = pathlib.Path(f"/proc/{entry}/stat").read_text()
        except OSError:
            continue
        # The name may have spaces and brackets; what follows the last bracket has neither.
        fields = stat[stat.rindex(")") + 2 :].split()
        yield Process(int(entry), int(fields[1]), fields[19], (int(fields[11]) + int(fields[12])) / TICK)


def below(root: int) -> List[Process]:
    """The processes below another, however deep."""
    children = collections.defaultdict(list)
    for process in processes():
        children[process.parent].append(process)
    found, open_ones = [], [root]
    while open_ones:
        for process in children[open_ones.pop()]:
            found.append(process)
            open_ones.append(process.number)
    return found
