"""Proves the crates below the program side by side, in copies of the tree.

`rt` lets one command at a time work on a crate and on all that it rests on, and `rt all` gives each crate one job. So a
crate is proved in a copy of the tree that has it and the crates below it, these as they were proved. First come those
with the longest chain of others behind them, and the crates that can begin share the jobs that nobody has: each further
job of a crate reads all that lies below it once more, so none gets two while another one waits for its first.
"""
import collections
import contextlib
import os
import pathlib
import queue
import re
import shutil
import signal
import subprocess
import tempfile
import threading
import time
from typing import Callable, Deque, Dict, Iterable, List, Optional, Set

TOP = pathlib.Path(__file__).resolve().parent.parent
# What rt reads of a crate.
SOURCES = ("src", "specs", "proofs")
# What the proof of a crate takes at most for each of its jobs, in bytes, as far as it was seen here.
MEMORY_OF_A_JOB = 2_000_000_000
# More jobs than these make a proof hardly shorter.
MOST_JOBS = 4
# What a crate costs beside its own code, in bytes of code: all that lies below is read.
READING = 40_000
# Lines of rt that say nothing to someone who looks for what went wrong.
PLAIN = re.compile(
    r"(statements|library|logic|crate|axioms|linked|by-macro:|so far:) ?"
    r"|(fn|impl|enum|struct|trait|const|static|type) .*: proved$|rt: chose |only=\d"
)
SO_FAR = re.compile(r"so far: (\d+) of (\d+) functions")

Uses = Dict[str, List[str]]


def name_in(line: str) -> str:
    """The crate that a line of crates.txt is of, or nothing."""
    return " ".join(line.partition("#")[0].partition(":")[0].split()[:1])


def crates_below(program: str) -> Uses:
    """The crates that a program is made of, each with those of the repository that it uses. May fail with KeyError."""
    lines = (TOP / "crates.txt").read_text().splitlines()
    listed = {name_in(line): line.partition("#")[0].partition(":")[2].split() for line in lines if name_in(line)}
    needed: Uses = {}
    open_ones = [program]
    while open_ones:
        name = open_ones.pop()
        if name not in needed:
            needed[name] = [it for it in listed[name] if it in listed]
            open_ones += needed[name]
    return needed


def below(name: str, uses: Uses) -> Set[str]:
    """All crates that a crate rests on."""
    return {it for used in uses[name] for it in {used, *below(used, uses)}}


def cost(name: str) -> int:
    """What the proof of a crate costs, by its code."""
    return READING + sum(it.stat().st_size for it in crate_of(TOP, name).glob("src/**/*.rt"))


def chains_of(uses: Uses, costs: Dict[str, float]) -> Dict[str, float]:
    """What the longest chain of crates from each crate upwards costs, itself included."""
    found: Dict[str, float] = {}

    def chain(name: str) -> float:
        if name not in found:
            found[name] = costs[name] + max((chain(it) for it in uses if name in uses[it]), default=0)
        return found[name]

    for name in uses:
        chain(name)
    return found


def free_memory() -> int:
    """The bytes of memory that are free, or many where the system doesn't say."""
    with contextlib.suppress(OSError):
        found = re.search(r"MemAvailable: +(\d+)", pathlib.Path("/proc/meminfo").read_text())
        if found:
            return int(found[1]) * 1024
    return 1 << 40


def jobs_at_once() -> int:
    """How many jobs there are cores and memory for."""
    return min(len(os.sched_getaffinity(0)), free_memory() // MEMORY_OF_A_JOB)


def functions_kept(folder: pathlib.Path, crate: str, since: float) -> int:
    """How many functions of a crate were checked since a moment, by the modules that `rt` keeps: its own lines report
    that only now and then. A kit that keeps them by other names leaves it to those lines."""
    found, start, end = 0, f"Rattle-{crate}-proofs.", ".Tie.oantt"
    for at, _, names in os.walk(folder / "out/incremental"):
        for name in names:
            if name.startswith(start) and name.endswith(end):
                with contextlib.suppress(OSError):
                    found += os.stat(os.path.join(at, name)).st_mtime >= since
    return found


class Run:
    """A command of rt in a folder, and the last lines of it that say something."""

    def __init__(self, name: str, folder: pathlib.Path, words: List[str], lines: "queue.Queue") -> None:
        self.name, self.folder = name, folder
        self.tail: Deque[str] = collections.deque(maxlen=40)
        # How many functions rt says that the crate has, and how many were checked when it was last looked.
        self.count = self.done = 0
        self.began = time.time()
        self.process = subprocess.Popen(
            ["rt", *words],
            cwd=folder,
            stdin=subprocess.DEVNULL,
            stdout=subprocess.PIPE,
            stderr=subprocess.STDOUT,
            errors="replace",
            start_new_session=True,
        )
        threading.Thread(target=self.read, args=(lines,), daemon=True).start()

    def read(self, lines: "queue.Queue") -> None:
        assert self.process.stdout is not None
        for line in self.process.stdout:
            lines.put((self, line.rstrip("\n")))
        self.process.wait()
        lines.put((self, None))

    def begin(self, name: str, folder: pathlib.Path) -> None:
        """The command has come to another crate."""
        self.name, self.folder, self.count, self.done, self.began = name, folder, 0, 0, time.time()

    def note(self, line: str) -> None:
        so_far = SO_FAR.match(line)
        if so_far:
            self.count = int(so_far[2])
        if not PLAIN.match(line):
            self.tail.append(line)

    def look(self) -> None:
        self.done = functions_kept(self.folder, self.name, self.began)

    @property
    def left(self) -> Optional[float]:
        """Which part of its crate is left, where that is known."""
        return 1 - min(self.done, self.count) / self.count if self.count else None

    @property
    def seconds(self) -> float:
        """How long it has been at its crate."""
        return time.time() - self.began

    def progress(self) -> str:
        counted = f"{min(self.done, self.count)} of {self.count}" if self.count else f"{self.done}"
        return f"{self.name} {counted} functions"


def stop(runs: Iterable[Run]) -> None:
    """Ends commands with all that they started."""
    for number in (signal.SIGTERM, signal.SIGKILL):
        for run in runs:
            with contextlib.suppress(ProcessLookupError):
                os.killpg(run.process.pid, number)
        until = time.monotonic() + 3
        for run in runs:
            with contextlib.suppress(subprocess.TimeoutExpired):
                run.process.wait(timeout=max(0.0, until - time.monotonic()))


def link(old: str, new: str) -> None:
    """A second name of a file that is replaced as a whole where it changes, or a copy where there can be none."""
    try:
        os.link(old, new)
    except OSError:
        shutil.copy2(old, new)


def link_what_was_proved(old: str, new: str) -> None:
    """rt replaces its modules and writes its other files anew."""
    (link if old.endswith(".oantt") else shutil.copy2)(old, new)


def crate_of(tree: pathlib.Path, name: str) -> pathlib.Path:
    return tree / "crates" / name


def is_kept(name: str) -> bool:
    """Whether a crate was built before, so that it only is gone over."""
    return (crate_of(TOP, name) / "out/rlib/stamp").exists()


def link_kept(name: str, part: str, tree: pathlib.Path, how: Callable[[str, str], None]) -> None:
    """Puts what is kept of a crate into a copy of the tree, in place of what is there."""
    old, new = crate_of(TOP, name) / "out" / part, crate_of(tree, name) / "out" / part
    shutil.rmtree(new, ignore_errors=True)
    if old.is_dir():
        shutil.copytree(old, new, copy_function=how)


class Tree:
    """A copy of the tree, in which rt works on one crate at a time."""

    def __init__(self, uses: Uses, folder: str) -> None:
        self.uses = uses
        self.top = pathlib.Path(tempfile.mkdtemp(dir=folder))
        self.built: Set[str] = set()
        lines = (TOP / "crates.txt").read_text().splitlines(keepends=True)
        (self.top / "crates.txt").write_text("".join(line for line in lines if name_in(line) in uses))
        if (TOP / "HANDLES").exists():
            shutil.copy2(TOP / "HANDLES", self.top)
        for name in uses:
            for part in SOURCES:
                if (crate_of(TOP, name) / part).is_dir():
                    shutil.copytree(crate_of(TOP, name) / part, crate_of(self.top, name) / part, copy_function=link)

    def begin(self, name: str) -> pathlib.Path:
        """The folder in which a crate can be worked on: with what was built of those below it, and what is kept of it."""
        for it in below(name, self.uses) - self.built:
            link_kept(it, "rlib", self.top, link)
            self.built.add(it)
        link_kept(name, "incremental", self.top, link_what_was_proved)
        return crate_of(self.top, name)

    def hand_over(self, name: str) -> None:
        """Puts what rt made of a crate into the tree itself."""
        for part in "incremental", "rlib":
            made, kept = crate_of(self.top, name) / "out" / part, crate_of(TOP, name) / "out" / part
            if made.is_dir():
                shutil.rmtree(kept, ignore_errors=True)
                kept.parent.mkdir(exist_ok=True)
                shutil.move(str(made), str(kept))


def folder_for_copies() -> str:
    """On the tree's own file system, where a copy of what was proved is a link: within out/ only where /tmp is another."""
    out = TOP / "out"
    is_one = os.stat(tempfile.gettempdir()).st_dev == os.stat(out).st_dev
    return tempfile.mkdtemp(prefix="rtspd-build-", dir=None if is_one else out)


class Libraries:
    """The crates below the program, and how far their proofs are."""

    def __init__(self, uses: Uses, program: str) -> None:
        self.uses, self.chains = uses, chains_of(uses, {it: cost(it) for it in uses})
        self.left = {it for it in uses if it != program}
        self.proved: Set[str] = set()
        self.free: List[Tree] = []
        self.running: Dict[Run, Tree] = {}
        self.jobs: Dict[Run, int] = {}

    def are_many(self) -> bool:
        """Whether more than one of them was never built."""
        return sum(not is_kept(it) for it in self.left) > 1

    def start_some(self, folder: str, at_once: int, lines: "queue.Queue") -> None:
        """Starts those that rest on proved crates alone, as long as there are jobs for them."""
        ready = [it for it in self.left if self.proved.issuperset(self.uses[it])]
        ready.sort(key=lambda it: -self.chains[it])
        for at, name in enumerate(ready):
            free = at_once - sum(self.jobs.values())
            if free <= 0:
                return
            jobs = min(max(free // (len(ready) - at), 1), MOST_JOBS)
            tree = self.free.pop() if self.free else Tree(self.uses, folder)
            run = Run(name, tree.begin(name), ["lib", "--jobs", str(jobs)], lines)
            self.left.remove(name)
            self.running[run], self.jobs[run] = tree, jobs

    def end(self, run: Run) -> bool:
        """Takes over what a command that has ended made, and says whether it proved its crate."""
        tree = self.running.pop(run)
        del self.jobs[run]
        tree.hand_over(run.name)
        self.free.append(tree)
        if not run.process.returncode:
            self.proved.add(run.name)
        return not run.process.returncode

    def stop(self) -> None:
        """Ends all that is at work, and keeps what it proved."""
        stop(self.running)
        for run in [*self.running]:
            self.end(run)
