"""Runs the tests, most of them side by side, each in a process of its own with a limit of time, some several times."""
import importlib
import os
import pathlib
import queue
import re
import resource
import signal
import subprocess
import sys
import threading
import time
from typing import Callable, Dict, List, NamedTuple, NoReturn, Set

from checks import Checks, Failed, run

from .witness import wait_for_calm

# So many tests at once, and three for two cores: more would disturb those that wait for seconds to pass.
SIDE_BY_SIDE = 6
# A test that measures time is tried so often before it fails, since the machine has other work.
TRIES = 5
# One that holds milliseconds is tried more often, since a host may be busy for minutes.
ALONE_TRIES = 10
# Any other that failed beside others is tried so often again, alone: each test has seconds in which something has to come.
AGAIN_TRIES = 2
# Before each try one that holds milliseconds waits so many seconds at most until the machine is calm.
CALM_WITHIN = 60.0


class Test(NamedTuple):
    """A test: what it does, in how many seconds it has to end, how often it is tried, whether it takes a minute,
    whether it holds milliseconds, for which nothing may run beside it, and whether it is run by its name alone."""

    name: str
    test: Callable[[Checks], None]
    limit: int
    tries: int
    is_long: bool
    is_alone: bool
    is_by_name: bool


TESTS: Dict[str, Test] = {}
# A test ends itself at its limit; one that doesn't is ended so many seconds later.
GRACE = 10
# The tests that are running, each the leader of a group of processes.
running_tests: Set[int] = set()


def serving_test(
    limit: int, is_timed: bool = False, is_long: bool = False, is_alone: bool = False, is_by_name: bool = False
):
    """Marks a function as a test; its name is the test's."""

    def marked(test: Callable[[Checks], None]) -> Callable[[Checks], None]:
        tries = ALONE_TRIES if is_alone else TRIES if is_timed else 1
        TESTS[test.__name__] = Test(test.__name__, test, limit, tries, is_long, is_alone, is_by_name)
        return test

    return marked


def load(name: str = r"\w+") -> None:
    """Imports the modules that have tests, or of one test the one that has it: its process needs no other."""
    test = re.compile(rf"(?ms)^@serving_test\([^@]*?^def {name}\(")
    for path in sorted(pathlib.Path(__file__).parent.glob("*.py")):
        if test.search(path.read_text()):
            importlib.import_module(f"{__package__}.{path.stem}")


class Outcome(NamedTuple):
    """How a test ended: how often it was tried, the seconds of the last try, and what each try said."""

    test: Test
    has_passed: bool
    tries: int
    seconds: float
    said: str


def tried_once(script: pathlib.Path, test: Test, number: int) -> Outcome:
    began = time.monotonic()
    pipes = {"stdout": subprocess.PIPE, "stderr": subprocess.STDOUT, "stdin": subprocess.DEVNULL}
    with subprocess.Popen([script, test.name], errors="replace", start_new_session=True, **pipes) as running:
        running_tests.add(running.pid)
        try:
            said, _ = running.communicate(timeout=test.limit + GRACE)
        except subprocess.TimeoutExpired:
            # With it go the servers that it started.
            os.killpg(running.pid, signal.SIGKILL)
            said, _ = running.communicate()
            said += f"{test.name} had to be killed\n"
        running_tests.discard(running.pid)
    return Outcome(test, running.returncode == 0, number, time.monotonic() - began, said)


def tried(script: pathlib.Path, test: Test) -> Outcome:
    """Runs a test until it passes or its tries are spent."""
    outcome = Outcome(test, False, 0, 0.0, "")
    while not outcome.has_passed and outcome.tries < test.tries:
        if test.is_alone:
            wait_for_calm(CALM_WITHIN)
        again = tried_once(script, test, outcome.tries + 1)
        outcome = again._replace(said=outcome.said + again.said)
    return outcome


def work(script: pathlib.Path, waiting: "queue.Queue[Test]", outcomes: "queue.Queue[Outcome]") -> None:
    while True:
        try:
            test = waiting.get_nowait()
        except queue.Empty:
            return
        outcomes.put(tried(script, test))


def say_how(how: str, outcome: Outcome) -> None:
    """One line of a test, and what each try of it said where one failed."""
    tries = f", at try {outcome.tries}" if outcome.tries > 1 else ""
    print(f"{how} after {outcome.seconds:4.1f} s{tries}: {outcome.test.name}", flush=True)
    if not outcome.has_passed or outcome.tries > 1:
        print("".join(f"  {line}\n" for line in outcome.said.splitlines()), end="", flush=True)


def tell(checks: Checks, outcome: Outcome) -> None:
    """How a test ended, which counts."""
    say_how("passed" if checks.that(outcome.test.name, outcome.has_passed) else "FAILED", outcome)
    # Each try says it.
    for what in dict.fromkeys(re.findall(r"(?m)^skipped: (.*)$", outcome.said)):
        print(f"skipped: {outcome.test.name}: {what}", flush=True)


def run_beside(script: pathlib.Path, checks: Checks, chosen: List[Test], side_by_side: int) -> List[Test]:
    """Runs tests, the longest first, so many at once; which are to be tried again, since they failed beside others."""
    waiting: "queue.Queue[Test]" = queue.Queue()
    outcomes: "queue.Queue[Outcome]" = queue.Queue()
    for test in sorted(chosen, key=lambda it: -it.limit):
        waiting.put(test)
    for _ in range(side_by_side):
        threading.Thread(target=work, args=(script, waiting, outcomes), daemon=True).start()
    again: List[Test] = []
    for _ in chosen:
        outcome = outcomes.get()
        if outcome.has_passed or side_by_side == 1:
            tell(checks, outcome)
        else:
            say_how("failed beside others, and is tried again,", outcome)
            again.append(outcome.test._replace(tries=AGAIN_TRIES, is_alone=True))
    return again


def run_all(script: pathlib.Path, checks: Checks) -> None:
    """Runs all tests but those by name, with RTSPD_FAST those that take no minute: last, one by one, those that hold
    milliseconds, and those that failed beside others."""
    is_fast = bool(os.environ.get("RTSPD_FAST"))
    chosen = [test for test in TESTS.values() if not (test.is_by_name or test.is_long and is_fast)]
    side_by_side = max(2, min(SIDE_BY_SIDE, 3 * len(os.sched_getaffinity(0)) // 2))
    again = run_beside(script, checks, [test for test in chosen if not test.is_alone], side_by_side)
    run_beside(script, checks, [test for test in chosen if test.is_alone] + again, 1)


def run_one(test: Test) -> NoReturn:
    """Runs one test in this process, and ends."""

    def too_long(_number: int, _frame: object) -> NoReturn:
        raise Failed(f"{test.name} had not ended after {test.limit} seconds")

    signal.signal(signal.SIGALRM, too_long)
    signal.alarm(test.limit)
    _, hard = resource.getrlimit(resource.RLIMIT_NOFILE)
    resource.setrlimit(resource.RLIMIT_NOFILE, (hard, hard))
    checks = Checks("comparisons")
    run(checks, lambda: test.test(checks))


def stopped(number: int, _frame: object) -> NoReturn:
    """Ends the tests that are running, and this."""
    for group in list(running_tests):
        os.killpg(group, signal.SIGKILL)
    os._exit(128 + number)


def main(script: pathlib.Path, words: List[str], need_program: Callable[[], None]) -> None:
    if len(words) == 1 and words[0].isidentifier():
        load(words[0])
        if words[0] in TESTS:
            run_one(TESTS[words[0]])
    load()
    if words:
        print(f"serve: it takes no word, or the name of a test: {', '.join(TESTS)}", file=sys.stderr)
        sys.exit(2)
    checks = Checks("tests of the server")
    for number in signal.SIGINT, signal.SIGTERM, signal.SIGHUP:
        signal.signal(number, stopped)

    def test() -> None:
        need_program()
        run_all(script, checks)

    run(checks, test)
