"""A server at rest: how often its threads wake."""
import pathlib
import time
from typing import List

from checks import Checks

from .growth import Growing, SHORT
from .runner import serving_test
from .server import TONE

# So long they are looked at, in seconds.
LOOKED_AT = 4.0
# What a thread makes of ten looks a second, and less on a busy machine.
TEN_A_SECOND = range(7, 14)


def wakes(server: Growing) -> List[int]:
    """How often each thread is put to sleep."""
    counts = []
    for task in sorted(pathlib.Path(f"/proc/{server.process.pid}/task").iterdir(), key=lambda it: int(it.name)):
        status = (task / "status").read_text()
        counts.append(int(status.partition("\nvoluntary_ctxt_switches:")[2].split()[0]))
    return counts


def rates(server: Growing) -> List[float]:
    """The same for each second, of a while."""
    before = wakes(server)
    time.sleep(LOOKED_AT)
    return [(now - then) / LOOKED_AT for then, now in zip(before, wakes(server))]


@serving_test(limit=60, is_timed=True)
def a_thread_that_nobody_asks_sleeps(checks: Checks) -> None:
    """That which does errands for a changed configuration sleeps, before one and after: ten times a second only the one looks
    that waits for signals."""
    for watch in "false", "true":
        server = Growing(checks, TONE, watch=watch)
        server.put_media(SHORT)
        with server:
            server.descriptors_at_rest()
            if watch == "true":
                server.offer(TONE, SHORT)
                time.sleep(2)
            came = rates(server)
            checks.same(f"watch = {watch}: {came}", 1, sum(round(it) in TEN_A_SECOND for it in came))
