"""When the machine itself stood still, so that a packet isn't called late because its host was.

On each core a process sleeps for a few milliseconds at a time, and notes when it was woken late: nothing that only
waits ran on that core meanwhile, neither the server's pacer nor who receives its packets.
"""
import multiprocessing
import os
import time
from multiprocessing.connection import Connection
from typing import List, NamedTuple, Tuple

from checks import Checks
from rtsp_client.rtp import Packet, Reception

# A witness sleeps so long at a time, and the core stood still where it is woken so much too late, in seconds.
SLEEP, STILL = 0.002, 0.005
# A play that is late by so many seconds or less is on time at once (crates/rtsp_pacing/src/when.rt).
AT_ONCE = 0.05
# A packet has to come within so many milliseconds.
AT_MOST_LATE = 40.0
# Of the packets of a play at least one in so many has to be judged.
JUDGED_OF = 10
# The machine is calm where its cores stand still for less than this of a look of a second, in seconds.
CALM, LOOK = 0.05, 1.0


class Stall(NamedTuple):
    """From when to when a core did nothing, on the clock of time.monotonic."""

    begin: float
    end: float


def watch(core: int, until_told: Connection) -> None:
    """Watches a core until it is told to end, and then tells of its stalls."""
    os.sched_setaffinity(0, {core})
    stalls: List[Stall] = []
    due = time.monotonic() + SLEEP
    while not until_told.poll():
        time.sleep(max(due - time.monotonic(), 0))
        woken = time.monotonic()
        if woken - due > STILL:
            stalls.append(Stall(due, woken))
        due = woken + SLEEP
    until_told.send(stalls)


class Witness:
    """Processes that watch all cores while a test runs; they are started before its threads."""

    def __enter__(self) -> "Witness":
        self.watched: List[Tuple[multiprocessing.Process, Connection]] = []
        for core in os.sched_getaffinity(0):
            here, there = multiprocessing.Pipe()
            process = multiprocessing.Process(target=watch, args=(core, there), daemon=True)
            process.start()
            self.watched.append((process, here))
        return self

    def __exit__(self, *_: object) -> None:
        for process, _ in self.watched:
            process.kill()
            process.join()

    def stalls(self) -> List[Stall]:
        """The stalls of all cores up to now, which ends the watch."""
        for _, here in self.watched:
            here.send(None)
        return [Stall(*stall) for _, here in self.watched for stall in here.recv()]


def wait_for_calm(seconds: float) -> None:
    """Waits until the machine stands still no longer, for so many seconds at most."""
    until = time.monotonic() + seconds
    while time.monotonic() < until:
        with Witness() as witness:
            time.sleep(LOOK)
            stalls = witness.stalls()
        if sum(stall.end - stall.begin for stall in stalls) < CALM:
            return


def with_catching_up(stall: Stall) -> Stall:
    """A stall with as much time behind it as a play takes to catch up at twice its pace, where it isn't on time at once."""
    length = stall.end - stall.begin
    return stall if length <= AT_ONCE else Stall(stall.begin, stall.end + length)


class Punctuality:
    """Judges how late packets came, but for those that were due while a core stood still, or a play caught up."""

    def __init__(self, checks: Checks, stalls: List[Stall]) -> None:
        self.checks = checks
        self.stalls = [with_catching_up(stall) for stall in stalls]

    def stood_still(self, begin: float, end: float) -> bool:
        return any(stall.begin < end and begin < stall.end for stall in self.stalls)

    def judge(self, where: str, came: Reception, packets: List[Packet]) -> None:
        """That each packet of one play came in time."""
        late = zip(packets, came.late(packets))
        judged = [it for packet, it in late if not self.stood_still(packet.at - it / 1000, packet.at)]
        share = f"{len(judged)} of {len(packets)} packets"
        is_judged = JUDGED_OF * len(judged) >= len(packets)
        self.checks.that(f"{where}: the machine let one in {JUDGED_OF} packets be judged", is_judged, share)
        most = max(judged, default=0.0)
        self.checks.that(f"{where}: each at most {AT_MOST_LATE} ms late", most <= AT_MOST_LATE, (most, share))
