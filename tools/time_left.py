"""How long a build may still take, by the minutes that each crate took in a first build (tools/build-minutes).

A plan of the build is made of them twice: of all of it, and of what is left. What this build took for the part between
says how its minutes compare with those, the more the longer it has run.
"""
import contextlib
import pathlib
from typing import Dict, List, NamedTuple, Optional, Set

from side_by_side import MOST_JOBS, TOP, Uses, chains_of, cost, is_kept

MEASURED = TOP / "tools/build-minutes"
# So many minutes of the plan count as seen before the build begins, each as long as it was then.
PRIOR = 4.0
# Minutes of a crate that is gone over, since it was built before.
GONE_OVER = 0.05
# A crate that hasn't ended has such a part of it left at least.
LEAST_LEFT = 0.1


def measured() -> Dict[str, float]:
    """Minutes of each crate that was measured."""
    with contextlib.suppress(OSError):
        lines = [line.split() for line in MEASURED.read_text().splitlines() if not line.startswith("#")]
        return {name: float(minutes) for name, minutes in lines}
    return {}


def write_measured(path: pathlib.Path, minutes: Dict[str, float]) -> None:
    path.write_text("".join(f"{name} {minutes[name]:.1f}\n" for name in minutes))


def minutes_of(uses: Uses) -> Dict[str, float]:
    """Minutes of each crate; those of one that wasn't measured go by its code."""
    known = {name: minutes for name, minutes in measured().items() if name in uses}
    code = {name: cost(name) for name in uses}
    rate = sum(known.values()) / sum(code[it] for it in known) if known else 1 / min(code.values())
    return {name: GONE_OVER if is_kept(name) else known.get(name, code[name] * rate) for name in uses}


class Begun(NamedTuple):
    """A crate that is being proved: by how many jobs, for how many seconds, and which part is left, where one knows."""

    jobs: int
    seconds: float = 0.0
    left: Optional[float] = None


class TimeLeft:
    """What is left of one build of these crates by so many jobs at once."""

    def __init__(self, uses: Uses, at_once: int) -> None:
        self.uses = uses
        self.at_once = max(at_once, 1)
        self.minutes = minutes_of(uses)
        self.chains = chains_of(uses, self.minutes)
        self.whole = self.planned(set(), {})
        # How long a minute of the plan is.
        self.pace = 1.0

    def length(self, name: str, begun: Begun) -> float:
        """Minutes of the plan that are left of a crate."""
        passed = begun.seconds / 60 / self.pace / self.minutes[name]
        return self.minutes[name] * max(LEAST_LEFT, 1 - passed if begun.left is None else begun.left)

    def planned(self, proved: Set[str], running: Dict[str, Begun]) -> float:
        """The minutes until all is proved, where crates are begun as the build begins them."""
        now, done = 0.0, {*proved}
        ends = {name: self.length(name, begun) for name, begun in running.items()}
        jobs = {name: begun.jobs for name, begun in running.items()}
        left = {*self.uses} - done - {*ends}
        while left or ends:
            ready: List[str] = [it for it in left if done.issuperset(self.uses[it])]
            ready.sort(key=lambda it: -self.chains[it])
            for at, name in enumerate(ready):
                free = self.at_once - sum(jobs.values())
                if free <= 0:
                    break
                jobs[name] = min(max(free // (len(ready) - at), 1), MOST_JOBS)
                ends[name] = now + self.minutes[name]
                left.remove(name)
            first = min(ends, key=lambda it: ends[it])
            now = ends.pop(first)
            del jobs[first]
            done.add(first)
        return now

    def seconds(self, elapsed: float, proved: Set[str], running: Dict[str, Begun]) -> float:
        """How long it may still take, where it has taken so many seconds until now."""
        left = self.planned(proved, running)
        seen = max(self.whole - left, 0.0)
        self.pace = (elapsed / 60 + PRIOR) / (seen + PRIOR)
        return left * self.pace * 60


def spoken(seconds: float) -> str:
    """A time as it may be promised: in steps of five minutes where it is long."""
    minutes = seconds / 60
    if minutes < 1:
        return "less than a minute left"
    step = 5 if minutes > 17.5 else 1
    return f"about {max(round(minutes / step) * step, 1)} min left"
