"""A strict reader of the text of OpenMetrics 1.0, as far as a server of figures writes it: gauges, counters, histograms."""
import re
from typing import Dict, List, NamedTuple, Optional, Tuple

NAME = re.compile(r"[a-zA-Z_:][a-zA-Z0-9_:]*")
SAMPLE = re.compile(r'([a-zA-Z_:][a-zA-Z0-9_:]*)(?:\{([^}]*)\})? (-?[0-9.]+|\+Inf)')
LABEL = re.compile(r'([a-zA-Z_][a-zA-Z0-9_]*)="([^"\\]*)"')
# What may stand behind the name of a family of each kind.
ENDS = {"gauge": {""}, "counter": {"_total"}, "histogram": {"_bucket", "_count", "_sum"}}

Labels = Tuple[Tuple[str, str], ...]


class Family(NamedTuple):
    """A family: its kind, and its samples by what stands behind its name and their labels."""

    kind: str
    samples: Dict[Tuple[str, Labels], float]


class Malformed(Exception):
    """What isn't as OpenMetrics wants it."""


def labels_of(text: Optional[str]) -> Labels:
    if text is None:
        return ()
    found = LABEL.findall(text)
    if ",".join(f'{name}="{value}"' for name, value in found) != text:
        raise Malformed(f"labels {text!r}")
    return tuple(found)


def check_histogram(name: str, family: Family) -> None:
    buckets: List[Tuple[float, float]] = []
    for (end, labels), value in family.samples.items():
        if end == "_bucket":
            buckets.append((float(dict(labels)["le"]), value))
    if buckets != sorted(buckets) or [value for _, value in buckets] != sorted(value for _, value in buckets):
        raise Malformed(f"{name}: its buckets don't grow")
    if not buckets or buckets[-1][0] != float("inf") or buckets[-1][1] != family.samples[("_count", ())]:
        raise Malformed(f"{name}: its last bucket isn't its count")


def read(text: str) -> Dict[str, Family]:
    """The families of a text. May fail with Malformed."""
    if not text.endswith("# EOF\n") or text.count("# EOF") != 1:
        raise Malformed("its end")
    found: Dict[str, Family] = {}
    name, told = "", set()
    for line in text.removesuffix("# EOF\n").splitlines():
        if line.startswith("# "):
            _, what, of, *rest = line.split(" ", 3)
            if not NAME.fullmatch(of) or what not in ("TYPE", "UNIT", "HELP"):
                raise Malformed(line)
            if of != name:
                if of in found:
                    raise Malformed(f"{of} comes twice")
                name, told = of, set()
                found[name] = Family("", {})
            if what in told or found[name].samples:
                raise Malformed(f"{line}: twice, or behind its samples")
            told.add(what)
            if what == "TYPE":
                if rest[0] not in ENDS:
                    raise Malformed(line)
                found[name] = Family(rest[0], {})
            if what == "UNIT" and not name.endswith(f"_{rest[0]}"):
                raise Malformed(line)
            continue
        sample = SAMPLE.fullmatch(line)
        if not sample or not name or not sample[1].startswith(name):
            raise Malformed(line)
        end, key = sample[1].removeprefix(name), labels_of(sample[2])
        family = found[name]
        if end not in ENDS.get(family.kind, ()) or (end, key) in family.samples:
            raise Malformed(line)
        family.samples[end, key] = float(sample[3])
    for name, family in found.items():
        if not family.samples:
            raise Malformed(f"{name} has no sample")
        if family.kind == "histogram":
            check_histogram(name, family)
    return found
