"""A strict reader of the page of figures: its sections, in each the rows with their numbers, and its plots."""
import re
from typing import Dict, List, Tuple

# A number with a comma before each three digits.
NUMBER = r"(\d{1,3}(?:,\d{3})*)"
ROWS = {
    "number": re.compile(rf"<tr><th>([^<]+)<td><td class=n>{NUMBER}"),
    "bar": re.compile(rf"<tr><th>([^<]+)<td><meter max=(\d+) value=(\d+)></meter><td class=n>{NUMBER} of {NUMBER}"),
    "answers": re.compile(r"<tr><th>([^<]+)" + rf"<td class=n>{NUMBER}" * 4),
    "player": re.compile(r"<tr><th>(\d+:[0-9a-f]{8})<td>[^<]+<td>(?:UDP|TCP)" + rf"<td class=n>{NUMBER}" * 4),
}
SECTION = re.compile(r"<h2>([^<]+)</h2>\n<table>\n((?:<tr>.*\n)*)</table>\n")
HEADS = {
    "<tr><th><td class=n>2xx<td class=n>3xx<td class=n>4xx<td class=n>5xx",
    "<tr><th><td class=n>watched now<td class=n>plays<td class=n>MB, UDP<td class=n>MB, TCP",
    "<tr><th>session<td>film<td><td class=n>seconds<td class=n>packets<td class=n>lost<td class=n>late",
}
PLOTS = re.compile(r"<h2>The last quarter of an hour</h2>\n((?:<figure>.*</figure>\n)*)")
SVG = '<svg viewBox="0 0 890 100" preserveAspectRatio=none role=img>'
PLOT = re.compile(rf"<figure><figcaption>([^:]+): {NUMBER}, at most {NUMBER}</figcaption>{SVG}(.*)</svg></figure>\n")
CURVE = re.compile(r'<polyline points="((?:\d+,\d+ )*)"/>')
ADDRESSES = '<p>All of them, with their addresses: <a href="/sessions">/sessions</a>\n'
LAST = '<p>The same as text: <a href="/metrics">/metrics</a>\n</html>\n'

Rows = Dict[str, Tuple[int, ...]]
# From the left, and from the top.
Curve = List[Tuple[int, int]]


class Malformed(Exception):
    """What the page hasn't."""


def numbers(texts: Tuple[str, ...]) -> Tuple[int, ...]:
    return tuple(int(it.replace(",", "")) for it in texts)


def row(line: str) -> Tuple[str, Tuple[int, ...]]:
    """What a row is called, and its numbers: of a bar the part and the whole, which the meter shows too."""
    for kind, form in ROWS.items():
        found = form.fullmatch(line)
        if not found:
            continue
        came = numbers(found.groups()[1:])
        if kind != "bar":
            return found[1], came
        most, value, part, whole = came
        if (part, whole) == (value, most):
            return found[1], (part, whole)
    raise Malformed(line)


def curve(text: str) -> Curve:
    points = [tuple(map(int, it.split(","))) for it in text.split()]
    return [(across, down) for across, down in points]


def plots(text: str) -> Dict[str, List[Curve]]:
    """What each plot of a page is called, with its curves. May fail with Malformed."""
    section = PLOTS.search(text)
    if not section or PLOT.sub("", section[1]):
        raise Malformed("its plots")
    found: Dict[str, List[Curve]] = {}
    for name, _, _, curves in PLOT.findall(section[1]):
        if CURVE.sub("", curves):
            raise Malformed(curves)
        found[name] = [curve(it) for it in CURVE.findall(curves)]
    return found


def read(text: str) -> Dict[str, Rows]:
    """The sections of a page. May fail with Malformed."""
    head, mark, rest = text.partition("<h1>rtspd</h1>\n")
    if not mark or not head.startswith("<!doctype html>") or "<script" in text or not rest.endswith(LAST):
        raise Malformed("how it begins or ends")
    plots(rest)
    if SECTION.sub("", PLOTS.sub("", rest)) != ADDRESSES + LAST:
        raise Malformed(SECTION.sub("", rest))
    found: Dict[str, Rows] = {}
    for section in SECTION.finditer(rest):
        lines = [it for it in section[2].splitlines() if it not in HEADS]
        found[section[1]] = dict(map(row, lines))
        if len(found[section[1]]) != len(lines):
            raise Malformed(f"two rows of one name in {section[1]}")
    return found
