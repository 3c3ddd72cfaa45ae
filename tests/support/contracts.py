"""The functions and types of the crates, by which a name in a document or a picture is looked up."""
import functools
import re
from dataclasses import dataclass, field
from typing import Iterator, Set, Tuple

from checks import TOP

# The first line of what has methods, and one of a function, as rt fmt lays them out.
OWNER = re.compile(r"(?:pub(?:\(\w+\))? )?(?:unsafe )?(?:impl|trait)\b(.*)")
FUNCTION = re.compile(r"\s*(?:pub(?:\(\w+\))? )?(?:const )?fn (\w+)")
TYPE = re.compile(r"(?m)^pub (?:struct|enum|trait|type) (\w+)")


@dataclass
class Sources:
    """What the sources have: laws; functions and types by their owner, a type or a crate; functions, each with its
    owner and its crate; and every word."""

    laws: Set[str] = field(default_factory=set)
    owned: Set[Tuple[str, str]] = field(default_factory=set)
    placed: Set[Tuple[str, str, str]] = field(default_factory=set)
    words: Set[str] = field(default_factory=set)


def functions(text: str) -> Iterator[Tuple[Set[str], str]]:
    """The functions of a source, each with the words of the first line of the block that it stands in."""
    owner: Set[str] = set()
    for line in text.splitlines():
        block, function = OWNER.match(line), FUNCTION.match(line)
        if block:
            owner = set(re.findall(r"\w+", block[1]))
        elif line == "}":
            owner = set()
        if function:
            yield owner, function[1]


@functools.lru_cache(maxsize=None)
def sources() -> Sources:
    found = Sources()
    for crate in sorted((TOP / "crates").iterdir()):
        for path in (*sorted((crate / "src").rglob("*.rt")), *sorted((crate / "specs").rglob("*.antt"))):
            text = path.read_text()
            found.words.update(re.findall(r"\w+", text))
            found.owned.update((crate.name, name) for name in TYPE.findall(text))
            for owner, name in functions(text):
                found.laws.update({name} if name.startswith("law_") else ())
                found.owned.update((word, name) for word in owner | {crate.name})
                found.placed.update((crate.name, word, name) for word in owner | {crate.name})
    return found
