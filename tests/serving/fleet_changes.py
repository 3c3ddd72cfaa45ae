"""A fleet behind HAProxy that changes while it plays, by the commands of docs/FLEET.md: servers that go, and one that
comes."""
import re
import subprocess
import sys
import time
from typing import List

from checks import TOP, Checks, Failed

from .draining import balanced, comes_to, told_to
from .fleet import (
    AT_FIRST,
    PLAYERS,
    SERVERS,
    TONE,
    Fleet,
    answered,
    come_to_stay,
    ended,
    fleet,
    homes,
    let_go,
    plays_on,
)
from .runner import serving_test

NAMES = "abcd"
# HAProxy asks each agent so often, in seconds, and a little.
ASKED_WITHIN = 1.3
COMMAND = r"`((?:add|set|clear|enable|disable) [^`]+)`"
# Asks the listener of a server's figures from its own machine, and says the status.
ASKS_FOR = """
import http.client, sys
talk = http.client.HTTPConnection(sys.argv[1], 9554, timeout=5, source_address=("127.0.0.1", 0))
talk.request(*sys.argv[2:])
print(talk.getresponse().status)
"""


def commands(point: str) -> List[str]:
    """Those at HAProxy's socket of a point of FLEET.md."""
    lines = (TOP / "docs/FLEET.md").read_text().splitlines()
    found = [it for line in lines if line.startswith(f"- **{point}**") for it in re.findall(COMMAND, line)]
    if not found:
        raise Failed(f"FLEET.md has no command for {point}")
    return found


def status_of(made: Fleet, number: int, method: str, path: str) -> str:
    words = [sys.executable, "-c", ASKS_FOR, SERVERS[number], method, path]
    asked = made.nets.begin(made.nets.inside, *words, stdout=subprocess.PIPE, text=True)
    return asked.communicate(timeout=15)[0].strip()


def is_seen(checks: Checks, made: Fleet, number: int, status: str) -> None:
    there = "servers", NAMES[number]
    checks.that(f"{NAMES[number]} is seen as {status}", comes_to(made.admin, *there, status=status), balanced(made.admin, *there))


def drained(checks: Checks, made: Fleet, number: int, plays: int) -> None:
    """That a server has ended as a drain ends it, with so many plays that their players tore down."""
    checks.same(f"{NAMES[number]}: its status", 0, made.running[SERVERS[number]].wait(10))
    checks.same(f"{NAMES[number]}: plays that ended by themselves", plays, len(made.lines(number, " ended by TEARDOWN: ")))
    last = [it.partition(" ")[2] for it in made.lines(number) if " access " not in it][-2:]
    checks.same(f"{NAMES[number]}: its last lines", ["info drained: the server stops", "info stopped"], last)


@serving_test(limit=90)
def a_fleet_that_drains(checks: Checks) -> None:
    """Two of three servers go, one of which the balancer is told before: no play is cut, new connections go to the third,
    and both come back."""
    with fleet(checks) as made:
        if not made:
            return
        let_go(*come_to_stay(checks, made, 1))
        where = homes(made, *range(len(PLAYERS)))
        players = [where.index([number]) for number in range(AT_FIRST)]
        plays = [plays_on(made, players[0], *way) for way in ([], ["--tcp"])] + [plays_on(made, players[1], "--tcp")]
        *leave, come_back = commands("One goes")
        for command in leave:
            checks.same(command, "", told_to(made.admin, command).strip())
        # As long as HAProxy takes to ask the agent of who is told, too.
        time.sleep(ASKED_WITHIN)
        is_seen(checks, made, 0, "DRAIN")
        for number in 0, 1:
            checks.same("a drain", "200", status_of(made, number, "POST", "/drain"))
            # Who sticks there and comes before HAProxy has asked is closed at once: that is no error of the server.
            late = made.asks(players[number], 3)
            checks.that("late connections that are answered", answered(late) <= 3)
            let_go(late)
            checks.same("ready", "503", status_of(made, number, "GET", "/ready"))
            is_seen(checks, made, number, "DRAIN")
        told_to(made.admin, "clear table servers data.server_id eq 2")
        talks = [made.asks(player, 2) for player in players]
        checks.same("new connections that are answered", [2, 2, 2], [answered(it) for it in talks])
        checks.same("where", [[0, 2], [1, 2], [2]], homes(made, *players))
        for play in plays:
            done = ended(play)
            checks.that("each packet of a play", done.is_whole(TONE.units), done)
        let_go(*talks)
        for number, count in (0, 2), (1, 1):
            drained(checks, made, number, count)
            made.begin_server(number)
        told_to(made.admin, come_back)
        for number in range(AT_FIRST):
            is_seen(checks, made, number, "UP")


@serving_test(limit=60)
def a_fleet_that_grows(checks: Checks) -> None:
    """A fourth server is added without a reload, and the next players come to it: plays there are whole."""
    with fleet(checks) as made:
        if not made:
            return
        talks = come_to_stay(checks, made, 3)
        before = homes(made, 0, 1)
        made.begin_server(AT_FIRST)
        made.tells(AT_FIRST, "listening on")
        for command in commands("One comes"):
            checks.that(command, "o such" not in told_to(made.admin, command))
        is_seen(checks, made, AT_FIRST, "UP")
        for player in 0, 1:
            # As if it had never come.
            told_to(made.admin, f"clear table servers key {PLAYERS[player]}")
            talks.append(made.asks(player, 1))
            checks.same("a new player is answered", 1, answered(talks[-1]))
        checks.same("where", [[*there, AT_FIRST] for there in before], homes(made, 0, 1))
        for way in [], ["--tcp"]:
            done = ended(made.begin_play(0, "--seconds", "2", *way))
            checks.that(f"a play {way or 'over UDP'}: each packet", done.is_whole(100), done)
        checks.same("plays there", 2, len(made.lines(AT_FIRST, PLAYERS[0], '"PLAY"')))
        let_go(*talks)
