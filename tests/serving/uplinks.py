"""Plays that are late catch up with what the uplink has free, and keep their pace where it has nothing."""
import bisect
import time
from typing import List

from checks import Checks
from rtsp_client.player import Player, Way

from .plays import runs, side_by_side
from .runner import serving_test
from .server import Presentation, Server
from .stops import stopped

# Six seconds, and so many plays of it.
SHORT = Presentation(units=300, tracks=Presentation().tracks[:1])
PLAYERS = 8
# When the server stops, and for how long, in seconds.
STOPS_AFTER, STOPPED_FOR = 1.0, 2.0
# What all plays together may send in a second, of the uplink that they hold.
OF_THE_UPLINK = 1.15


def most_in_a_second(times: List[float]) -> int:
    """The most packets that came within a second."""
    times = sorted(times)
    return max(bisect.bisect_left(times, begin + 1.0) - place for place, begin in enumerate(times))


@serving_test(limit=40, is_timed=True)
def catching_up_within_the_uplink(checks: Checks) -> None:
    """Eight plays hold the whole uplink, and the server stands still for 2 s: they send no more than it, and all comes."""
    with Server(checks, SHORT, uplink=PLAYERS * SHORT.whole_rate) as server:
        players: List[Player] = [server.player(Way.UDP) for _ in range(PLAYERS)]
        for player in players:
            player.set_up(player.describe()[0])
        for player in players:
            player.play(0.0)
        side_by_side(checks, *(lambda it=it: it.connection.wait(STOPS_AFTER) for it in players))
        with stopped(server):
            side_by_side(checks, *(lambda it=it: it.connection.wait(STOPPED_FOR) for it in players))
        goes_on = time.monotonic()
        side_by_side(checks, *(lambda it=it: it.listen(20.0) for it in players))
        arrivals = [it.at for player in players for it in player.streams[0].reception.packets]
        most = most_in_a_second([at for at in arrivals if at >= goes_on - 0.1])
        allowed = int(OF_THE_UPLINK * PLAYERS * 1000 / SHORT.unit_ms)
        checks.that(f"at most {allowed} packets in a second", most <= allowed, most)
        for number, player in enumerate(players):
            came = player.streams[0].reception
            checks.same(f"player {number}: the units", runs(list(range(SHORT.units))), runs(came.places))
            player.tear_down()
