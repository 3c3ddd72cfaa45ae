"""Places that are given to other films, once nobody has anything of what stood there."""
import concurrent.futures
import time
from typing import Dict

from checks import Checks
from rtsp_client.player import Player, Way

from .growth import AT_MOST, CLOSED, SHORT, Growing, Play, plays_whole
from .plays import numbers_fit, set_up_all
from .returning import SPARE, goes, taken
from .runner import serving_test
from .server import TONE, Presentation, Track, is_alive

# So long it takes until a withdrawn film's place is free, in seconds: its files stay open for a while.
FREED = 2 * CLOSED
# The figure of what was sent of a film over TCP.
SENT = "rtspd_presentation_sent_bytes_total,presentation=%s,transport=TCP"


def film_of(number: int) -> Presentation:
    """A film that was never there before."""
    return Presentation(f"film{number}", 100, 20, (Track(f"n{number}"),))


def brings(server: Growing, number: int, *beside: Presentation) -> Presentation:
    """A new film comes, and the one before it goes."""
    film = film_of(number)
    server.put_media(film)
    server.offer(*beside, film)
    for track in film_of(number - 4).tracks:
        (server.path / f"{track.name}.raw").unlink(missing_ok=True)
    return film


def come_to(server: Growing, places: int) -> int:
    """How many places are in use, once it is as many as wanted or the time is over."""
    end = time.monotonic() + FREED
    while server.figure("rtspd_places") != places and time.monotonic() < end:
        time.sleep(0.1)
    return server.figure("rtspd_places")


def paused(server: Growing, film: Presentation, way: Way) -> Player:
    player = server.player_of(film, way)
    set_up_all(player)
    player.play(0.0)
    player.listen(0.4)
    player.pause()
    return player


def new_films(checks: Checks, changes: int) -> None:
    """Changes of which each brings a film under a new name, beside a session that pauses in one that was withdrawn."""
    server = Growing(checks, TONE)
    first = film_of(0)
    server.put_media(first)
    with server:
        server.offer(TONE, first)
        player = server.player_of(first, Way.TCP)
        streams = set_up_all(player)
        for number in range(1, 9):
            brings(server, number, TONE)
        checks.same("places before", 3, come_to(server, 3))
        before, memory = taken(server), server.resident_bytes()
        for number in range(9, 9 + changes):
            film = brings(server, number, TONE)
            checks.that("the session lives", is_alive(player.connection, player.uri, player.session or ""))
        checks.same("places", 3, come_to(server, 3))
        time.sleep(AT_MOST)
        checks.same("what it has", before, taken(server))
        grown = server.resident_bytes() - memory
        checks.that("memory", grown < SPARE, grown)
        plays_whole(checks, server, film, Way.UDP)
        player.play(0.0)
        checks.that("who had the first one plays it to its end", player.listen(12))
        numbers_fit(checks, "the first one", streams[0], first.tracks[0], first.units)
        player.tear_down()
        checks.same("once its session has ended", 2, come_to(server, 2))


@serving_test(limit=150)
def new_films_take_no_more_places(checks: Checks) -> None:
    """A dozen changes."""
    new_films(checks, 12)


@serving_test(limit=1_500, is_by_name=True)
def new_films_take_no_more_places_for_long(checks: Checks) -> None:
    """Three hundred."""
    new_films(checks, 300)


@serving_test(limit=180)
def a_film_is_replaced_again_and_again(checks: Checks) -> None:
    """Under its one name, as a daily programme is: at a place before that of a session which has an old one, too. Each who
    comes gets the new one, and who has an old one its octets; what was counted of the name never falls."""
    server = Growing(checks, SHORT, TONE)
    contents = [Track(name) for name in "zyx"]
    with server, concurrent.futures.ThreadPoolExecutor(1) as pool:
        old = server.player_of(TONE, Way.TCP)
        (stream, _) = set_up_all(old)
        goes(server, TONE)
        checks.same("the first place is free", 1, come_to(server, 1))
        sent = 0
        for number, content in enumerate(contents):
            server.put_media(TONE, content=content)
            server.offer(TONE)
            play = Play(pool, server.player_of(TONE, Way.TCP), 25)
            play.fits(checks, f"the new one, {content.name}", tuple(it._replace(name=content.name) for it in TONE.tracks), TONE.units)
            now = int(server.figure(SENT % TONE.name))
            checks.that("what was sent of it", now > sent, (sent, now))
            sent = now
            if number == 0:
                checks.same("places", 2, server.figure("rtspd_places"))
        checks.same("places", 2, come_to(server, 2))
        old.play(0.0)
        checks.that("who had the first one", old.listen(25))
        numbers_fit(checks, "who had the first one", stream, TONE.tracks[0], TONE.units)
        old.tear_down()
        checks.same("places once it is over", 1, come_to(server, 1))


def by_place(server: Growing) -> Dict[str, int]:
    return {"places": server.figure("rtspd_places"), "presentations": server.figure("rtspd_presentations")}


@serving_test(limit=150)
def a_place_is_kept_for_who_has_it(checks: Checks) -> None:
    """By a play over each way, by a pause, and by what was only set up: others are given anew meanwhile, and each has its
    own octets to the end; each end frees a place."""
    films = [film_of(number) for number in range(4)]
    server = Growing(checks, TONE)
    server.put_media(*films)
    long = [film._replace(units=600) for film in films]
    server.put_media(*long)
    with server, concurrent.futures.ThreadPoolExecutor(2) as pool:
        server.offer(TONE, *long)
        plays = [Play(pool, server.player_of(film, way), 30) for film, way in zip(long, (Way.UDP, Way.TCP))]
        stopped = paused(server, long[2], Way.TCP)
        ready = server.player_of(long[3], Way.TCP)
        (stream,) = set_up_all(ready)
        for number in range(4, 9):
            brings(server, number, TONE)
        checks.same("all four are kept", {"places": 6, "presentations": 2}, (come_to(server, 6), by_place(server))[1])
        for film, play in zip(long, plays):
            play.fits(checks, f"{film.name} over {play.player.way.value}", film.tracks, film.units)
        checks.same("without those that play", 4, come_to(server, 4))
        stopped.tear_down()
        checks.same("without the one that paused", 3, come_to(server, 3))
        brings(server, 9, TONE)
        ready.play(0.0)
        checks.that("what was set up plays", ready.listen(20))
        numbers_fit(checks, "what was set up", stream, long[3].tracks[0], long[3].units)
        ready.tear_down()
        checks.same("in the end", 2, come_to(server, 2))
