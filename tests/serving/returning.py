"""Films that go and come back: where their files are as they were they have their own place again, and nothing grows."""
import concurrent.futures
import os
import shutil
import threading
import time
from typing import Dict

from checks import Checks
from rtsp_client.player import Player, Way

from .disks import Disk
from .failing_disks import until
from .growth import AT_MOST, CLOSED, SHORT, THIRD, Growing, plays_whole
from .plays import set_up_all
from .runner import serving_test
from .server import TONE, Presentation, Track
from .slow_growth import LATE, OPENING

# A film that isn't held in memory, and how many of its units have octets of their own.
LARGE, FILLED = Presentation("large", 1_800_000, 20, (Track("l"),)), 300
# So much memory may come and go, in bytes.
SPARE = 2_000_000


def goes(server: Growing, *left: Presentation) -> None:
    """What isn't left is withdrawn, and its files are closed."""
    files = server.descriptors_at_rest()
    server.offer(*left)
    server.checks.that("its files are closed", server.descriptors_fall_to(files - 1, CLOSED) < files, server.descriptors())
    # Those of a film are closed at once, while they are counted one by one.
    time.sleep(0.2)


def taken(server: Growing) -> Dict[str, int]:
    """What must not grow."""
    return {
        "presentations": server.figure("rtspd_presentations"),
        "places": server.figure("rtspd_places"),
        "descriptors": server.descriptors_at_rest(),
        "threads": len(os.listdir(f"/proc/{server.process.pid}/task")),
    }


@serving_test(limit=90)
def a_film_comes_back_at_its_place(checks: Checks) -> None:
    """It is played as its files have it, over both ways, and takes no further place; another one does."""
    server = Growing(checks, TONE)
    server.put_media(SHORT, THIRD)
    with server:
        server.offer(TONE, SHORT)
        before = taken(server)
        checks.same("places", 2, before["places"])
        for way in Way.TCP, Way.UDP:
            goes(server, TONE)
            checks.same("while it is gone", (404, 1), (server.described(SHORT), server.figure("rtspd_places")))
            server.offer(TONE, SHORT)
            plays_whole(checks, server, SHORT, way)
            checks.same("once it is back", before, taken(server))
        server.offer(TONE, SHORT, THIRD)
        checks.same("places with one more", 3, server.figure("rtspd_places"))


def gets_a_new_place(checks: Checks, server: Growing, what: str, *content: Track) -> None:
    """A film that went comes back as another one."""
    places = server.figure("rtspd_places")
    server.offer(TONE, SHORT)
    checks.same(f"{what}: places", places + 1, server.figure("rtspd_places"))
    plays_whole(checks, server, SHORT, Way.TCP, *content)


@serving_test(limit=120)
def a_film_that_comes_back_as_another_gets_a_new_place(checks: Checks) -> None:
    """By a new file, by one that was written over, though it has length and time of the old one, and by other keys."""
    server = Growing(checks, TONE)
    server.put_media(SHORT)
    other, further = Track("z"), Track("y")
    with server:
        server.offer(TONE, SHORT)
        goes(server, TONE)
        server.put_media(SHORT, content=other)
        gets_a_new_place(checks, server, "new files", *(it._replace(name="z") for it in SHORT.tracks))
        goes(server, TONE)
        for track in SHORT.tracks:
            file = server.path / f"{track.name}.raw"
            was = file.stat()
            file.write_bytes(b"".join(further.unit(number) for number in range(SHORT.units)))
            os.utime(file, ns=(was.st_atime_ns, was.st_mtime_ns))
            checks.same("its length and its time", (was.st_size, was.st_mtime_ns), (file.stat().st_size, file.stat().st_mtime_ns))
        gets_a_new_place(checks, server, "written over", *(it._replace(name="y") for it in SHORT.tracks))
        goes(server, TONE)
        places = server.figure("rtspd_places")
        server.offer(TONE, SHORT._replace(unit_ms=40))
        checks.same("other keys: places", places + 1, server.figure("rtspd_places"))


@serving_test(limit=90)
def a_film_that_changes_while_it_is_opened(checks: Checks) -> None:
    """Its file is looked at, and another one is there once it is opened: who comes gets that one, at a new place."""
    server = Growing(checks, TONE)
    disk = Disk(server.path)
    server.environment = disk.environment
    server.put_media(LATE)
    with server:
        server.offer(TONE, LATE)
        goes(server, TONE)
        disk.meet(OPENING, 1, 1, late=2_000)
        server.put(server.text_of(TONE, LATE))
        checks.that("it is being opened", until(lambda: disk.asked(OPENING) == 1), disk.asked(OPENING))
        server.put_media(LATE, content=Track("z"))
        checks.that("it is taken up", until(lambda: server.number() == 3), server.number())
        checks.same("places", 2, server.figure("rtspd_places"))
        plays_whole(checks, server, LATE, Way.TCP, LATE.tracks[0]._replace(name="z"))


def begins_whole(checks: Checks, player: Player, where: str) -> None:
    """Of a film that is read ahead, what is at its beginning."""
    (stream,) = set_up_all(player)
    player.play(0.0)
    player.listen(6.0, lambda: len(stream.reception.packets) >= 150)
    came = [it.payload for it in stream.reception.packets]
    checks.that(f"{where}: its units come", len(came) >= 150, len(came))
    checks.same(f"{where}: as the file has them", [*map(LARGE.tracks[0].unit, range(len(came)))], came)
    player.tear_down()


@serving_test(limit=120, is_timed=True)
def a_film_too_large_for_memory_comes_back(checks: Checks) -> None:
    """What was kept of it while it was there isn't in the way of what is read anew, by another descriptor."""
    server = Growing(checks, TONE)
    server.put_media(SHORT)
    with server:
        (server.path / "l.raw").write_bytes(b"".join(map(LARGE.tracks[0].unit, range(FILLED))))
        os.truncate(server.path / "l.raw", LARGE.units * LARGE.tracks[0].octets)
        server.offer(TONE, LARGE)
        begins_whole(checks, server.player_of(LARGE, Way.TCP), "at first")
        goes(server, TONE)
        # Its descriptor is then another one's.
        server.offer(TONE, SHORT)
        before = taken(server)
        server.offer(TONE, SHORT, LARGE)
        begins_whole(checks, server.player_of(LARGE, Way.TCP), "once it is back")
        after = taken(server)
        checks.same("descriptors", before["descriptors"] + 1, after["descriptors"])
        checks.same("places and threads", (before["places"] + 1, before["threads"]), (after["places"], after["threads"]))


@serving_test(limit=90)
def a_copy_that_comes_back_is_another(checks: Checks) -> None:
    """Its media were copied, with their times, and the copy has come in their place: another file."""
    server = Growing(checks, TONE)
    server.put_media(SHORT)
    with server:
        server.offer(TONE, SHORT)
        goes(server, TONE)
        for track in SHORT.tracks:
            shutil.copy2(server.path / f"{track.name}.raw", server.path / "copy.raw")
            (server.path / "copy.raw").rename(server.path / f"{track.name}.raw")
        gets_a_new_place(checks, server, "copies")


def turns(checks: Checks, changes: int, closes_each: int) -> None:
    """Changes in turn, as fast as they are taken up; of those that withdraw a film each of this many is waited for until
    the film's files are closed. Beside them a play, and afterwards nothing has grown."""
    film = TONE._replace(units=max(3_000, changes * 200))
    server, over = Growing(checks, film), threading.Event()
    server.put_media(SHORT)
    with server, concurrent.futures.ThreadPoolExecutor(1) as pool:
        server.offer(film, SHORT)
        goes(server, film)
        server.offer(film, SHORT)
        before, memory = taken(server), server.resident_bytes()
        player = server.player_of(film, Way.UDP)
        streams = set_up_all(player)
        player.play(0.0)
        listening = pool.submit(player.listen, changes * 8.0 + 60.0, over.is_set)
        try:
            for turn in range(changes // 2):
                (goes if turn % closes_each == 0 else Growing.offer)(server, film)
                server.offer(film, SHORT)
        finally:
            over.set()
        listening.result()
        for stream, track in zip(streams, film.tracks):
            came = [it.payload for it in stream.reception.packets]
            checks.that(f"the play goes on, {track.name}", len(came) > 50 * changes, len(came))
            checks.same(f"as the file has it, {track.name}", [*map(track.unit, range(len(came)))], came)
        player.tear_down()
        plays_whole(checks, server, SHORT, Way.TCP)
        time.sleep(AT_MOST)
        checks.same("what it has", before, taken(server))
        grown = server.resident_bytes() - memory
        checks.that("memory", grown < SPARE, grown)


@serving_test(limit=180, is_long=True)
def a_film_that_goes_and_comes_back(checks: Checks) -> None:
    """Twelve changes, of which each that withdraws it closes its files."""
    turns(checks, 12, 1)


@serving_test(limit=1_500, is_by_name=True)
def a_film_that_goes_and_comes_back_for_long(checks: Checks) -> None:
    """Three hundred changes, of which one in ten closes the files."""
    turns(checks, 300, 5)
