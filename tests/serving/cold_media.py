"""Films of which the system keeps nothing, and a disk of films that blocks: nobody else waits, neither for packets nor for
answers, nor whoever stops the server."""
import contextlib
import itertools
import os
import pathlib
import signal
import statistics
import tempfile
import time
from typing import Iterator, List

from checks import Checks
from rtsp_client.player import Player

from .disks import Disk
from .failing_disks import until
from .operator import figures
from .plays import numbers_fit
from .runner import serving_test
from .server import Presentation, Server, Track
from .slow_media import (
    FAILURES,
    PLAYED,
    PLAYED_UNITS,
    QUICK,
    SLOW,
    STOPS_WITHIN,
    STREAMS,
    UNIT_MS,
    UNITS,
    player_of,
    server_of,
    write_film,
)
from .waiting_disks import SECOND, Audience, play_all

FORGOTTEN = Presentation("forgotten", UNITS, UNIT_MS, (Track("forgotten", 96, "MP2T", 1316, 32),))
# How long each read is held up of what the system forgets, and how late another play's packet may be, in milliseconds.
READ_MS, LATE_MS = 300, 100
# A film of which each read takes less time than what is read plays, is late by its first reads alone.
ITS_OWN_LATE = 2 * READ_MS + LATE_MS
# A read that a disk blocks comes back after the test. As many plays are begun of it, each from another place.
BLOCKED_MS, BLOCKED_PLAYS = 120_000, 8
APART = 60.0
# How long others wait for an answer while it blocks, in milliseconds, and so many are asked.
ANSWERED_MS, ASKED = 200, 50
# Where files are on another disk than the folders of the tests.
OTHER_DISK = pathlib.Path("/dev/shm")
STOP_LEAVES = b"warning the stop leaves a read behind of the file of track 0 of presentation 1"
# Four threads read each disk.
READERS = 4


@contextlib.contextmanager
def elsewhere(server: Server, film: Presentation) -> Iterator[None]:
    """The file of a film will be on another disk, to which the server's folder has a link."""
    with tempfile.TemporaryDirectory(dir=OTHER_DISK) as folder:
        (track,) = film.tracks
        name = f"{track.name}.raw"
        (server.path / name).symlink_to(pathlib.Path(folder) / name)
        yield


def has_another_disk(server: Server) -> bool:
    return OTHER_DISK.is_dir() and os.stat(OTHER_DISK).st_dev != os.stat(server.path).st_dev


@serving_test(limit=60, is_alone=True)
def a_film_that_the_system_forgets(checks: Checks) -> None:
    """Each read of it waits for its disk: it comes whole, late by its first read alone, and no other play is late by it."""
    server, disk, port = server_of(checks, QUICK, FORGOTTEN)
    write_film(server, QUICK)
    write_film(server, FORGOTTEN, 0.0)
    with server, Audience(QUICK) as all:
        play_all(checks, server, all.port, STREAMS)
        disk.meet("read of what is forgotten", late=READ_MS)
        player = player_of(server, FORGOTTEN)
        began = time.monotonic()
        player.play(0.0, PLAYED)
        checks.that("it comes to its end", player.listen(20 * PLAYED))
        took = (time.monotonic() - began - PLAYED) * SECOND
        numbers_fit(checks, "what is forgotten", player.streams[0], FORGOTTEN.tracks[0], PLAYED_UNITS)
        checks.that(f"it ends at most {ITS_OWN_LATE} ms late", took <= ITS_OWN_LATE, took)
        checks.that("its reads were held up", disk.asked("read of what is forgotten") >= READERS)
        late = [it.late for it in all.heard().arrivals]
        checks.that("the others went on", len(late) > STREAMS * PLAYED_UNITS, len(late))
        checks.that(f"their packets came at most {LATE_MS} ms late", max(late) <= LATE_MS, max(late))
        checks.same("failures", 0, figures(port)[FAILURES])
        player.tear_down()


def play_blocked(checks: Checks, server: Server, disk: Disk) -> List[Player]:
    """Plays of a film whose disk blocks, as many as keep all that reads it."""
    disk.meet("read", late=BLOCKED_MS)
    players = []
    for place in range(BLOCKED_PLAYS):
        players.append(player_of(server, SLOW))
        players[-1].play(place * APART)
    checks.that("all that reads it is kept", until(lambda: disk.asked("read") == READERS), disk.asked("read"))
    return players


def comes_meanwhile(checks: Checks, server: Server) -> None:
    """A film of which nothing was read comes whole, and no later than its reads take."""
    player = player_of(server, QUICK)
    began = time.monotonic()
    player.play(0.0, PLAYED)
    checks.that("the film of another disk comes to its end", player.listen(4 * PLAYED))
    took = (time.monotonic() - began - PLAYED) * SECOND
    checks.that("it is not late", took <= ANSWERED_MS + LATE_MS, took)
    numbers_fit(checks, "the film of another disk", player.streams[0], QUICK.tracks[0], PLAYED_UNITS)
    player.tear_down()


def answers_meanwhile(checks: Checks, server: Server) -> None:
    """Each answer of a connection of its own comes at once."""
    took = []
    for _, method in zip(range(ASKED), itertools.cycle(["OPTIONS", "DESCRIBE"])):
        began = time.monotonic()
        talk = server.connect()
        checks.same(method, 200, talk.ask(method, server.uri).status)
        talk.close()
        took.append((time.monotonic() - began) * SECOND)
    checks.that(f"each within {ANSWERED_MS} ms", max(took) <= ANSWERED_MS, max(took))
    checks.that("in the middle at once", statistics.median(took) <= ANSWERED_MS / 4, statistics.median(took))


def ends_in_time(checks: Checks, server: Server, reads: int) -> None:
    """A stop leaves so many reads behind, and tells so."""
    server.process.send_signal(signal.SIGTERM)
    began = time.monotonic()
    checks.same("the status", 0, server.ends(STOPS_WITHIN + 20.0))
    took = time.monotonic() - began
    checks.that(f"it ends within {STOPS_WITHIN} s", took <= STOPS_WITHIN, took)
    told = [it.partition(b" ")[2] for it in server.process.stderr.read().splitlines()]
    checks.same("the last lines", [*[STOP_LEAVES] * reads, b"info stopped"], told[-reads - 1 :])


@serving_test(limit=60, is_timed=True)
def a_disk_of_films_that_blocks(checks: Checks) -> None:
    """All are answered meanwhile, also who plays its film, and a stop doesn't wait for it."""
    server, disk, port = server_of(checks, QUICK, SLOW)
    write_film(server, QUICK)
    write_film(server, SLOW)
    with server:
        players = play_blocked(checks, server, disk)
        answers_meanwhile(checks, server)
        for player in players:
            checks.same("a PAUSE of its film", 200, player.pause().status)
        checks.same("what is late is no failure", 0, figures(port)[FAILURES])
        ends_in_time(checks, server, READERS)
        for player in players:
            player.close()


@serving_test(limit=60, is_timed=True)
def a_disk_has_readers_of_its_own(checks: Checks) -> None:
    """Films of another disk come in time while one blocks all that reads it."""
    server, disk, _ = server_of(checks, QUICK, SLOW)
    if not has_another_disk(server):
        checks.skip("a disk beside one that blocks", "all folders are on one disk here")
        server.folder.cleanup()
        return
    with elsewhere(server, QUICK):
        write_film(server, QUICK, 0.0)
        write_film(server, SLOW)
        with server:
            players = play_blocked(checks, server, disk)
            comes_meanwhile(checks, server)
            ends_in_time(checks, server, READERS)
            for player in players:
                player.close()


# So often a player seeks, each time to what wasn't read yet; each seek has two parts of 131,600 bytes read.
SEEKS, PART_MS = 750, 400
MEBIBYTE = 1 << 20
# What is kept of all films, of an uplink below 250 Mbit/s, and what a server takes besides, in MiB.
KEPT_MIB, BESIDES_MIB = 64, 24


@serving_test(limit=60, is_timed=True)
def little_is_kept_of_films(checks: Checks) -> None:
    """However a player seeks, no more of a film is kept in memory than there is room for."""
    server, _, _ = server_of(checks, QUICK, SLOW)
    write_film(server, QUICK)
    write_film(server, SLOW)
    with server:
        player = player_of(server, QUICK)
        before, most = server.resident_bytes(), 0
        for number in range(SEEKS):
            player.play(number % (SEEKS // 2) * 2 * PART_MS / SECOND)
            most = max(most, server.resident_bytes())
        grown = (most - before) / MEBIBYTE
        checks.that(f"it grows by {KEPT_MIB + BESIDES_MIB} MiB at most", grown <= KEPT_MIB + BESIDES_MIB, grown)
        checks.that("what is read is kept", grown >= 2, grown)
        player.tear_down()
