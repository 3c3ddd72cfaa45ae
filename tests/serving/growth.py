"""Content that changes while it is served: a film is added, withdrawn or replaced, and no play notices."""
import concurrent.futures
import os
import subprocess
import time
from typing import List, Optional, Tuple

import film_player
from checks import Checks
from films import IMPORT
from rtsp_client.connection import Connection
from rtsp_client.player import Player, Way

from .events import Telling, is_told, stops
from .film_players import Kind, is_here, is_whole
from .many_plays import ManyPlays
from .operator import figures, shown_at
from .plays import numbers_fit, set_up_all
from .runner import serving_test
from .server import TONE, Presentation, Track, configuration, lease

# A changed configuration is served within so many seconds; on a busy machine it may take more.
TAKEN, AT_MOST = 2.0, 12.0
# The files of what is withdrawn and watched by nobody are closed within so many seconds.
CLOSED = 15.0
SHORT = Presentation("short", 150, 20, (Track("c"), Track("d", 8, "PCMA")))
THIRD = Presentation("third", 100, 20, (Track("e"),))
TRANSPORT = ("Transport", 'RTP/AVP;unicast;dest_addr=":9"/":9"')


class Growing(Telling):
    """A server whose configuration is changed."""

    def text_of(self, *films: Presentation, **server: object) -> str:
        given = {"uplink": 10**8, "status": f'"127.0.0.1:{self.shown[0]}"', **self.given, **server}
        texts = [configuration(film, self.first_port, pairs=self.pairs, **given) for film in films]
        return texts[0] + "".join("[[presentation]]" + text.partition("[[presentation]]")[2] for text in texts[1:])

    def __init__(self, checks: Checks, *films: Presentation, **server: object) -> None:
        super().__init__(checks, films[0], pairs=32)
        self.shown = shown_at()
        self.given = {key: it for key, it in server.items() if key != "holds_signals"}
        self.holds_signals = bool(server.get("holds_signals"))
        self.text = self.text_of(*films)
        self.put_media(*films)

    def put_media(self, *films: Presentation, content: Optional[Track] = None) -> None:
        """The files of these films, each put in its place at once: as their tracks have them, or one that is given."""
        for film in films:
            for track in film.tracks:
                new = self.path / "new.raw"
                new.write_bytes(b"".join((content or track).unit(number) for number in range(film.units)))
                new.rename(self.path / f"{track.name}.raw")

    def put(self, text: str) -> None:
        """Puts a configuration in the place of that which is there."""
        new = self.path / "new.toml"
        new.write_text(text)
        new.rename(self.path / "server.toml")

    def offer(self, *films: Presentation, **server: object) -> None:
        """Has these films offered, and waits until they are."""
        before = self.number()
        began = time.monotonic()
        self.put(self.text_of(*films, **server))
        while self.number() == before and time.monotonic() < began + AT_MOST:
            time.sleep(0.05)
        self.checks.same("the configuration is taken up", before + 1, self.number())
        self.took = time.monotonic() - began

    def figure(self, name: str) -> int:
        return int(figures(self.shown[0])[name])

    def number(self) -> int:
        return self.figure("rtspd_content_number")

    def uri_of(self, film: Presentation) -> str:
        return self.uri.rpartition("/")[0] + f"/{film.name}"

    def player_of(self, film: Presentation, way: Way) -> Player:
        return Player(self.uri_of(film), way)

    def described(self, film: Presentation) -> int:
        """The status of a description by somebody who comes."""
        talk = self.connect()
        status = talk.ask("DESCRIBE", self.uri_of(film)).status
        talk.close()
        return status


class Play:
    """A play that goes on in a thread of its own."""

    def __init__(self, pool: concurrent.futures.Executor, player: Player, seconds: float) -> None:
        self.player = player
        self.streams = set_up_all(player)
        player.play(0.0)
        self.ended = pool.submit(player.listen, seconds)

    def fits(self, checks: Checks, where: str, tracks: Tuple[Track, ...], units: int) -> None:
        checks.that(f"{where}: it ends", self.ended.result())
        for stream, track in zip(self.streams, tracks):
            numbers_fit(checks, f"{where}, {track.name}", stream, track, units)
        self.player.tear_down()


def plays_whole(checks: Checks, server: Growing, film: Presentation, way: Way, *content: Track) -> None:
    """That somebody who comes plays a film as its files have it."""
    with concurrent.futures.ThreadPoolExecutor(1) as pool:
        play = Play(pool, server.player_of(film, way), film.units * film.unit_ms / 1000 + 8)
        play.fits(checks, f"{film.name} over {way.value}", content or film.tracks, film.units)


@serving_test(limit=60, is_timed=True)
def a_film_is_added_beside_plays(checks: Checks) -> None:
    """Who plays goes on, each octet as the file's, and the new film is there within two seconds."""
    server = Growing(checks, TONE, holds_signals=True)
    with server, concurrent.futures.ThreadPoolExecutor(2) as pool:
        checks.same("before it is there", 404, server.described(SHORT))
        plays = [Play(pool, server.player(way), 20) for way in (Way.UDP, Way.TCP)]
        server.put_media(SHORT)
        server.offer(TONE, SHORT)
        checks.that("within two seconds", server.took <= TAKEN, server.took)
        checks.same("once it is there", 200, server.described(SHORT))
        checks.same("presentations", 2, server.figure("rtspd_presentations"))
        for way in Way.UDP, Way.TCP:
            plays_whole(checks, server, SHORT, way)
        for play in plays:
            play.fits(checks, f"beside it over {play.player.way.value}", TONE.tracks, TONE.units)
        is_told(checks, server, "it is told", rb"info configuration 1 is taken up: 2 presentations are offered")
        stops(checks, server)


def living(server: Growing, player: Player, talk: Connection) -> List[int]:
    """The statuses of what a session does that lives: a pause, its point, and a seek."""
    session = [("Session", player.session or "")]
    statuses = [player.pause().status]
    statuses.append(talk.ask("GET_PARAMETER", player.uri, session).status)
    statuses.append(player.play(1.0).status)
    return statuses


@serving_test(limit=90)
def a_withdrawn_film_plays_on(checks: Checks) -> None:
    """For those who have it: they play, pause, seek, set a further track up and tear down; whoever comes finds nothing."""
    server = Growing(checks, TONE, SHORT)
    with server, concurrent.futures.ThreadPoolExecutor(2) as pool:
        talk = server.connect()
        ready = lease(talk, f"{server.uri}/a")
        plays = [Play(pool, server.player(way), 20) for way in (Way.UDP, Way.TCP)]
        seeking = server.player(Way.TCP)
        streams = set_up_all(seeking)
        seeking.play(2.0)
        server.offer(SHORT)
        checks.same("a description", 404, server.described(TONE))
        checks.same("a session that would begin", 404, server.connect().ask("SETUP", f"{server.uri}/a", [TRANSPORT]).status)
        checks.same("who has it: a pause, its point, a seek", [200] * 3, living(server, seeking, talk))
        further = talk.ask("SETUP", f"{server.uri}/b", [("Session", ready.session), TRANSPORT]).status
        checks.same("who has it: a further track", 200, further)
        checks.same("who has it: a description", 404, talk.ask("DESCRIBE", server.uri, [("Session", ready.session)]).status)
        checks.same("who has it: a track dropped", 200, talk.ask("TEARDOWN", f"{server.uri}/b", [("Session", ready.session)]).status)
        checks.that("the seek comes to its end", seeking.listen(20))
        last = streams[0].reception.packets[-1].payload
        checks.that("the last unit comes last, as the file has it", last == TONE.tracks[0].unit(TONE.units - 1))
        for play in plays:
            play.fits(checks, f"over {play.player.way.value}", TONE.tracks, TONE.units)
        seeking.tear_down()
        checks.same("the last one tears down", 200, talk.ask("TEARDOWN", server.uri, [("Session", ready.session)]).status)
        files = server.descriptors()
        checks.that("its files are closed", server.descriptors_fall_to(files - 2, 12.0) <= files - 2, server.descriptors())
        server.offer(TONE, SHORT)
        checks.same("once it comes back", 200, server.described(TONE))
        plays_whole(checks, server, TONE, Way.TCP)


@serving_test(limit=90)
def a_replaced_film_is_served_anew(checks: Checks) -> None:
    """Whoever comes gets the new one, by other files or by other keys; who has the old one gets its octets to the end."""
    server = Growing(checks, TONE)
    other = Track("z")
    shorter = TONE._replace(units=120, tracks=(Track("a"),))
    with server, concurrent.futures.ThreadPoolExecutor(2) as pool:
        plays = [Play(pool, server.player(way), 25) for way in (Way.UDP, Way.TCP)]
        old = server.player(Way.TCP)
        (stream, _) = set_up_all(old)
        server.put_media(TONE, content=other)
        server.offer(TONE)
        content = [track._replace(name="z") for track in TONE.tracks]
        with concurrent.futures.ThreadPoolExecutor(1) as apart:
            renewed = Play(apart, server.player(Way.UDP), 25)
            server.put_media(shorter, content=Track("y"))
            server.offer(shorter)
            plays_whole(checks, server, shorter, Way.TCP, Track("y"))
            renewed.fits(checks, "by other files", tuple(content), TONE.units)
        old.play(0.0)
        checks.that("who had it and plays only now", old.listen(25))
        numbers_fit(checks, "who had it and plays only now", stream, TONE.tracks[0], TONE.units)
        old.tear_down()
        for play in plays:
            play.fits(checks, f"the old one over {play.player.way.value}", TONE.tracks, TONE.units)
        checks.same("one presentation is offered", 1, server.figure("rtspd_presentations"))


@serving_test(limit=120)
def a_replaced_film_stays_replaced(checks: Checks) -> None:
    """Once the old one's files are closed nothing brings it back: after one more change it is the new one, and so it is
    where it was taken out meanwhile."""
    server = Growing(checks, TONE)
    content = [track._replace(name="z") for track in TONE.tracks]
    with server:
        files = server.descriptors_at_rest()
        server.put_media(TONE, content=Track("z"))
        server.offer(TONE)
        checks.same("the old files are closed", files, server.descriptors_fall_to(files, CLOSED))
        plays_whole(checks, server, TONE, Way.TCP, *content)
        server.put_media(SHORT)
        server.offer(TONE, SHORT)
        plays_whole(checks, server, TONE, Way.TCP, *content)
        server.offer(SHORT)
        server.descriptors_fall_to(files, CLOSED)
        server.offer(SHORT, TONE)
        plays_whole(checks, server, TONE, Way.UDP, *content)


def comes_to(server: Growing, film: Presentation, status: int) -> int:
    """The status of a description, once it is as wanted or the time is over."""
    until = time.monotonic() + AT_MOST
    while server.described(film) != status and time.monotonic() < until:
        time.sleep(0.1)
    return server.described(film)


def imports(server: Growing, *words: str) -> None:
    done = subprocess.run([str(IMPORT), *words, "--config", "server.toml"], cwd=server.path, capture_output=True, text=True)
    server.checks.same(f"import {words}", (0, ""), (done.returncode, done.stderr))


@serving_test(limit=120, is_timed=True)
def import_beside_a_running_server(checks: Checks) -> None:
    """The film is there at once, and GStreamer plays it; taken out again it is there no more, and no play notices."""
    if not is_here(checks, "an import beside a running server"):
        return
    server = Growing(checks, TONE._replace(units=2000), players='"gstreamer"')
    wanted = Presentation("film")
    with server, concurrent.futures.ThreadPoolExecutor(1) as pool:
        film = Kind().make(server.path / "film.mp4")
        play = Play(pool, server.player(Way.TCP), 60)
        imports(server, str(film), wanted.name)
        checks.same("once it is imported", 200, comes_to(server, wanted, 200))
        came = film_player.play(server.uri_of(wanted), film, "tcp")
        is_whole(checks, "the film beside a play", came)
        imports(server, "--remove", wanted.name)
        checks.same("once it is taken out", 404, comes_to(server, wanted, 404))
        play.fits(checks, "beside it", TONE.tracks, 2000)


def refused(checks: Checks, server: Growing, what: str, text: Optional[str], why: bytes) -> None:
    """That a configuration isn't taken up, which one line tells, and no second one."""
    line = rb"warning the configuration isn't taken up: .*" + why + rb".*"
    before, number = server.told.count(line), server.number()
    refusals = server.figure("rtspd_content_refusals_total")
    server.put(text) if text is not None else os.unlink(server.path / "server.toml")
    checks.that(f"{what}: it is told", server.told.has_more(line, before, AT_MOST), server.told.events())
    time.sleep(2.5)
    checks.same(f"{what}: once", before + 1, server.told.count(line))
    checks.same(f"{what}: the refusals", refusals + 1, server.figure("rtspd_content_refusals_total"))
    checks.same(f"{what}: what is served stays", (number, 404, 200), (server.number(), server.described(SHORT), server.described(TONE)))


@serving_test(limit=120)
def a_bad_configuration_changes_nothing(checks: Checks) -> None:
    """Each refusal is one line with key and reason, and isn't tried again; plays go on, and a good file is taken up."""
    server = Growing(checks, TONE._replace(units=3000))
    film = TONE._replace(units=3000)
    with server:
        player = server.player(Way.TCP)
        set_up_all(player)
        player.play(0.0)
        both = server.text_of(film, SHORT)
        refused(checks, server, "no TOML", "[server\n", rb"")
        refused(checks, server, "a missing file", both, rb"c\.raw: .*")
        server.put_media(SHORT._replace(units=149))
        refused(checks, server, "a file that is too short", both + "\n", rb"c\.raw: it has 23840 bytes, .*")
        server.put_media(SHORT)
        refused(checks, server, "another uplink", server.text_of(film, SHORT, uplink=10**7), rb":4: server\.uplink is another.*")
        refused(checks, server, "another number of threads", server.text_of(film, SHORT, workers=3), rb"server\.workers is another.*")
        refused(checks, server, "a name twice", server.text_of(film, film), rb"name.*")
        many = [THIRD._replace(name=f"third-{number}") for number in range(257)]
        refused(checks, server, "too many", server.text_of(film, *many), rb"has 258 tables.*")
        refused(checks, server, "the file is gone", None, rb"it can't be read")
        checks.same("the play goes on", 200, player.pause().status)
        player.tear_down()
        server.offer(film, SHORT, timeout=70)
        checks.same("a good one", 200, server.described(SHORT))
        answer = server.connect().ask("SETUP", f"{server.uri}/a", [TRANSPORT])
        checks.that("with another timeout", "timeout=70" in (answer.header("Session") or ""), answer.header("Session"))


@serving_test(limit=60)
def a_configuration_that_isnt_watched(checks: Checks) -> None:
    """With `watch = false` nothing is taken up."""
    server = Growing(checks, TONE, watch="false")
    with server:
        server.put_media(SHORT)
        server.put(server.text_of(TONE, SHORT))
        time.sleep(4)
        checks.same("what is served", (0, 404), (server.number(), server.described(SHORT)))


@serving_test(limit=60, is_timed=True)
def a_film_too_large_for_memory_is_added(checks: Checks) -> None:
    """It is read ahead by threads that come with it, beside a play of what is held in memory."""
    large = Presentation("large", 1_800_000, 20, (Track("l"),))
    server = Growing(checks, TONE)
    with server, concurrent.futures.ThreadPoolExecutor(1) as pool:
        play = Play(pool, server.player(Way.UDP), 20)
        threads = len(os.listdir(f"/proc/{server.process.pid}/task"))
        (server.path / "l.raw").write_bytes(b"".join(map(large.tracks[0].unit, range(500))))
        os.truncate(server.path / "l.raw", large.units * large.tracks[0].octets)
        server.offer(TONE, large)
        checks.same("further threads", threads + 4, len(os.listdir(f"/proc/{server.process.pid}/task")))
        player = server.player_of(large, Way.TCP)
        (stream,) = set_up_all(player)
        player.play(0.0)
        player.listen(6.0, lambda: len(stream.reception.packets) >= 150)
        came = [it.payload for it in stream.reception.packets]
        checks.that("its units come", len(came) >= 150, len(came))
        checks.same("as the file has them", [*map(large.tracks[0].unit, range(len(came)))], came)
        player.tear_down()
        play.fits(checks, "beside it", TONE.tracks, TONE.units)


def changes(checks: Checks, seconds: float, count: int, many: int = 0) -> None:
    """The configuration's file changes each second beside plays, of which many are of one film that stays; once it stands it
    is taken up."""
    stays = Presentation("stays", int(seconds * 10) + 600, 100, (Track("s", octets=800, ticks=800),))
    server = Growing(checks, TONE, stays, sessions=many + 64)
    server.put_media(SHORT, THIRD)
    with server, concurrent.futures.ThreadPoolExecutor(count) as pool:
        plays_on = ManyPlays(server, stays, server.uri_of(stays), many)
        until = time.monotonic() + seconds
        plays: List[Play] = []
        for number in range(10_000):
            if number % 12 == 0:
                plays = [Play(pool, server.player((Way.UDP, Way.TCP)[at % 2]), 30) for at in range(count)]
            server.put(server.text_of(TONE, stays, *([SHORT], [THIRD], [])[number % 3]))
            time.sleep(1.0)
            if number % 12 == 11:
                for play in plays:
                    play.fits(checks, f"change {number}", TONE.tracks, TONE.units)
                if time.monotonic() > until:
                    break
        server.offer(TONE, stays, SHORT, THIRD)
        checks.same("what is wrong with those of the film that stays", [""] * many, [play.wrong for play in plays_on.end()])
        checks.that("these go on", all(play.number >= 9 * seconds for play in plays_on.plays), [play.number for play in plays_on.plays])
        checks.same("at the end", (200, 200), (comes_to(server, SHORT, 200), comes_to(server, THIRD, 200)))


@serving_test(limit=90)
def a_configuration_that_changes_each_second(checks: Checks) -> None:
    """Beside plays of both ways, each octet as the file's."""
    changes(checks, 10, 4)


@serving_test(limit=400, is_by_name=True)
def a_configuration_that_changes_for_minutes(checks: Checks) -> None:
    """Five minutes of it, beside plays that come and go, 200 of them at once."""
    changes(checks, 290, 12, 188)


@serving_test(limit=240, is_long=True)
def many_changes_leave_nothing(checks: Checks) -> None:
    """A film that comes and goes takes no more descriptors and no more memory, however often it does."""
    server = Growing(checks, TONE)
    server.put_media(SHORT)
    with server:
        server.offer(TONE, SHORT)
        server.offer(TONE)
        time.sleep(8)
        descriptors, memory = server.descriptors_at_rest(), server.resident_bytes()
        for _ in range(12):
            server.offer(TONE, SHORT)
            server.offer(TONE)
        checks.same("descriptors", descriptors, server.descriptors_fall_to(descriptors, 15.0))
        grown = server.resident_bytes() - memory
        checks.that("memory", grown < 2_000_000, grown)


@serving_test(limit=60)
def a_stop_beside_a_change(checks: Checks) -> None:
    """A server that is stopped while a configuration is taken up ends as ever."""
    server = Growing(checks, TONE, holds_signals=True)
    server.put_media(SHORT)
    with server:
        player = server.player(Way.TCP)
        set_up_all(player)
        player.play(0.0)
        server.put(server.text_of(TONE, SHORT))
        time.sleep(1.2)
        stops(checks, server)
