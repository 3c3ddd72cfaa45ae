"""What whoever runs the server does at the status listener: sees sessions, ends one, reads figures of films."""
import http.client
import json
import re
import socket
import subprocess
import time
from typing import List, Optional, Tuple

import status_page
from checks import TOP, Checks
from rtsp_client.player import Player, Way

from .events import Telling, is_told, stops
from .operator import SHORT, figures, shown_at
from .plays import set_up_all
from .runner import serving_test
from .server import HERE, configuration, free_ports

NAME = r"\d+:[0-9a-f]{8}"
# A sweep is each second, and a session whose end nobody told is seen twice.
SWEPT = 4.0
MOST_FILMS = 256
# How often a sample of the page's plots is taken, in seconds.
SAMPLED = 10.0
UPLINK = "Uplink held, and sent below it, bit/s"
MINUTE = SHORT._replace(units=3_000)
OVER_TCP = "RTP/AVP/TCP;unicast;interleaved=0-1"
ENDS = "TEARDOWN", "hang-up", "the operator", "the stop"


def asked(port: int, method: str, path: str, host: str = HERE, body: Optional[str] = None) -> Tuple[int, str]:
    talk = http.client.HTTPConnection(host, port, timeout=10)
    try:
        talk.request(method, path, body)
        answer = talk.getresponse()
        return answer.status, answer.read().decode()
    finally:
        talk.close()


def said_to(port: int, request: bytes) -> bytes:
    """All that comes back to what is written."""
    with socket.create_connection((HERE, port), timeout=10) as talk:
        talk.sendall(request)
        return b"".join(iter(lambda: talk.recv(4096), b""))


def sessions(port: int) -> List[dict]:
    return json.loads(asked(port, "GET", "/sessions")[1])


def ended_by(why: str, name: str = NAME, rest: str = ".*") -> bytes:
    return rf"info session {name} of 127\.0\.0\.1 ended by {why}: {rest}".encode()


@serving_test(limit=40)
def sessions_are_seen_and_ended(checks: Checks) -> None:
    """Each with who watches what; ended by its name as the log has it, once, whose line says so."""
    port, address = shown_at()
    with Telling(checks, SHORT, status=address, access_log="true", holds_signals=True) as server:
        checks.same("at first", [], sessions(port))
        player = server.player(Way.TCP)
        set_up_all(player)
        player.play(0.0)
        player.listen(5.0)
        seen = sessions(port)
        checks.same("how many", 1, len(seen))
        one = seen[0]
        name = one["session"]
        checks.same("its name", f"{one['number']}:{player.session[:8]}", name)
        checks.that("no more of its id", player.session not in json.dumps(seen), seen)
        shown = tuple(one[it] for it in ("player", "presentation", "transport"))
        checks.same("who watches what", (HERE, SHORT.name, "TCP"), shown)
        late = one["packets"]["late"]
        checks.same("its packets", {"sent": 2 * SHORT.units, "lost": 0, "late": late}, one["packets"])
        checks.same("another's digits", 404, asked(port, "POST", f"/sessions/{one['number']}:00000000/end")[0])
        checks.same("it lives on", 1, len(sessions(port)))
        checks.same("it is ended", (200, ""), asked(port, "POST", f"/sessions/{name}/end"))
        checks.same("and not twice", 404, asked(port, "POST", f"/sessions/{name}/end")[0])
        checks.same("nor by its number", 404, asked(port, "POST", f"/sessions/{one['number']}/end")[0])
        checks.same("none is left", [], sessions(port))
        gone = player.connection.ask("GET_PARAMETER", player.uri, [("Session", player.session)])
        checks.same("its connection stays, and it is gone", 454, gone.status)
        film = re.escape(SHORT.name)
        rest = rf'"{film}" over TCP for \d+\.\d\d\d s, {2 * SHORT.units} packets sent, 0 lost, {late} late'
        is_told(checks, server, "its end", ended_by("the operator", name, rest))
        player.close()
        stops(checks, server)
        lines = [it.split() for it in server.told.lines() if b" access " in it]
        named = [it[4].strip(b'"') for it in lines if it[-1] == name.encode()]
        checks.same("answers that name it", [b"SETUP", b"SETUP", b"PLAY"], named[:3])
        checks.same("how often its end is told", 1, server.told.count(ended_by(".*", name)))


@serving_test(limit=40)
def each_end_has_its_line(checks: Checks) -> None:
    """One each, by a TEARDOWN, a closed connection, whoever runs the server, and the stop."""
    port, address = shown_at()
    with Telling(checks, SHORT, status=address, holds_signals=True) as server:
        for end in ENDS:
            player = server.player(Way.TCP)
            set_up_all(player)
            if end == "TEARDOWN":
                player.tear_down()
            elif end == "the operator":
                asked(port, "POST", f"/sessions/{sessions(port)[0]['number']}/end")
            elif end == "the stop":
                stops(checks, server)
            player.close()
            is_told(checks, server, end, ended_by(end))
        told = [it for it in server.told.events() if b" ended by " in it]
        checks.same("lines of ends", len(ENDS), len(told))


@serving_test(limit=40)
def a_borrowed_connection_ends_a_session(checks: Checks) -> None:
    """A session whose channels are another connection's than the one that it was begun on: its end is told once."""
    port, address = shown_at()
    with Telling(checks, SHORT, status=address) as server:
        first, second = server.connect(), server.connect()
        begun = first.ask("SETUP", f"{server.uri}/a", [("Transport", OVER_TCP)])
        session = (begun.header("Session") or "").partition(";")[0]
        named = [("Session", session), ("Transport", OVER_TCP)]
        checks.same("a track on another connection", 200, second.ask("SETUP", f"{server.uri}/b", named).status)
        checks.same("it is seen once", 1, len(sessions(port)))
        second.close()
        is_told(checks, server, "its end", ended_by("hang-up", rf"\d+:{session[:8]}"), SWEPT)
        checks.same("none is left", [], sessions(port))
        first.close()
        time.sleep(SWEPT)
        checks.same("how often it is told", 1, server.told.count(ended_by(".*")))


@serving_test(limit=40)
def requests_of_the_status_listener(checks: Checks) -> None:
    """A POST without a length, with a body, of no session; each has its status, and none of them changes anything."""
    port, address = shown_at()
    head = b" HTTP/1.1\r\nHost: h\r\n"
    with Telling(checks, SHORT, status=address, holds_signals=True) as server:
        player = server.player(Way.TCP)
        set_up_all(player)
        name = sessions(port)[0]["session"].encode()
        for what, request, status in (
            ("a body", b"POST /drain" + head + b"Content-Length: 1\r\n\r\n", b"413"),
            ("a page of a browser", b"POST /drain" + head + b"Origin: http://h\r\n\r\n", b"403"),
            ("a body of an end", b"POST /sessions/" + name + b"/end" + head + b"Content-Length: 1\r\n\r\n", b"413"),
            ("a session without a name", b"POST /sessions//end" + head + b"\r\n", b"404"),
            ("a name that is none", b"POST /sessions/+1/end" + head + b"\r\n", b"404"),
            ("seven digits", b"POST /sessions/" + name[:-1] + b"/end" + head + b"\r\n", b"404"),
            ("upper case", b"POST /sessions/1:ABCDEF01/end" + head + b"\r\n", b"404"),
            ("a path that takes nothing", b"POST /metrics" + head + b"\r\n", b"405"),
            ("a look at a drain", b"GET /drain" + head + b"\r\n", b"404"),
            ("another method", b"DELETE /sessions/" + name + head + b"\r\n", b"405"),
        ):
            checks.same(what, status, said_to(port, request)[9:12])
        checks.same("the session lives", [name.decode()], [it["session"] for it in sessions(port)])
        checks.same("ready", (200, "ready\n"), asked(port, "GET", "/ready"))
        ended = said_to(port, b"POST /sessions/" + name + b"/end" + head + b"\r\n")
        checks.same("an end without a length", b"200", ended[9:12])
        checks.same("the session is gone", [], sessions(port))
        player.close()
        stops(checks, server)


def own_address() -> Optional[str]:
    """An address of this machine that isn't loopback, if it has one."""
    with socket.socket(socket.AF_INET, socket.SOCK_DGRAM) as probe:
        try:
            probe.connect(("192.0.2.1", 9))
        except OSError:
            return None
        own = probe.getsockname()[0]
    return None if own.startswith("127.") else own


@serving_test(limit=40)
def what_changes_something_is_asked_from_here(checks: Checks) -> None:
    """From elsewhere neither an end nor a drain nor players' addresses, but with `status_open` these."""
    own = own_address()
    if own is None:
        checks.skip("who asks from elsewhere", "there is no address but loopback ones")
        return
    for is_open in False, True:
        port, _ = shown_at()
        with Telling(checks, SHORT, status=f'"{own}:{port}"', status_open=str(is_open).lower()) as server:
            player = server.player(Way.TCP)
            set_up_all(player)
            checks.same("an end", 403, asked(port, "POST", "/sessions/1/end", own)[0])
            checks.same("a drain", 403, asked(port, "POST", "/drain", own)[0])
            status, text = asked(port, "GET", "/sessions", own)
            checks.same("addresses", 200 if is_open else 403, status)
            checks.same("whether they are shown", is_open, HERE in text)
            checks.same("the figures", 200, asked(port, "GET", "/metrics", own)[0])
            checks.same("ready", (200, "ready\n"), asked(port, "GET", "/ready", own))
            checks.same("the session lives", 200, player.ask("GET_PARAMETER").status)
            player.close()


def many_films(first_port: int, address: str) -> str:
    """A configuration of as many presentations as may be, all of the same files."""
    text = configuration(SHORT, first_port, status=address)
    head, mark, film = text.partition("[[presentation]]")
    copies = (film.replace(f'name = "{SHORT.name}"', f'name = "film-{number}"', 1) for number in range(MOST_FILMS - 1))
    return head + mark + mark.join([film, *copies])


@serving_test(limit=60)
def figures_of_many_films(checks: Checks) -> None:
    """256 presentations: each has its figures by transport, and only what was played is counted, where it was."""
    port, address = shown_at()
    text = many_films(free_ports(socket.SOCK_DGRAM, 16), address)
    with Telling(checks, SHORT, text=text) as server:
        player = Player(server.uri.replace(SHORT.name, f"film-{MOST_FILMS - 2}"), Way.UDP)
        set_up_all(player)
        player.play(0.0)
        player.listen(5.0)
        found = figures(port)
        by_film = {it: value for it, value in found.items() if it.startswith("rtspd_presentation_")}
        checks.same("how many", 3 * 2 * MOST_FILMS, len(by_film))
        of = f",presentation=film-{MOST_FILMS - 2},transport=UDP"
        wanted = {f"rtspd_presentation_sessions{of}": 1, f"rtspd_presentation_plays_total{of}": 1}
        # Each packet has its octets behind a head of twelve.
        octets = sum(SHORT.units * (12 + it.octets) for it in SHORT.tracks)
        wanted[f"rtspd_presentation_sent_bytes_total{of}"] = octets
        checks.same("those that aren't 0", wanted, {it: value for it, value in by_film.items() if value})
        rows = re.findall(r"<tr><th>(film-\d+|tone)<td", asked(port, "GET", "/")[1])
        checks.same("rows of the page", MOST_FILMS, len(rows))
        player.tear_down()


@serving_test(limit=60)
def the_page_shows_the_last_minutes(checks: Checks) -> None:
    """Who plays is there, without an address; each ten seconds each plot has a point more, and what is sent is never
    above what is held."""
    port, address = shown_at()
    with Telling(checks, MINUTE, status=address) as server:
        player = server.player(Way.UDP)
        set_up_all(player)
        player.play(0.0)
        player.listen(3 * SAMPLED)
        page = asked(port, "GET", "/")[1]
        seen = sessions(port)[0]
        checks.same("who plays", [seen["session"]], list(status_page.read(page)["Players"]))
        checks.that("no address", HERE not in page, page)
        found = status_page.plots(page)
        checks.same("plots", ["How late 99 of 100 packets were at most, ms", "Requests refused in ten seconds", "Sessions", UPLINK], sorted(found))
        sessions_curve, held, sent = *found["Sessions"], *found[UPLINK]
        checks.that("a point each ten seconds", 2 <= len(sessions_curve) <= 3, sessions_curve)
        checks.same("the newest is at the right, and one session lives", (890, 0), sessions_curve[-1])
        checks.that("what is sent is below what is held", all(high[1] <= low[1] for high, low in zip(held, sent)), (held, sent))
        checks.that("something is", 0 < 100 - sent[-1][1], sent)
        player.tear_down()


def plain_text(port: int, accepted: str) -> str:
    said = said_to(port, f"GET /metrics HTTP/1.1\r\nHost: h\r\nAccept: {accepted}\r\n\r\n".encode())
    head, _, text = said.decode().partition("\r\n\r\n")
    return text if "text/plain; version=0.0.4" in head else ""


@serving_test(limit=30)
def figures_in_the_older_format(checks: Checks) -> None:
    """For who accepts text/plain and not OpenMetrics; promtool finds nothing in them or the rules of a fleet, where it
    is installed."""
    port, address = shown_at()
    with Telling(checks, SHORT, status=address) as server:
        player = server.player(Way.TCP)
        set_up_all(player)
        text = plain_text(port, "text/plain;version=0.0.4, */*;q=0.1")
        checks.that("it is there", text.endswith("\n") and "# EOF" not in text and "# UNIT" not in text, text[-200:])
        checks.that("a counter has its whole name", "\n# TYPE rtspd_packets_sent_total counter\n" in text)
        scraped = plain_text(port, "application/openmetrics-text;version=1.0.0,text/plain;q=0.3")
        checks.same("for a scrape of Prometheus", "", scraped)
        if checks.has("promtool check", "promtool"):
            done = subprocess.run(["promtool", "check", "metrics"], input=text, capture_output=True, text=True)
            checks.same("what promtool finds", (0, ""), (done.returncode, done.stdout + done.stderr))
            rules = TOP / "packaging/fleet/prometheus.yml"
            done = subprocess.run(["promtool", "check", "config", rules], capture_output=True, text=True)
            checks.same("what it finds in the rules", 0, done.returncode)
        player.tear_down()
