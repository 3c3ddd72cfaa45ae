"""What whoever runs the server sees: figures at an address of their own, and the access log on standard error."""
import http.client
import re
import signal
import socket
import time
from typing import Dict, List, Set, Tuple

import open_metrics
import status_page
from checks import Checks
from rtsp_client.player import Way

from .plays import set_up_all
from .runner import serving_test
from .server import HERE, Presentation, Server, free_ports

SHORT = Presentation(units=25)
# How the page calls what /metrics has under other names: refusals, lateness and counts.
REFUSALS = {
    "Bandwidth (453)": "bandwidth",
    "Unavailable (503)": "unavailable",
    "No such session (454)": "session",
    "No such path (404)": "path",
    "Not in this state (455)": "state",
    "Transport (461)": "transport",
    "Credentials (401)": "credentials",
    "Other": "other",
}
LATE = {f"Within {ms} ms": str(ms / 1000) for ms in (1, 2, 5, 10, 20, 40, 100, 400)}
LATE.update({f"Within {seconds} s": f"{seconds}.0" for seconds in (1, 4, 10)})
COUNTS = {
    "Packets sent": "packets_sent",
    "Packets lost": "packets_lost",
    "Connections let in": "connections_accepted",
    "Connections closed at once": "connections_refused",
    "Headers refused": "headers_refused",
    "Reads of films that failed": "media_failures",
    "Sessions expired": "sessions_expired",
    "Journal shortened": "journal_shortenings",
    "Log lines dropped": "log_lines_dropped",
}
# What is refused by each reason that needs no crowd, and what no server knows.
OVER_UDP = ("Transport", 'RTP/AVP;unicast;dest_addr=":9"/":9"')
ASKED = [
    ("DESCRIBE", "-other", ()),
    ("TEARDOWN", "", (("Session", "0" * 32),)),
    ("SETUP", "/a", (("Transport", "RTP/AVP;multicast"),)),
    *[("SETUP", "/a", (OVER_UDP,))] * 3,
    ("RECORD", "", ()),
]
ACCESS = re.compile(rb'\S+Z access 127\.0\.0\.1 (\d+) "([^"]*)" "([^"]*)" (\d+) (?:(\d+):)?([0-9a-f]{8}|-)\n')


def shown_at() -> Tuple[int, str]:
    """A free port, and the text of the key that has the figures shown there."""
    port = free_ports(socket.SOCK_STREAM, 1)
    return port, f'"{HERE}:{port}"'


def ask(port: int, method: str = "GET", path: str = "/metrics") -> Tuple[int, str]:
    talk = http.client.HTTPConnection(HERE, port, timeout=10)
    try:
        talk.request(method, path)
        answer = talk.getresponse()
        return answer.status, answer.read().decode()
    finally:
        talk.close()


def figures(port: int) -> Dict[str, float]:
    """Each figure, by its name with its labels."""
    _, text = ask(port)
    found = {}
    for name, family in open_metrics.read(text).items():
        for (end, labels), value in family.samples.items():
            found[name + end + "".join(f",{key}={word}" for key, word in labels)] = value
    return found


@serving_test(limit=40)
def figures_of_a_server(checks: Checks) -> None:
    """The figures are what was asked, what is held and what was sent; the page shows the same."""
    port, address = shown_at()
    with Server(checks, SHORT, status=address) as server:
        before = figures(port)
        checks.same("sessions at first", 0, before["rtspd_sessions"])
        player = server.player(Way.UDP)
        set_up_all(player)
        held = figures(port)
        checks.same("sessions", 1, held["rtspd_sessions"])
        uplink = "rtspd_uplink_bytes_per_second,state="
        checks.same("the uplink that is held", SHORT.whole_rate, 8 * held[f"{uplink}held"])
        rate = 8 * (held[f"{uplink}held"] + held[f"{uplink}free"])
        checks.same("held and free is the whole", 8 * SHORT.whole_rate, rate)
        film = f"presentation={SHORT.name},transport="
        checks.same("sessions by film", [1, 0], [held[f"rtspd_presentation_sessions,{film}{it}"] for it in ("UDP", "TCP")])
        checks.same("connections", 1, held["rtspd_connections,state=held"])
        checks.same("pairs of ports", (2, 6), tuple(held[f"rtspd_port_pairs,state={it}"] for it in ("held", "free")))
        checks.same("ports", (4, 12), tuple(held[f"rtspd_ports,state={it}"] for it in ("held", "free")))
        checks.same("SETUPs", 2, held["rtspd_requests_total,method=SETUP,class=2xx"])
        player.play(0.0)
        time.sleep(1.5)
        after = figures(port)
        checks.same("packets", 50, after["rtspd_packets_sent_total"])
        checks.same("plays by film", 1, after[f"rtspd_presentation_plays_total,{film}UDP"])
        checks.that("bytes by film", after[f"rtspd_presentation_sent_bytes_total,{film}UDP"] > 50 * 12, after)
        checks.that("time and memory", after["process_cpu_seconds_total"] >= 0 and after["process_resident_memory_bytes"] > 1e6, after)
        checks.same("lateness counts each packet", 50, after["rtspd_packet_lateness_seconds_count"])
        status, page = ask(port, path="/")
        checks.same("the page's status", 200, status)
        checks.that("the page shows the packets", re.search(r"Packets sent<td><td class=n>50\n", page) is not None, page)
        checks.that("it has no script", "<script" not in page)
        player.tear_down()
        player.close()
        talk = server.connect()
        alone = talk.ask("SETUP", f"{server.uri}/a", [("Transport", 'RTP/AVP;unicast;dest_addr=":9";RTCP-mux')])
        shared = figures(port)
        checks.same("pairs that are free beside one port", 7, shared["rtspd_port_pairs,state=free"])
        checks.same("ports that are free beside it", 15, shared["rtspd_ports,state=free"])
        session = (alone.header("Session") or "").partition(";")[0]
        checks.same("it is given back", 200, talk.ask("TEARDOWN", server.uri, [("Session", session)]).status)
        talk.close()
        gone = figures(port)
        checks.same("sessions at the end", 0, gone["rtspd_sessions"])
        checks.same("nothing is owed", 0, gone["rtspd_journal_entries,state=owed"])


def shown_by(figures: Dict[str, float]) -> Dict[str, status_page.Rows]:
    """What the page has to show beside these figures."""
    of = {name: int(value) for name, value in figures.items() if not name.endswith("_sum")}
    # Bytes have three decimals, so bits are whole.
    of.update({name: int(8 * value) for name, value in figures.items() if name.startswith("rtspd_uplink_")})

    def held(family: str) -> Tuple[int, int]:
        part = of[f"{family},state=held"]
        return part, part + of[f"{family},state=free"]

    def journal(state: str) -> Tuple[int, int]:
        whole = sum(of[f"rtspd_journal_entries,state={it}"] for it in ("written", "owed", "free"))
        return of[f"rtspd_journal_entries,state={state}"], whole

    def late(le: str) -> Tuple[int, int]:
        family = "rtspd_packet_lateness_seconds"
        return of[f"{family}_bucket,le={le}"], of[f"{family}_count"]

    def total(family: str) -> Tuple[int]:
        return (of[f"{family}_total"],)

    def film(name: str) -> Tuple[int, int, int, int]:
        over = [f"presentation={name},transport={it}" for it in ("UDP", "TCP")]
        watched, plays = (sum(of[f"rtspd_presentation_{it},{way}"] for way in over) for it in ("sessions", "plays_total"))
        udp, tcp = (of[f"rtspd_presentation_sent_bytes_total,{it}"] // 1_000_000 for it in over)
        return watched, plays, udp, tcp

    films = {it.split(",")[1].partition("=")[2] for it in of if it.startswith("rtspd_presentation_")}
    classes = "2xx", "3xx", "4xx", "5xx"
    methods = {it[len("rtspd_requests_total,method=") : it.rindex(",")] for it in of if it.startswith("rtspd_requests")}
    return {
        "Now": {
            "Seconds since it began": (of["rtspd_uptime_seconds"],),
            "Sessions": (of["rtspd_sessions"],),
            "Uplink, bit/s": held("rtspd_uplink_bytes_per_second"),
            "Pairs of ports": held("rtspd_port_pairs"),
            "Ports": held("rtspd_ports"),
            "Journal, used": journal("written"),
            "Journal, kept for ends": journal("owed"),
            "Connections": held("rtspd_connections"),
        },
        "Films": {it: film(it) for it in films},
        "Answers": {
            it: tuple(of[f"rtspd_requests_total,method={it},class={number}"] for number in classes) for it in methods
        },
        "Refused": {name: (of[f"rtspd_refusals_total,reason={it}"],) for name, it in REFUSALS.items()},
        "How late packets were sent": {name: late(le) for name, le in LATE.items()},
        "Since it began": {name: total(f"rtspd_{it}") for name, it in COUNTS.items()},
    }


def at_rest(figures: Dict[str, float]) -> Dict[str, float]:
    """Without what the process itself uses."""
    return {name: value for name, value in figures.items() if not name.startswith("process_")}


def figures_at_rest(port: int) -> Tuple[Dict[str, float], Dict[str, status_page.Rows]]:
    """The figures and the page of one moment: nothing but the time changed from the figures before to those after. Who
    plays is among no figures."""
    while True:
        before = at_rest(figures(port))
        page = status_page.read(ask(port, path="/")[1])
        del page["Players"]
        if before == at_rest(figures(port)):
            return before, page


def figures_once_counted(port: int, names: Set[str]) -> Tuple[Dict[str, float], Dict[str, status_page.Rows]]:
    """The figures and the page of one moment, once these figures have counted something, or after half a minute."""
    until = time.monotonic() + 30.0
    while not all(figures(port)[it] for it in names) and time.monotonic() < until:
        time.sleep(0.1)
    return figures_at_rest(port)


@serving_test(limit=60)
def the_page_shows_the_figures(checks: Checks) -> None:
    """Each number of the page is one of /metrics, and the page leaves none of them out."""
    port, address = shown_at()
    settings = {"status": address, "pairs": 2, "sessions_per_address": 2, "timeout": 6}
    with Server(checks, SHORT, **settings) as server:
        found, page = figures_at_rest(port)
        checks.same("at first", shown_by(found), page)
        player = server.player(Way.TCP)
        set_up_all(player)
        player.play(0.0)
        player.listen(8.0)
        talk = server.connect()
        for method, path, headers in ASKED:
            talk.ask(method, f"{server.uri}{path}", [*headers])
        ends = {"rtspd_sessions_expired_total", "rtspd_journal_shortenings_total"}
        found, page = figures_once_counted(port, ends)
        checks.same("after a play", shown_by(found), page)
        counted = [it for it in found if "_total" in it or it.endswith("_count")]
        is_moved = {it for it in counted if found[it]}
        wanted = {
            "rtspd_packets_sent_total",
            "rtspd_packet_lateness_seconds_count",
            "rtspd_requests_total,method=SETUP,class=2xx",
            "rtspd_requests_total,method=DESCRIBE,class=4xx",
            "rtspd_requests_total,method=other,class=5xx",
            "rtspd_refusals_total,reason=path",
            "rtspd_refusals_total,reason=session",
            "rtspd_refusals_total,reason=transport",
            "rtspd_refusals_total,reason=unavailable",
            *ends,
        }
        checks.same("what was to be counted, and wasn't", set(), wanted - is_moved)
        shown = {name for rows in page.values() for name in rows}
        checks.same("rows", 8 + 1 + 9 + len(REFUSALS) + len(LATE) + len(COUNTS), len(shown))
        player.close()
        talk.close()


@serving_test(limit=30)
def a_taken_address_for_the_figures(checks: Checks) -> None:
    """An address that is taken is status 4, and said why."""
    with socket.socket() as taken:
        taken.bind((HERE, 0))
        taken.listen()
        address = f"{HERE}:{taken.getsockname()[1]}"
        server = Server(checks, status=f'"{address}"')
        server.write_media()
        with server.start() as starting:
            said, complaint = starting.communicate(timeout=10)
        server.folder.cleanup()
        checks.same("status and output", (4, b""), (starting.returncode, said))
        lines = complaint.splitlines()
        checks.same("the first line", b"rtspd: read or write failed", lines[0])
        checks.that("the address is named", lines[1].startswith(f"rtspd: {address}: ".encode()), complaint)


@serving_test(limit=40)
def lines_of_the_log(checks: Checks) -> None:
    """With `access_log` each answer has a line, with no more than eight digits of the session; else only events have."""
    asked: List[Tuple[bytes, bytes, bytes]] = []
    with Server(checks, access_log="true", holds_signals=True) as server:
        talk = server.connect()
        setup = talk.ask("SETUP", f"{server.uri}/a", [("Transport", "RTP/AVP/TCP;unicast;interleaved=0-1")])
        session = (setup.header("Session") or "").partition(";")[0]
        talk.ask("OPTIONS", "*")
        talk.ask("DESCRIBE", f"{server.uri}-other")
        talk.ask("TEARDOWN", server.uri, [("Session", session)])
        uri = server.uri.encode()
        asked = [
            (b"SETUP", uri + b"/a", b"200"),
            (b"OPTIONS", b"*", b"200"),
            (b"DESCRIBE", uri + b"-other", b"404"),
            (b"TEARDOWN", uri, b"200"),
        ]
        talk.close()
        server.process.send_signal(signal.SIGTERM)
        checks.same("the status", 0, server.ends(8))
    lines = [it for it in map(ACCESS.fullmatch, server.log) if it]
    checks.same("who asked what", asked, [(it[2], it[3], it[4]) for it in lines])
    checks.same("eight digits of the session", session[:8].encode(), lines[0][6] if lines else None)
    checks.same("its name where it is set up and where it ends", lines[0].groups()[4:], lines[-1].groups()[4:])
    checks.that("which has its number", lines[0][5] is not None, server.log)
    checks.that("and no more of them", not any(session.encode() in it for it in server.log))
    checks.that("its start is told", any(b" info started with 1 presentations" in it for it in server.log), server.log[:2])
    checks.that("its stop is told", any(b"info a signal came" in it for it in server.log), server.log[-1:])
