"""Who guesses passwords without end, beside players who are users, and beside streams of one."""
import re
import socket
import time

from checks import Checks
from rtsp_client.credentials import Credentials
from rtsp_client.messages import written

from .bystanders import Bystanders, judge
from .credentials import NAME, PASSWORD, Proof, guarded
from .floods import flooded
from .operator import figures, shown_at
from .runner import serving_test
from .server import HERE, Presentation
from .waiting_disks import SLOW, STREAMS, Audience, play_all
from .witness import Punctuality, Witness

MINUTE = Presentation(units=3000)
PLAYERS, BESIDE = 20, 8.0
# So many processes ask so many times on a connection, of which the server looks at eight.
GUESSERS, AT_ONCE = 4, 200
ELSEWHERE = "127.0.0.2"
REFUSED = "rtspd_refusals_total,reason=credentials"
# Of these at least so many are answered, and memory grows by less than so many bytes.
MANY, FLAT = 2_000, 4 << 20


def guesses(port: int, uri: str, address: str) -> None:
    """Connections without end, one after another, and on each the same wrong answer to what it is asked."""
    asks = written(f"DESCRIBE {uri} RTSP/2.0", [("CSeq", "1")])
    while True:
        with socket.create_connection((HERE, port), timeout=30, source_address=(address, 0)) as talk:
            # A reset leaves the port to the tests beside this one.
            talk.setsockopt(socket.SOL_SOCKET, socket.SO_LINGER, b"\1\0\0\0\0\0\0\0")
            talk.sendall(asks)
            found = re.search(rb'nonce="([0-9a-f]+)"', talk.recv(65_536))
            if found is None:
                raise ConnectionError("nothing is asked")
            proof = Proof(found[1].decode(), uri, password="another")
            talk.sendall(written(f"DESCRIBE {uri} RTSP/2.0", [("CSeq", "2"), proof.header()]) * AT_ONCE)
            came = b""
            while came.count(b"RTSP/2.0 401") < AT_ONCE and (piece := talk.recv(65_536)):
                came += piece


@serving_test(limit=90, is_alone=True)
def plays_beside_guesses_without_end(checks: Checks) -> None:
    """Wrong answers as fast as four processes ask: each player who is a user is answered, no packet comes later than
    without them, and memory doesn't grow."""
    port, address = shown_at()
    room = {"pairs": 4 * PLAYERS, "uplink": 4 * PLAYERS * MINUTE.whole_rate}
    with Witness() as witness, guarded(checks, presentation=MINUTE, status=address, **room) as server:
        with Bystanders(server.uri, PLAYERS, BESIDE, (NAME, PASSWORD)) as players:
            with flooded(server, GUESSERS, ELSEWHERE, guesses):
                before, began, held = figures(port)[REFUSED], time.monotonic(), server.resident_bytes()
                time.sleep(BESIDE - 3)
                refused, took, grown = figures(port)[REFUSED] - before, time.monotonic() - began, server.resident_bytes() - held
            heard = players.heard()
        checks.that("many guess", refused >= MANY, f"{refused / took:.0f} a second")
        checks.that("memory stays", grown < FLAT, grown)
        checks.same("what went wrong with players", [], heard.faults)
        checks.that("they were answered", heard.answered > 10 * PLAYERS, heard.answered)
        judge(Punctuality(checks, witness.stalls()), heard.arrivals, GUESSERS)


@serving_test(limit=90, is_alone=True)
def streams_beside_guesses_without_end(checks: Checks) -> None:
    """500 streams of a user, of which each is heard: beside wrong answers as fast as four processes ask no packet is late
    (`bench/serving guesses` says by how much)."""
    port, address = shown_at()
    room = {"pairs": STREAMS, "sessions": STREAMS + 10, "uplink": 2 * STREAMS * SLOW.whole_rate}
    with Witness() as witness, guarded(checks, presentation=SLOW, status=address, **room) as server, Audience(SLOW) as all:
        play_all(checks, server, all.port, STREAMS, Credentials(NAME, PASSWORD))
        with flooded(server, GUESSERS, ELSEWHERE, guesses):
            before, began = figures(port)[REFUSED], time.monotonic()
            time.sleep(BESIDE)
            refused, took = figures(port)[REFUSED] - before, time.monotonic() - began
        heard = all.heard()
        checks.that("many guess", refused >= MANY, f"{refused / took:.0f} a second")
        checks.same("streams that were heard", STREAMS, heard.streams)
        judge(Punctuality(checks, witness.stalls()), heard.arrivals, GUESSERS)
