"""A short journal in a long run: the server forgets the sessions that have ended."""
import random
import threading
import time
from typing import List

from checks import Checks
from rtsp_client.connection import Connection, Refused
from rtsp_client.messages import BadMessage

from .runner import serving_test
from .server import Presentation, Server

ONE_TRACK = Presentation(tracks=Presentation().tracks[:1])
CLIENTS = 50
# In which they make some fifteen times the journal.
SECONDS = 60.0
JOURNAL = 2000
# What a session of one track takes of it: so many entries and as many owed returns, and then the entries of its end.
ENTRIES = 4
# Sessions that live all the time, and are never renewed: the timeout is longer than the run.
LIVING = 50
TIMEOUT = 600
# Between the sessions of a client, in seconds. So there is room for what ends in two; each second it is forgotten.
PAUSE = 0.5
OVER_TCP = ("Transport", "RTP/AVP/TCP;unicast;interleaved=0-1")
# Sessions that a connection can hold at once, for its channels.
PAIRS_OF_CHANNELS = 128


def set_up(talk: Connection, uri: str) -> tuple:
    """The status of a SETUP, and the session that it opened."""
    answer = talk.ask("SETUP", f"{uri}/a", [OVER_TCP])
    return answer.status, (answer.header("Session") or "").partition(";")[0]


class Client:
    """One that opens sessions and ends them, by a TEARDOWN or by going away."""

    def __init__(self, server: Server, seed: int, until: float) -> None:
        self.server = server
        self.draw = random.Random(seed)
        self.until = until
        self.sessions: List[str] = []
        self.statuses: List[int] = []
        self.fault = ""

    def run(self) -> None:
        try:
            self.open_and_end()
        except (BadMessage, OSError, Refused) as why:
            self.fault = str(why)

    def open_and_end(self) -> None:
        talk = self.server.connect()
        while time.monotonic() < self.until:
            status, session = set_up(talk, self.server.uri)
            self.statuses.append(status)
            self.sessions.append(session)
            talk.wait(self.draw.uniform(0.0, PAUSE))
            if self.draw.random() < 0.2:
                talk.close()
                talk = self.server.connect()
            else:
                self.statuses.append(talk.ask("TEARDOWN", self.server.uri, [("Session", session)]).status)
            talk.wait(PAUSE)
        talk.close()


def set_up_many(server: Server, count: int) -> tuple:
    """The statuses of so many SETUPs over as few connections as they take, and these, which stay open."""
    talks = [server.connect() for _ in range(-(-count // PAIRS_OF_CHANNELS))]
    return [set_up(talks[number // PAIRS_OF_CHANNELS], server.uri)[0] for number in range(count)], talks


@serving_test(limit=150, is_timed=True, is_long=True)
def a_short_journal_lasts(checks: Checks) -> None:
    """Fifty clients open and end sessions, many times the journal; then new sessions take it to the last entry."""
    most = JOURNAL // (2 * ENTRIES)
    settings = {"pairs": 0, "sessions": 2 * most, "uplink": 2 * most * ONE_TRACK.whole_rate}
    with Server(checks, ONE_TRACK, timeout=TIMEOUT, journal=JOURNAL, **settings) as server:
        kept, their_talks = set_up_many(server, LIVING)
        checks.same("sessions that live all the time", [200] * LIVING, kept)
        until = time.monotonic() + SECONDS
        clients = [Client(server, number, until) for number in range(CLIENTS)]
        threads = [threading.Thread(target=client.run) for client in clients]
        for thread in threads:
            thread.start()
        for thread in threads:
            thread.join()
        checks.same("what went wrong", [], [client.fault for client in clients if client.fault])
        statuses = [status for client in clients for status in client.statuses]
        checks.same("answers but 200", [], [status for status in statuses if status != 200])
        sessions = [session for client in clients for session in client.sessions]
        made = 2 * ENTRIES * len(sessions)
        checks.that("they made several times the journal", made > 3 * JOURNAL, made)
        # The last connections are left, and what they ended is forgotten.
        time.sleep(3.0)
        talk = server.connect()
        alive = [it for it in sessions if talk.ask("OPTIONS", "*", [("Session", it)]).status == 200]
        checks.same("sessions that live", [], alive)
        # What is left of the journal is what the living sessions made and owe: as many new ones as fit, and no more.
        room = most - LIVING
        came, new_talks = set_up_many(server, room + 1)
        checks.same("new sessions take the whole journal", [200] * room + [503], came)
        for it in [*their_talks, *new_talks, talk]:
            it.close()
