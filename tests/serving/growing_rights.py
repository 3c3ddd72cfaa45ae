"""Who may watch what changes with the configuration, while the server runs: for whoever comes, and in sessions that live."""
import time

from checks import Checks

from .changing_users import AT_MOST
from .credentials import NAME, OTHER, as_user, beside, films, session_of
from .events import Telling
from .gstreamer import SHORT
from .runner import serving_test
from .server import Server

TAKEN = rb"info configuration \d+ is taken up: \d+ presentations are offered"
NEW = "new"


def put(server: Server, text: str) -> None:
    """Puts a configuration in the place of that which is there."""
    new = server.path / "new.toml"
    new.write_text(text)
    new.rename(server.path / "server.toml")


def take(checks: Checks, server: Telling, text: str) -> None:
    """Puts a configuration, and waits until it is taken up."""
    before = server.told.count(TAKEN)
    put(server, text)
    checks.that("the configuration is taken up", server.told.has_more(TAKEN, before, AT_MOST), server.told.events())


def of_one(server: Server, name: str, allow: str) -> str:
    """The table of a further presentation, for these users alone."""
    alone = server.text[server.text.rindex("[[presentation]]") :]
    return alone.replace('name = "shut"\nallow = []\n', f'name = "{name}"\nallow = {allow}\n')


@serving_test(limit=90)
def who_may_watch_changes_while_it_serves(checks: Checks) -> None:
    """A film comes with its list, a list is given to other users, and one is taken away: at once, for living sessions too."""
    with films(checks, '["ann"]') as server:
        ann, bob = as_user(server, NAME), as_user(server, OTHER)
        first, new = server.uri, beside(server.uri, NEW)
        with_new = server.text + of_one(server, NEW, '["ann"]')
        take(checks, server, with_new)
        checks.same("a new one", (200, 404), (ann.ask("DESCRIBE", new).status, bob.ask("DESCRIBE", new).status))
        session = session_of(checks, ann, first)
        given = with_new.replace(f'name = "{SHORT.name}"\nallow = ["ann"]', f'name = "{SHORT.name}"\nallow = ["bob"]')
        take(checks, server, given)
        checks.same("given to another", (404, 200), (ann.ask("DESCRIBE", first).status, bob.ask("DESCRIBE", first).status))
        checks.same("in a session of before", 404, ann.ask("PLAY", first, [("Session", session)]).status)
        take(checks, server, given.replace('allow = ["bob"]\n', "").replace("allow = []\n", ""))
        checks.same("of everybody", 200, ann.ask("PLAY", first, [("Session", session)]).status)
        checks.same("of everybody, once nobody's", 200, bob.ask("DESCRIBE", beside(first, "shut")).status)
        ann.close()
        bob.close()


@serving_test(limit=60)
def a_bad_list_changes_nothing(checks: Checks) -> None:
    """It is told once, and who may watch stays."""
    with films(checks, '["ann"]') as server:
        ann, bob = as_user(server, NAME), as_user(server, OTHER)
        line = rb"warning the configuration isn't taken up: .*allow.*"
        put(server, server.text.replace('allow = ["ann"]', "allow = 1"))
        checks.that("it is told", server.told.has_more(line, 0, AT_MOST), server.told.events())
        time.sleep(2.5)
        checks.same("once", 1, server.told.count(line))
        checks.same("who may watch", (200, 404), (ann.ask("DESCRIBE", server.uri).status, bob.ask("DESCRIBE", server.uri).status))
        ann.close()
        bob.close()
