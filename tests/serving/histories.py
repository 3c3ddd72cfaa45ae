"""The journal on disk: files that a server writes while it serves, its clean end, and what a kill leaves."""
import pathlib
import random
import re
import shutil
import signal
import subprocess
import sys
import time
from typing import Dict, List, Tuple

from checks import TOP, Checks
from rtsp_client.connection import Connection

from .runner import serving_test
from .server import TONE, TRIED, Presentation, Server

TCP = ("Transport", "RTP/AVP/TCP;unicast;interleaved=0-1")
FOLDER = "history"
# What was answered before so many seconds is in a file, where one is written each 50 ms.
LATE = 0.5


def audited(server: Server, file: pathlib.Path) -> Tuple[int, str, str]:
    """What the program says of a file up to its last whole line."""
    whole = server.path / "whole.txt"
    with whole.open("wb") as out:
        subprocess.run([sys.executable, TOP / "whole-lines", file], stdout=out, stderr=subprocess.DEVNULL, check=True)
    words = [str(TRIED), "audit", "--config", "server.toml", "--journal", "whole.txt"]
    done = subprocess.run(words, cwd=server.path, capture_output=True, text=True, timeout=60)
    return done.returncode, done.stdout, done.stderr


def files(server: Server) -> List[pathlib.Path]:
    return sorted((server.path / FOLDER).glob("journal-*.txt"))


def sessions_in(book: str) -> List[str]:
    return re.findall(r"(?m)^session \d+ ([0-9a-f]{32}) ", book)


def chronicled(checks: Checks, presentation: Presentation = TONE, **more: object) -> Server:
    server = Server(checks, presentation, journal_files=f'"{FOLDER}"', journal_period=50, timeout=60, **more)
    (server.path / FOLDER).mkdir()
    return server


def set_up(talk: Connection, server: Server) -> str:
    answer = talk.ask("SETUP", f"{server.uri}/a", [TCP])
    return (answer.header("Session") or "").partition(";")[0]


def checked(checks: Checks, server: Server, where: str) -> None:
    done = subprocess.run([sys.executable, TOP / "check-journals", FOLDER], cwd=server.path, capture_output=True, text=True)
    checks.same(f"{where}: nothing is missing", (0, ""), (done.returncode, done.stderr))


@serving_test(limit=60)
def a_journal_on_disk(checks: Checks) -> None:
    """While the server runs a file has the book of a moment ago; after a clean end it has the book of the end."""
    with chronicled(checks, holds_signals=True) as server:
        talk = server.connect()
        alive = [set_up(talk, server) for _ in range(3)]
        talk.ask("TEARDOWN", server.uri, [("Session", alive.pop(1))])
        time.sleep(LATE)
        (file,) = files(server)
        checks.same("its mode", 0o600, file.stat().st_mode & 0o777)
        status, book, complaint = audited(server, file)
        checks.same("the audit while it runs", (0, ""), (status, complaint))
        checks.same("who lives", sorted(alive), sorted(sessions_in(book)))
        checked(checks, server, "while it runs")
        server.process.send_signal(signal.SIGTERM)
        checks.same("the status", 0, server.ends(8))
        status, book, complaint = audited(server, file)
        checks.same("the audit after a clean end", (0, "", []), (status, complaint, sessions_in(book)))
        checks.that("nothing is held", "rate    0 " in book or re.search(r"(?m)^rate +0 ", book) is not None, book)
        checked(checks, server, "after a clean end")
        shutil.rmtree(server.path / FOLDER)


@serving_test(limit=60)
def two_runs_over_a_folder(checks: Checks) -> None:
    """A second run takes the next number, and touches no other file."""
    with chronicled(checks, holds_signals=True) as server:
        talk = server.connect()
        set_up(talk, server)
        server.process.send_signal(signal.SIGTERM)
        server.ends(8)
        (first,) = files(server)
        text = first.read_bytes()
        with server.start() as again:
            again.stdout.readline()
            set_up(server.connect(), server)
            time.sleep(LATE)
            checks.same("the files", ["journal-000001.txt", "journal-000002.txt"], [it.name for it in files(server)])
            again.kill()
            again.communicate()
        checks.same("the first is as it was", text, first.read_bytes())
        checked(checks, server, "two runs")


def begun_by(server: Server) -> List[str]:
    """The files that one more run makes."""
    before = files(server)
    with server.start() as running:
        running.stdout.readline()
        running.kill()
        running.communicate()
    return [it.name for it in files(server) if it not in before]


@serving_test(limit=60)
def numbers_go_on(checks: Checks) -> None:
    """A run's number is above all that are there, though smaller ones are free, and has more digits from a million on."""
    server = chronicled(checks)
    server.write_media()
    folder = server.path / FOLDER
    for others, wanted in (
        ([], "journal-000001.txt"),
        (["journal-000007.txt", "journal-000009.txt.gz", "journal-0000012.txt"], "journal-000008.txt"),
        (["journal-999999.txt"], "journal-1000000.txt"),
        ([], "journal-1000001.txt"),
    ):
        for name in others:
            (folder / name).touch()
        checks.same(f"above {others or 'what was there'}", [wanted], begun_by(server))
    for name in "journal-000001.txt", "journal-000007.txt", "journal-999999.txt":
        (folder / name).unlink()
    checks.same("where others were taken away", ["journal-1000002.txt"], begun_by(server))
    server.folder.cleanup()


@serving_test(limit=120)
def killed_at_any_moment(checks: Checks) -> None:
    """Ten times a server is killed while players come and go: what is left audits, and has what was answered before."""
    for turn in range(10):
        with chronicled(checks) as server:
            talk, alive = server.connect(), {}  # type: Tuple[Connection, Dict[str, float]]
            ended: Dict[str, float] = {}
            until = time.monotonic() + 0.6 + random.random()
            while time.monotonic() < until:
                alive[set_up(talk, server)] = time.monotonic()
                if len(alive) > 3:
                    session = random.choice(list(alive))
                    talk.ask("TEARDOWN", server.uri, [("Session", session)])
                    del alive[session]
                    ended[session] = time.monotonic()
                time.sleep(0.01)
            server.process.kill()
            killed = time.monotonic()
            server.status = server.process.wait()
            status, book, complaint = audited(server, files(server)[-1])
            checks.same(f"kill {turn}: the audit", (0, ""), (status, complaint))
            found = {*sessions_in(book)}
            lacking = [it for it, since in alive.items() if since < killed - LATE and it not in found]
            checks.same(f"kill {turn}: none is missing that was answered before", [], lacking)
            left = [it for it, since in ended.items() if since < killed - LATE and it in found]
            checks.same(f"kill {turn}: none is left that was torn down before", [], left)


@serving_test(limit=30)
def no_folder_for_the_journal(checks: Checks) -> None:
    """A folder that isn't there is status 4, and said why."""
    server = Server(checks, journal_files='"nowhere"')
    server.write_media()
    with server.start() as starting:
        said, complaint = starting.communicate(timeout=10)
    lines = complaint.splitlines()
    checks.same("status and output", (4, b""), (starting.returncode, said))
    checks.same("the first line", b"rtspd: read or write failed", lines[0])
    checks.that("the folder is named", b"nowhere: " in lines[1], complaint)
    server.folder.cleanup()


@serving_test(limit=90, is_timed=True)
def a_full_disk(checks: Checks) -> None:
    """Where files may grow no more the server serves on, tells of it once, and writes what waited once it can."""
    server = chronicled(checks, holds_signals=True)
    folder = server.path / FOLDER
    if subprocess.run(["mount", "-t", "tmpfs", "-o", "size=64k", "tmpfs", folder], capture_output=True).returncode:
        checks.skip("a full disk", "no file system can be mounted here")
        server.folder.cleanup()
        return
    with server:
        try:
            filled(checks, server, folder)
        finally:
            server.process.kill()
            subprocess.run(["umount", folder], check=False)


def filled(checks: Checks, server: Server, folder: pathlib.Path) -> None:
    stone = folder / "stone"
    stone.write_bytes(b"x" * 40_960)
    talk = server.connect()
    session = set_up(talk, server)
    statuses = []
    for _ in range(400):
        statuses.append(talk.ask("PLAY", server.uri, [("Session", session)]).status)
        statuses.append(talk.ask("PAUSE", server.uri, [("Session", session)]).status)
    checks.same("PLAY and PAUSE beside a full disk", {200}, {*statuses})
    time.sleep(LATE)
    stone.unlink()
    time.sleep(2 * LATE)
    status, book, complaint = audited(server, files(server)[-1])
    checks.same("then the audit", (0, "", [session]), (status, complaint, sessions_in(book)))
    server.process.send_signal(signal.SIGTERM)
    checks.same("the status", 0, server.ends(8))
    told = server.process.stderr.read()
    checks.that("it was told", b"Z warning the journal's file takes no more; entries wait\n" in told, told)
    checks.that("and that it is over", b"Z info the journal is written again\n" in told, told)
