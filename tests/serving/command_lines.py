"""How the program starts and ends: its words, its files, its port, and three messages."""
import pathlib
import socket
import subprocess

from checks import Checks
from rtsp_client.player import Way

from .runner import serving_test
from .server import HERE, TONE, TRIED, Server, configuration, free_ports, lease

BAD_WORDS, BAD_CONFIGURATION, FAILED = 1, 1, 4
NO_WORDS, NO_CONFIGURATION = b"rtspd: bad command line\n", b"rtspd: bad configuration\n"
USAGE = b"usage: rtspd serve --config FILE "
NO_FILE = b"rtspd: read or write failed\n"
NOT_THERE = b"No such file or directory (os error 2)\n"
OVER_TCP = ("Transport", "RTP/AVP/TCP;unicast;interleaved=0-1")


@serving_test(limit=20)
def three_messages(checks: Checks) -> None:
    """OPTIONS, SETUP and TEARDOWN; after the one connection that it is told to serve it ends, and says nothing more."""
    with Server(checks, words=("--connections", "1")) as server:
        talk = server.connect()
        options = talk.ask("OPTIONS", "*")
        checks.same("OPTIONS", (200, 1), (options.status, options.cseq))
        setup = talk.ask("SETUP", f"{server.uri}/a", [OVER_TCP])
        checks.same("SETUP", (200, 2), (setup.status, setup.cseq))
        session = (setup.header("Session") or "").partition(";")[0]
        checks.same("the length of the session's id", 32, len(session))
        teardown = talk.ask("TEARDOWN", server.uri, [("Session", session)])
        checks.same("TEARDOWN", (200, 3), (teardown.status, teardown.cseq))
        talk.close()
        checks.same("the status after one connection", 0, server.ends(5))


@serving_test(limit=20)
def ends_after_so_many_connections(checks: Checks) -> None:
    """Three connections, two of them at once; a session over UDP and a play are there still, and all threads end."""
    with Server(checks, words=("--connections", "3")) as server:
        first, player = server.connect(), server.player(Way.UDP)
        checks.that("a session over UDP", lease(first, f"{server.uri}/a") is not None)
        for track in player.describe():
            player.set_up(track)
        player.play()
        first.close()
        server.answers("the third connection")
        checks.same("it runs while a connection is open", None, server.process.poll())
        player.close()
        checks.same("the status after three connections", 0, server.ends(5))


def said(folder: pathlib.Path, *words: str, descriptors: int = 0) -> tuple:
    """How the program ends and what it says, with so many descriptors, or as many as this has."""
    limited = ("bash", "-c", f'ulimit -n {descriptors} && exec "$0" "$@"') if descriptors else ()
    how = {"cwd": folder, "capture_output": True, "stdin": subprocess.DEVNULL, "timeout": 10}
    done = subprocess.run([*limited, TRIED, *words], **how)
    return done.returncode, done.stdout, done.stderr


def line_of(text: str, key: str) -> int:
    """The line of a configuration that begins with a key."""
    return 1 + [it.partition(" = ")[0] for it in text.splitlines()].index(key)


@serving_test(limit=30)
def refused_starts(checks: Checks) -> None:
    """A bad command line, a bad configuration, a file that isn't there, and a port that is taken, each by its lines."""
    with Server(checks) as server:
        here = server.path
        config, listen = ("--config", "server.toml"), ("--listen", f"{HERE}:{server.port}")
        for words in (
            (),
            (*config, *config),
            (*config, "--connections", "-1"),
            (*config, "--connections", "x"),
            (*config, "--journal", "j.txt"),
            (*config, "--forget"),
            (*config, "--", "x"),
            (*config, "--help"),
        ):
            status, out, errors = said(here, "serve", *words)
            first, _, usage = errors.partition(b"\n")
            checks.same(f"serve {' '.join(words)}", (BAD_WORDS, b"", NO_WORDS), (status, out, first + b"\n"))
            checks.that(f"serve {' '.join(words)}: the usage", usage.startswith(USAGE), errors)
        for text in ("nowhere", "[::1]:8554", "127.0.0.1", "127.0.0.1:65536"):
            status, out, errors = said(here, "serve", *config, "--listen", text)
            why = f"rtspd: --listen {text}: no IPv4 address and port, as 127.0.0.1:8554\n".encode()
            checks.same(f"--listen {text}", (BAD_WORDS, b""), (status, out))
            checks.that(f"--listen {text}: why", errors.startswith(NO_WORDS + why + USAGE), errors)
        why = f"rtspd: {HERE}:{server.port}: Address already in use (os error 98)\n".encode()
        checks.same("a port that is taken", (FAILED, b"", NO_FILE + why), said(here, "serve", *config, *listen))
        server.answers("the first server goes on")
        missing = said(here, "serve", "--config", "none.toml", *listen)
        checks.same("no such configuration", (FAILED, b"", NO_FILE + b"rtspd: none.toml: " + NOT_THERE), missing)
        (here / "bad.toml").write_text("[server]\n")
        why = b"rtspd: bad.toml:1: server.first_port is missing; it has to be 1,024 to 65,535 (the first UDP port given out,"
        status, out, errors = said(here, "serve", "--config", "bad.toml")
        checks.same("a bad configuration", (BAD_CONFIGURATION, b""), (status, out))
        checks.that("the key that is missing, and its line", errors.startswith(NO_CONFIGURATION + why), errors)
        text = configuration(TONE, server.first_port)
        (here / "short.raw").write_bytes(b"\x7f" * 79_999)
        why = b"rtspd: short.raw: it has 79999 bytes, and 500 units of 160 octets are 80000 (tone)\n"
        short = BAD_CONFIGURATION, b"", NO_CONFIGURATION + why
        for name, outcome in (("short", short), ("none", (FAILED, b"", NO_FILE + b"rtspd: none.raw: " + NOT_THERE))):
            (here / f"{name}.toml").write_text(text.replace("a.raw", f"{name}.raw"))
            came = said(here, "serve", "--config", f"{name}.toml", "--listen", f"{HERE}:1")
            checks.same(f"a track's file that is {name}", outcome, came)


TAKES, STARTS_NOT = b"the program takes it\n", b"the program takes it, but `serve` doesn't start with it here\n"


@serving_test(limit=30)
def looked_at_beforehand(checks: Checks) -> None:
    """`check` ends as `serve` would: beside a server that runs, with a file that is missing, short, or whole."""
    with Server(checks) as server:
        here = server.path
        checks.same("the server's own", (0, TAKES, b""), said(here, "check", "--config", "server.toml"))
        taken = said(here, "check", "--config", "server.toml", "--listen", f"{HERE}:{server.port}")
        note = f"note: server.toml: {HERE}:{server.port}: Address already in use (os error 98)\n".encode()
        checks.same("its address, at which it listens", (0, note + TAKES, b""), taken)
        server.answers("the server goes on")
        text = configuration(TONE, server.first_port)
        line = line_of(text, "file")
        (here / "none.toml").write_text(text.replace("a.raw", "none.raw"))
        note = f"note: none.toml:{line}: tone/a: there is no file none.raw\n".encode()
        came = said(here, "check", "--config", "none.toml")
        checks.same("a file that isn't there", (FAILED, note + STARTS_NOT, NO_FILE), came)
        (here / "none.raw").write_bytes(b"\x7f" * 79_999)
        why = "tone/a: none.raw has 79,999 bytes, and 500 units of 160 octets are 80,000"
        note = f"note: none.toml:{line}: {why}\n".encode()
        came = said(here, "check", "--config", "none.toml")
        checks.same("a file that is short", (BAD_CONFIGURATION, note + STARTS_NOT, NO_CONFIGURATION), came)
        slots = text.replace("octets = 160\n", 'octets = 160\npackets = 2\npacking = "slots"\n', 1)
        (here / "slots.toml").write_text(slots)
        why = "tone/a: a.raw has 80,000 bytes, and 500 units of 176 octets are 88,000"
        note = f"note: slots.toml:{line_of(slots, 'file')}: {why}\n".encode()
        came = said(here, "check", "--config", "slots.toml")
        checks.same("a file without heads", (BAD_CONFIGURATION, note + STARTS_NOT, NO_CONFIGURATION), came)
        (here / "bad.toml").write_text("[server]\nfirst_port = 5001\n")
        status, out, errors = said(here, "check", "--config", "bad.toml")
        checks.same("a bad configuration", (BAD_CONFIGURATION, NO_CONFIGURATION), (status, errors))
        checks.same("its first fault", b"bad.toml:2: server.first_port is 5001; it has to be even", out.splitlines()[0])
        checks.same("how many it has", b"the program refuses it: 5 faults", out.splitlines()[-1])
        missing = said(here, "check", "--config", "gone.toml")
        checks.same("no such file", (FAILED, b"", NO_FILE + b"rtspd: gone.toml: " + NOT_THERE), missing)


@serving_test(limit=30)
def places_looked_at_beforehand(checks: Checks) -> None:
    """What `check` says of addresses, folders and descriptors; that it leaves nothing behind."""
    with Server(checks) as server:
        here, port = server.path, free_ports(socket.SOCK_STREAM, 1)
        far = said(here, "check", "--config", "server.toml", "--listen", "192.0.2.1:1")
        note = b"note: server.toml: 192.0.2.1:1: Cannot assign requested address (os error 99)\n"
        checks.same("an address that isn't the machine's", (FAILED, note + STARTS_NOT, NO_FILE), far)
        for status, why in (
            ("1:2", "1:2: no IPv4 address and port, as 127.0.0.1:9554"),
            ("192.0.2.1:1", "192.0.2.1:1: Cannot assign requested address (os error 99)"),
            (f"{HERE}:{port}", f"{HERE}:{port}: `serve` listens at {HERE}:{port}"),
            (f"0.0.0.0:{port}", f"0.0.0.0:{port}: `serve` listens at {HERE}:{port}"),
        ):
            text = configuration(TONE, server.first_port, status=f'"{status}"')
            (here / "status.toml").write_text(text)
            note = f"note: status.toml:{line_of(text, 'status')}: {why}\n".encode()
            listen = ("--config", "status.toml", "--listen", f"{HERE}:{port}")
            came = said(here, "check", *listen)
            checks.same(f"figures at {status}", (FAILED, note + STARTS_NOT, NO_FILE), came)
            checks.same(f"figures at {status}: serve", (FAILED, b""), said(here, "serve", *listen)[:2])
        text = configuration(TONE, server.first_port, status=f'"{HERE}:{server.port}"')
        (here / "status.toml").write_text(text)
        why = f"{HERE}:{server.port}: Address already in use (os error 98)"
        note = f"note: status.toml:{line_of(text, 'status')}: {why}\n".encode()
        came = said(here, "check", "--config", "status.toml")
        checks.same("figures at a port that is taken", (0, note + TAKES, b""), came)
        text = configuration(TONE, server.first_port, journal_files='"none"')
        (here / "folder.toml").write_text(text)
        note = f"note: folder.toml:{line_of(text, 'journal_files')}: there is no folder none\n".encode()
        came = said(here, "check", "--config", "folder.toml")
        checks.same("no folder for the journal", (FAILED, note + STARTS_NOT, NO_FILE), came)
        (here / "none").mkdir()
        checks.same("an empty folder", (0, TAKES, b""), said(here, "check", "--config", "folder.toml"))
        checks.same("what is left in it", [], [*(here / "none").iterdir()])
        (here / "few.toml").write_text(configuration(TONE, server.first_port, workers=2))
        status, out, errors = said(here, "check", "--config", "few.toml", descriptors=32)
        note = b"note: few.toml: the limit of open files leaves none for a connection\n"
        checks.same("few descriptors", (FAILED, note + STARTS_NOT), (status, out))
        # 3 standard streams, 6 of each lane, and one of the log; 8 pairs, and one connection.
        wanted = b"rtspd: 34 descriptors are wanted at least, 16 for pairs of ports, "
        wanted += b"17 for files, lanes and listeners, and 1 for a connection; the limit is 32\n"
        checks.same("few descriptors: the line", wanted, errors)
        came = said(here, "serve", "--config", "few.toml", "--listen", f"{HERE}:{port}", descriptors=32)
        checks.same("few descriptors: serve", (FAILED, b""), came[:2])


@serving_test(limit=30)
def noted_beforehand(checks: Checks) -> None:
    """What `check` notes of a configuration that `serve` takes; `serve` itself says nothing of it."""
    with Server(checks) as server:
        here = server.path
        text = configuration(TONE, server.first_port, uplink=79_999, timout=70, units=3)
        (here / "notes.toml").write_text(text)
        file, heads = "notes.toml", [n for n, it in enumerate(text.splitlines(), 1) if it == "[[presentation.track]]"]
        over = "takes 80,000 bits per second, more than the uplink: each SETUP of it is refused 453"
        notes = [
            f"{line_of(text, 'timout')}: server.timout is unknown and not read: is timeout meant?",
            f"{line_of(text, 'units')}: server.units is unknown and not read: it belongs to [[presentation]]",
            *(f"{line}: presentation[1].track[{number}] {over}" for number, line in enumerate(heads, 1)),
        ]
        wanted = "".join(f"note: {file}:{it}\n" for it in notes).encode()
        status, out, errors = said(here, "check", "--config", file)
        in_order = b"".join(sorted(out.splitlines(keepends=True)[:-1]))
        checks.same("the notes", b"".join(sorted(wanted.splitlines(keepends=True))), in_order)
        checks.same("how it ends", (0, TAKES, b""), (status, out.splitlines(keepends=True)[-1], errors))


@serving_test(limit=20)
def calls_for_help(checks: Checks) -> None:
    """A call for help, and one for the version, are answered on standard output."""
    with Server(checks) as server:
        for words in (("--help",), ("-h",), ("serve", "--help"), ("check", "-h"), ("stdio", "-h"), ("audit", "--help")):
            status, out, errors = said(server.path, *words)
            checks.same(" ".join(words), (0, b""), (status, errors))
            checks.that(f"{' '.join(words)}: the usage", out.startswith(USAGE), out)
        status, out, errors = said(server.path, "--version")
        checks.same("--version", (0, b""), (status, errors))
        first = [it.split()[0] for it in out.splitlines()]
        checks.same("--version: its lines", [b"rtspd", b"kit:", b"features:"], first)
        with open("/dev/full", "wb") as full:
            how = {"stdout": full, "stderr": subprocess.PIPE, "timeout": 10}
            done = subprocess.run([TRIED, "--help"], **how)
        checks.same("--help to a full device", (FAILED, NO_FILE), (done.returncode, done.stderr))
        status, out, errors = said(server.path, "serve", b"\xff")
        checks.same("a word that isn't UTF-8", (BAD_WORDS, b"", NO_WORDS), (status, out, errors[: len(NO_WORDS)]))
        checks.that("a word that isn't UTF-8: the usage", errors[len(NO_WORDS) :].startswith(USAGE), errors)
