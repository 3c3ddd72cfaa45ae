"""Many plays over TCP that one thread reads: each frame has to be the next one of its film, as the file has it."""
import selectors
import socket
import threading
import time
from typing import Dict, List

from rtsp_client.messages import END, written

from .server import Presentation, Server

OVER_TCP = ("Transport", "RTP/AVP/TCP;unicast;interleaved=0-1")
# Each session is renewed so often, in seconds.
RENEWED = 20.0
HEAD, RTP_HEAD = 4, 12


class OnePlay:
    """A play of the first track of a film, and what is wrong with it."""

    def __init__(self, server: Server, film: Presentation, uri: str) -> None:
        self.socket, self.held, self.number, self.wrong = server.socket(), bytearray(), 0, ""
        self.uri = uri
        self.ask("SETUP", f"{uri}/{film.tracks[0].name}", [OVER_TCP])
        while END not in self.held:
            self.held += self.socket.recv(65_536)
        head = bytes(self.held[: self.held.index(END)]).decode()
        self.session = head.partition("\r\nSession: ")[2].partition(";")[0]
        self.ask("PLAY", uri, [("Session", self.session), ("Range", "npt=0-")])

    def ask(self, method: str, uri: str, fields: List) -> None:
        self.socket.sendall(written(f"{method} {uri} RTSP/2.0", [("CSeq", "1"), *fields]))

    def renew(self) -> None:
        self.ask("OPTIONS", self.uri, [("Session", self.session)])

    def take(self, units: List[bytes]) -> None:
        """Reads what has come."""
        piece = self.socket.recv(1 << 20)
        if not piece:
            self.wrong = self.wrong or f"it was hung up behind unit {self.number}"
        self.held += piece
        at, held = 0, self.held
        while len(held) - at >= HEAD:
            if held[at] == 0x24:
                end = at + HEAD + int.from_bytes(held[at + 2 : at + 4], "big")
                if end > len(held):
                    break
                if held[at + 1] == 0:
                    if held[at + HEAD + RTP_HEAD : end] != units[self.number % len(units)]:
                        self.wrong = self.wrong or f"unit {self.number} isn't as the file has it"
                    self.number += 1
            else:
                end = held.find(END, at) + len(END)
                if end < at + len(END):
                    break
                if not held.startswith(b"RTSP/2.0 200 ", at):
                    self.wrong = self.wrong or bytes(held[at:end]).decode(errors="replace")
            at = end
        del held[:at]


class ManyPlays:
    """So many plays of a film, as long as this is open."""

    def __init__(self, server: Server, film: Presentation, uri: str, count: int) -> None:
        self.units = [film.tracks[0].unit(number) for number in range(film.units)]
        self.over = threading.Event()
        self.plays = [OnePlay(server, film, uri) for _ in range(count)]
        self.thread = threading.Thread(target=self.listen, daemon=True)
        self.thread.start()

    def listen(self) -> None:
        among: Dict[socket.socket, OnePlay] = {play.socket: play for play in self.plays}
        renewed = time.monotonic()
        with selectors.DefaultSelector() as ready:
            for each in among:
                ready.register(each, selectors.EVENT_READ)
            while not self.over.is_set():
                for key, _ in ready.select(0.1):
                    play = among[key.fileobj]
                    play.take(self.units)
                    if play.wrong:
                        ready.unregister(key.fileobj)
                if time.monotonic() > renewed + RENEWED:
                    renewed = time.monotonic()
                    for play in self.plays:
                        if not play.wrong:
                            play.renew()
                # What comes meanwhile is read together.
                time.sleep(0.02)

    def end(self) -> List[OnePlay]:
        """The plays, once they are over."""
        self.over.set()
        self.thread.join()
        for play in self.plays:
            play.socket.close()
        return self.plays
