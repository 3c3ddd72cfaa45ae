"""What a player says, seen on its way: a relay between one player and a server, which changes nothing."""
import socket
import threading
from typing import List

from .server import HERE

PIECE = 4096


class Relay:
    """Takes one connection, hands on all bytes of both sides, and keeps those of the player."""

    def __init__(self, port: int) -> None:
        self.said = b""
        self.listener = socket.create_server((HERE, 0))
        self.port = self.listener.getsockname()[1]
        self.server = socket.create_connection((HERE, port))
        self.ways: List[threading.Thread] = [threading.Thread(target=self.run, daemon=True)]
        self.ways[0].start()

    def __enter__(self) -> "Relay":
        return self

    def __exit__(self, *_: object) -> None:
        for end in self.listener, self.server:
            end.close()

    def run(self) -> None:
        player, _ = self.listener.accept()
        with player:
            answers = threading.Thread(target=self.hand_on, args=(self.server, player), daemon=True)
            answers.start()
            self.hand_on(player, self.server)
            answers.join()

    def hand_on(self, source: socket.socket, sink: socket.socket) -> None:
        """All bytes of one side, until its end."""
        try:
            while piece := source.recv(PIECE):
                if sink is self.server:
                    self.said += piece
                sink.sendall(piece)
            sink.shutdown(socket.SHUT_WR)
        except OSError:
            return

    def methods(self) -> List[str]:
        """The methods of the player's requests, in order."""
        lines = self.said.decode(errors="replace").split("\r\n")
        return [line.split(" ")[0] for line in lines if line.endswith(" RTSP/2.0")]
