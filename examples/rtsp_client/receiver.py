"""A receiver beside the player: the description that tells it where the packets of a session come."""
import pathlib
import re
import socket
from typing import List

from .player import Stream

SOCKET_TABLES = "/proc/net/udp", "/proc/net/udp6"


def description_for(text: str, host: str, streams: List[Stream]) -> str:
    """A description (SDP) of the tracks that were set up, with the host and the ports that their packets go to."""
    head, *parts = re.split(r"(?m)^(?=m=)", text)
    ports = {stream.track.uri.rpartition("/")[2]: stream.ports.port for stream in streams}
    whole = re.sub(r"(?m)^c=.*?(\r?)$", rf"c=IN IP4 {host}\1", head)
    for part in parts:
        control = re.search(r"(?m)^a=control:(\S+)", part)
        port = ports.get(control[1].rpartition("/")[2]) if control else None
        if port is not None:
            whole += re.sub(r"^m=(\w+) \d+ ", rf"m=\1 {port} ", part)
    return re.sub(r"(?m)^a=(control|range):.*\r?\n", "", whole)


def is_taken(port: int) -> bool:
    """Whether some program receives on a UDP port."""
    try:
        tables = [pathlib.Path(name).read_text() for name in SOCKET_TABLES if pathlib.Path(name).exists()]
    except OSError:
        tables = []
    if tables:
        return any(re.search(rf"(?m)^\s*\d+: [0-9A-F]+:{port:04X} ", table) for table in tables)
    with socket.socket(socket.AF_INET, socket.SOCK_DGRAM) as tried:
        try:
            tried.bind(("0.0.0.0", port))
        except OSError:
            return True
    return False
