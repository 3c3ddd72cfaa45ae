"""Packets in the order of their places, and their payload, written as it comes."""
from typing import BinaryIO, Callable, Dict, Union

from .files import Pipe
from .rtp import Packet

# A packet that is missing is waited for while so many that follow it come.
MOST_HELD = 64


class InOrder:
    """Hands packets on in the order of their places, each once; what doesn't come is left out."""

    def __init__(self, hand_on: Callable[[int, Packet], None]) -> None:
        self._hand_on = hand_on
        self._next = 0
        self._held: Dict[int, Packet] = {}

    def take(self, place: int, packet: Packet) -> None:
        if place < self._next or place in self._held:
            return
        self._held[place] = packet
        if len(self._held) > MOST_HELD:
            self._next = min(self._held)
        self._hand_on_ready()

    def end(self) -> None:
        """Hands on what is held behind what hasn't come."""
        while self._held:
            self._next = min(self._held)
            self._hand_on_ready()

    def _hand_on_ready(self) -> None:
        while (packet := self._held.pop(self._next, None)) is not None:
            self._hand_on(self._next, packet)
            self._next += 1


class PayloadWriter:
    """Writes the payload of packets as they are handed on."""

    def __init__(self, file: Union[BinaryIO, Pipe]) -> None:
        self.file = file
        self.octets = 0
        # What is written of a payload: it as it is.
        self.form: Callable[[bytes], bytes] = bytes

    def take(self, _place: int, packet: Packet) -> None:
        self.file.write(self.form(packet.payload))
        self.octets += len(packet.payload)
