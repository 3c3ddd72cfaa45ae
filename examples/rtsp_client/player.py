"""A player: a presentation is described, its tracks are set up, played, paused and torn down (RFC 7826 section 13)."""
import enum
import re
import time
from typing import Callable, List, NamedTuple, Optional, Tuple, Union

from .connection import Connection, LentPair, Refused, UdpPair, UdpPort, address_of, without_user
from .credentials import Credentials
from .messages import Message
from .rtp import Reception

OK = 200
# SDP leaves out a clock that the payload type fixes; all of these have this one.
TELEPHONE_CLOCK = 8000
RTP_INFO = re.compile(r'url="([^"]*)" ssrc=([0-9a-fA-F]{8}):seq=(\d+);rtptime=(\d+)')
RANGE = re.compile(r"npt=(\d+\.?\d*)-(\d+\.?\d*)")
# After the end of a play packets may still be under way, in seconds.
TAIL = 0.2
TIMEOUT = 60

Ports = Union[UdpPair, UdpPort, LentPair]


class Track(NamedTuple):
    """A track of a presentation, as its description has it."""

    uri: str
    media: str
    payload_type: int
    encoding: str
    clock: int
    channels: int = 1

    @property
    def name(self) -> str:
        return self.uri.rstrip("/").rpartition("/")[2]


def read_description(text: str, base: str) -> List[Track]:
    """The tracks of a description (SDP); their URIs are taken at its base."""
    tracks = []
    for part in re.split(r"(?m)^m=", text)[1:]:
        media = re.match(r"(\w+) \d+ RTP/AVP (\d+)", part)
        control = re.search(r"(?m)^a=control:(\S+)", part)
        if not media or not control:
            continue
        mapped = re.search(rf"(?m)^a=rtpmap:{media[2]} ([^/\s]+)/(\d+)(?:/(\d+))?", part)
        encoding, clock = (mapped[1], int(mapped[2])) if mapped else ("unknown", TELEPHONE_CLOCK)
        channels = max(int(mapped[3] or 1), 1) if mapped else 1
        uri = control[1] if "://" in control[1] else base + control[1]
        tracks.append(Track(uri, media[1], int(media[2]), encoding, clock, channels))
    return tracks


class Way(enum.Enum):
    """What the packets come over."""

    UDP = "UDP"
    ONE_PORT = "one UDP port"
    TCP = "TCP"
    # Another program takes the packets.
    LENT = "UDP to a receiver"

    def open(self, host: str) -> Optional[Ports]:
        """The ports that a stream needs beside the connection."""
        if self is Way.TCP:
            return None
        return {Way.UDP: UdpPair, Way.ONE_PORT: UdpPort, Way.LENT: LentPair}[self](host)


class Stream:
    """A track that was set up."""

    def __init__(self, track: Track, transport: str, channel: Optional[int], ports: Optional[Ports]) -> None:
        found = re.search(r"ssrc=([0-9a-fA-F]{8})", transport)
        if not found:
            raise Refused(f"the server names no SSRC: {transport!r}")
        self.track = track
        self.transport = transport
        self.channel = channel
        self.ports = ports
        self.reception = Reception(int(found[1], 16), track.clock)


class Player:
    """One session on one connection."""

    def __init__(
        self, uri: str, way: Way, receive_buffer: Optional[int] = None, credentials: Optional[Credentials] = None
    ) -> None:
        self.uri = without_user(uri)
        self.way = way
        self.connection = Connection(*address_of(uri), receive_buffer, credentials or Credentials.of_uri(uri))
        self.streams: List[Stream] = []
        self.session: Optional[str] = None
        self.timeout = TIMEOUT
        self.is_playing = False
        # What is played, in seconds.
        self.range: Tuple[float, float] = (0.0, 0.0)
        self.description = ""

    def ask(self, method: str, uri: Optional[str] = None, *headers: Tuple[str, str]) -> Message:
        """The answer to a request of this session, which has to be 200."""
        named = [("Session", self.session)] if self.session else []
        answer = self.connection.ask(method, uri or self.uri, [*named, *headers])
        if answer.status != OK:
            raise Refused(f"{method} was answered {answer.first_line.partition(' ')[2]}")
        return answer

    def describe(self) -> List[Track]:
        answer = self.ask("DESCRIBE", None, ("Accept", "application/sdp"))
        base = answer.header("Content-Base") or self.uri.rstrip("/") + "/"
        self.description = answer.body.decode("utf-8", "replace")
        return read_description(self.description, base)

    def set_up(self, track: Track) -> Stream:
        """Sets up one track, in the session of the tracks before it."""
        ports = self.way.open(self.connection.socket.getsockname()[0])
        if ports:
            wanted = f"RTP/AVP;unicast;{ports.address}"
        else:
            wanted = f"RTP/AVP/TCP;unicast;interleaved={2 * len(self.streams)}-{2 * len(self.streams) + 1}"
        try:
            answer = self.ask("SETUP", track.uri, ("Transport", wanted))
            stream = Stream(track, answer.header("Transport") or "", self._channel_of(answer), ports)
        except Refused:
            if ports:
                ports.close()
            raise
        identity, _, parameters = (answer.header("Session") or "").partition(";")
        timeout = re.search(r"timeout=(\d+)", parameters)
        self.session, self.timeout = identity.strip(), int(timeout[1]) if timeout else self.timeout
        self.streams.append(stream)
        if isinstance(ports, (UdpPair, UdpPort)):
            self.connection.datagrams[ports.rtp] = stream.reception.take
        if isinstance(ports, UdpPair):
            self.connection.datagrams[ports.rtcp] = stream.reception.take
        if not ports:
            self.connection.channels[stream.channel] = stream.reception.take
            self.connection.channels[stream.channel + 1] = stream.reception.take
        return stream

    def _channel_of(self, answer: Message) -> Optional[int]:
        found = re.search(r"interleaved=(\d+)-", answer.header("Transport") or "")
        if self.way is Way.TCP and not found:
            raise Refused("the server names no channel")
        return int(found[1]) if found else None

    def play(self, start: Optional[float] = None, stop: Optional[float] = None) -> Message:
        """Plays from a second to another; without a start from where it stopped, without a stop to the end."""
        wanted = []
        if start is not None or stop is not None:
            wanted = [("Range", f"npt={start or 0:.3f}-" + (f"{stop:.3f}" if stop is not None else ""))]
        self.connection.requests.clear()
        for stream in self.streams:
            stream.reception.waits()
        try:
            answer = self.ask("PLAY", None, *wanted)
            self._begin(answer)
        finally:
            for stream in self.streams:
                stream.reception.goes_on()
        return answer

    def _begin(self, answer: Message) -> None:
        self.is_playing = True
        played = RANGE.search(answer.header("Range") or "")
        if played:
            self.range = float(played[1]), float(played[2])
        for _, ssrc, sequence, timestamp in RTP_INFO.findall(answer.header("RTP-Info") or ""):
            for stream in self.streams:
                if stream.reception.ssrc == int(ssrc, 16):
                    stream.reception.starts(int(sequence), int(timestamp))

    @property
    def notice(self) -> Optional[Message]:
        """What the server said at the end of the play."""
        for request in self.connection.requests:
            if request.first_line.startswith("PLAY_NOTIFY ") and request.header("Session") == self.session:
                return request
        return None

    def hold(self, is_enough: Callable[[], bool]) -> None:
        """Keeps the session alive until it is enough or the connection is closed."""
        while not is_enough() and not self.connection.is_closed:
            self.connection.wait(self.timeout / 2, is_enough)
            if not is_enough() and not self.connection.is_closed:
                self.ask("GET_PARAMETER")

    def listen(self, seconds: float, is_enough: Callable[[], bool] = lambda: False) -> bool:
        """Receives until the play ends, for so many seconds at most; true where it ended. Keeps the session alive."""
        until = time.monotonic() + seconds
        done = lambda: is_enough() or self.notice is not None or self.connection.is_closed
        while not done() and time.monotonic() < until:
            self.connection.wait(min(self.timeout / 2, until - time.monotonic()), done)
            if not done() and time.monotonic() < until:
                self.ask("GET_PARAMETER")
        if self.notice is None:
            return False
        self.connection.wait(TAIL)
        for _, ssrc, sequence, _ in RTP_INFO.findall(self.notice.header("RTP-Info") or ""):
            for stream in self.streams:
                if stream.reception.ssrc == int(ssrc, 16) and stream.reception.first_sequence is not None:
                    stream.reception.ends(int(sequence))
        return True

    def pause(self) -> Message:
        answer = self.ask("PAUSE")
        self.is_playing = False
        return answer

    def tear_down(self) -> None:
        """Ends the session, if there is one, and the connection."""
        try:
            if self.session and not self.connection.is_closed:
                if self.is_playing:
                    self.pause()
                self.ask("TEARDOWN")
        finally:
            self.close()

    def close(self) -> None:
        """Goes without a word."""
        self.connection.close()
        for stream in self.streams:
            if stream.ports:
                stream.ports.close()
