"""The RTP packets of a file's streams as they are: ffmpeg's own packetizers, through a local socket that keeps packets
apart, loses none and waits for its reader."""
import array
import json
import pathlib
import re
import socket
import subprocess
import tempfile
import threading
from typing import Dict, Iterator, List, NamedTuple, Optional

from .configuration import Refused
from .media import Source, ffmpeg, pictures_by

HEADER = 12
# What ffmpeg takes for a packet: a header, and a payload of the most that the server sends.
PACKET = HEADER + 1400
# What players take as it is, by ffmpeg's name for it; anything else is encoded anew.
AS_THEY_ARE = {
    "video": ("h264", "hevc", "vp8", "vp9", "av1", "mpeg2video"),
    "audio": ("aac", "opus", "mp3", "mp2", "ac3", "pcm_mulaw", "pcm_alaw"),
}
FIRST_PAYLOAD_TYPE = 96
WRITTEN_AT_ONCE = 1 << 20
# So many packets of a stream are looked at for the first that a decoder begins with.
MOST_LOOKED_AT = 5000
# Encodings and clocks that ffmpeg's descriptions leave out, since payload types stand for them (RFC 3551).
FIXED = {
    "pcm_mulaw": ("PCMU", 8000),
    "pcm_alaw": ("PCMA", 8000),
    "mp2": ("MPA", 90_000),
    "mp3": ("MPA", 90_000),
    "mpeg2video": ("MPV", 90_000),
}
# The samples that an encoder of AAC puts before the first one.
PRIMING = 1024


class FilmStream(NamedTuple):
    """A picture or a sound of a file: which of its kind it is, ffmpeg's name of its encoding, and when it begins."""

    media: str
    place: int
    codec: str
    start: float

    @property
    def is_taken(self) -> bool:
        return self.codec in AS_THEY_ARE[self.media]

    @property
    def selector(self) -> str:
        return f"{self.media[0]}:{self.place}"


def streams_of(path: pathlib.Path, most: int) -> List[FilmStream]:
    """The first picture of a file that isn't a cover, and each of its sounds."""
    command = ["ffprobe", "-v", "error", "-show_streams", "-of", "json", f"file:{path.resolve()}"]
    done = subprocess.run(command, capture_output=True, stdin=subprocess.DEVNULL)
    found: List[FilmStream] = []
    counts: Dict[str, int] = {"video": 0, "audio": 0}
    for stream in json.loads(done.stdout or b"{}").get("streams", []):
        media = stream.get("codec_type")
        if media not in counts:
            continue
        place, counts[media] = counts[media], counts[media] + 1
        is_cover = stream.get("disposition", {}).get("attached_pic") == 1
        if is_cover or (media == "video" and any(it.media == "video" for it in found)):
            continue
        start = float(stream.get("start_time", 0))
        found.append(FilmStream(media, place, stream.get("codec_name", "unknown"), start))
    return sorted(found, key=lambda it: it.media == "audio")[:most]


def first_time(path: pathlib.Path, selector: str) -> float:
    """The time of the first packet of a stream that ffmpeg takes, which RTP doesn't tell."""
    words = ["-select_streams", selector, "-show_entries", "packet=pts_time,flags"]
    words += ["-read_intervals", f"%+#{MOST_LOOKED_AT}", "-of", "csv=p=0"]
    done = subprocess.run(["ffprobe", "-v", "error", *words, f"file:{path.resolve()}"], capture_output=True, text=True)
    times = [it.split(",") for it in done.stdout.splitlines() if re.match(r"-?[\d.]+,", it)]
    begins = [time for time, flags, *_ in times if "K" in flags] or [time for time, *_ in times]
    return float(begins[0]) if begins else 0.0


def units_of_h264(payload: memoryview) -> Iterator[memoryview]:
    """The beginning of each unit of a packet that begins in it (RFC 6184)."""
    kind = payload[0] & 31
    if kind == 28:
        if payload[1] & 0x80:
            yield memoryview(bytes([payload[1]]) + bytes(payload[2:4]))
    elif kind == 24:
        at = 1
        while at + 2 < len(payload):
            yield payload[at + 2 :]
            at += 2 + (payload[at] << 8 | payload[at + 1])
    else:
        yield payload


def begins_h264(unit: memoryview) -> bool:
    """Whether it is of a key frame, of its parameters, or says that a decoder may recover here."""
    kind = unit[0] & 31
    return kind in (5, 7) or (kind == 6 and len(unit) > 1 and unit[1] == 6)


def kinds_of_hevc(payload: memoryview) -> Iterator[int]:
    """The kind of each unit of a packet that begins in it (RFC 7798)."""
    kind = payload[0] >> 1 & 63
    if kind == 49:
        if payload[2] & 0x80:
            yield payload[2] & 63
    elif kind == 48:
        at = 2
        while at + 2 < len(payload):
            yield payload[at + 2] >> 1 & 63
            at += 2 + (payload[at] << 8 | payload[at + 1])
    else:
        yield kind


def begins_vp8(payload: memoryview) -> bool:
    """Whether it begins a key frame (RFC 7741)."""
    at = 1
    if payload[0] & 0x80:
        more = payload[1]
        at = 2
        if more & 0x80:
            at += 2 if payload[2] & 0x80 else 1
        at += (more >> 6 & 1) + (1 if more & 0x30 else 0)
    is_first = payload[0] & 0x10 and not payload[0] & 7
    return bool(is_first) and len(payload) > at and not payload[at] & 1


def begins(codec: str, payload: memoryview) -> bool:
    """Whether a packet has what a decoder may begin with: parameters, or a key frame (RFC 6184, 7798, 7741, 9628,
    2250)."""
    if codec == "h264":
        # Most packets are a further fragment.
        if payload[0] & 31 == 28 and not payload[1] & 0x80:
            return False
        return any(begins_h264(unit) for unit in units_of_h264(payload))
    if codec == "hevc":
        return any(16 <= kind <= 21 or kind in (32, 33) for kind in kinds_of_hevc(payload))
    if codec == "vp8":
        return begins_vp8(payload)
    if codec == "vp9":
        return payload[0] & 0x48 == 0x08
    if codec == "mpeg2video":
        return len(payload) > 2 and payload[2] & 0x20 != 0
    return bool(payload[0] & 0x08)


class Packets:
    """The packets of one stream, one after another: their payloads in a file, and of each its length, marker, timestamp
    and whether a decoder may begin with it."""

    def __init__(self, stream: FilmStream, folder: pathlib.Path) -> None:
        self.stream = stream
        # Without a name: whatever ends the import, nothing is left of it.
        self.data = tempfile.TemporaryFile(dir=folder, buffering=WRITTEN_AT_ONCE)
        self.lengths = array.array("H")
        self.markers = bytearray()
        self.stamps = array.array("q")
        self.keys = bytearray()
        self.encoding, self.clock, self.channels, self.fmtp = "", 0, 1, ""
        # The timestamp of the first one, in ticks of the film's time.
        self.first = 0
        # The second of the file's time at which it is.
        self.begins_at = 0.0
        self._base: Optional[int] = None
        self._last = 0

    def add(self, packet: memoryview) -> None:
        stamp = int.from_bytes(packet[4:8], "big")
        if self._base is None:
            self._base = self._last = stamp
        self._last += (stamp - self._last + (1 << 31)) % (1 << 32) - (1 << 31)
        payload = packet[HEADER:]
        self.lengths.append(len(payload))
        self.markers.append(packet[1] >> 7)
        self.stamps.append(self._last - self._base)
        self.keys.append(self.stream.media == "audio" or begins(self.stream.codec, payload))
        self.data.write(payload)

    def described(self, text: str) -> None:
        """What ffmpeg's SDP says of the stream."""
        found = re.search(r"(?m)^a=rtpmap:\d+ ([^/\s]+)/(\d+)(?:/(\d+))?", text)
        if found:
            self.encoding, self.clock, self.channels = found[1], int(found[2]), int(found[3] or 1)
        elif self.stream.codec in FIXED:
            self.encoding, self.clock = FIXED[self.stream.codec]
        else:
            raise Refused(f"ffmpeg's description of {self.stream.codec} says no clock")
        parameters = re.search(r"(?m)^a=fmtp:\d+ (.*?)\r?$", text)
        self.fmtp = "; ".join(it.strip() for it in parameters[1].split(";") if it.strip()) if parameters else ""


class _Listener:
    """The socket that ffmpeg's packets come by, and the thread that reads them."""

    def __init__(self, path: pathlib.Path, packets: Packets) -> None:
        self.packets = packets
        self.failure: Optional[Exception] = None
        self.listening = socket.socket(socket.AF_UNIX, socket.SOCK_SEQPACKET)
        self.listening.bind(str(path))
        self.listening.listen(1)
        self.thread = threading.Thread(target=self._read, daemon=True)
        self.thread.start()

    def _read(self) -> None:
        try:
            come, _ = self.listening.accept()
        except OSError:
            return
        room = bytearray(2048)
        view = memoryview(room)
        with come:
            try:
                while length := come.recv_into(room):
                    if length > HEADER and not 200 <= room[1] <= 204:
                        self.packets.add(view[:length])
            except (OSError, IndexError) as why:
                # ffmpeg ends too, since nobody reads any more.
                self.failure = why

    def close(self) -> None:
        # A call that waits ends with it.
        self.listening.shutdown(socket.SHUT_RDWR)
        self.thread.join()
        self.listening.close()


class Encoding(NamedTuple):
    """How a stream is encoded anew: what becomes of it, by ffmpeg's name, and ffmpeg's words for that."""

    codec: str
    words: List[str]


def picture_anew(megabits: Optional[float]) -> Encoding:
    """About as it was, or to a rate."""
    by = pictures_by()
    words = ["-vf", "scale=trunc(iw/2)*2:trunc(ih/2)*2", "-pix_fmt", "yuv420p", *by]
    words += ["-force_key_frames", "expr:gte(t,n_forced)"]
    codec = "h264" if "libx264" in by else "mpeg2video"
    if megabits is not None:
        rate = int(megabits * 1e6)
        words += ["-maxrate", str(rate), "-bufsize", str(rate // 2)]
        words += ["-b:v", str(rate)] if codec == "mpeg2video" else []
    elif codec == "mpeg2video":
        words += ["-q:v", "4"]
    return Encoding(codec, words)


SOUND_ANEW = Encoding("aac", ["-c:a", "aac", "-b:a", "160k"])


def packetize(source: Source, told: str, stream: FilmStream, anew: Optional[Encoding], folder: pathlib.Path) -> Packets:
    """The packets of a stream, as it is or encoded anew; they wait in a folder."""
    packets = Packets(stream._replace(codec=anew.codec) if anew else stream, folder)
    with tempfile.TemporaryDirectory() as sockets:
        by, sdp = pathlib.Path(sockets) / "rtp", pathlib.Path(sockets) / "sdp"
        listener = _Listener(by, packets)
        words = ["-map", f"0:{stream.selector}", *(anew.words if anew else ["-c", "copy"]), "-copypriorss", "1"]
        words += ["-f", "rtp", "-rtpflags", "skip_rtcp", "-payload_type", str(FIRST_PAYLOAD_TYPE)]
        words += ["-ssrc", "1", "-seq", "0", "-max_delay", "0", "-strict", "experimental", "-sdp_file", str(sdp)]
        words += ["-type", "seqpacket", "-packetsize", str(PACKET), f"unix:{by}"]
        refused: Optional[Refused] = None
        try:
            ffmpeg(source, told, words)
        except Refused as why:
            refused = why
        finally:
            listener.close()
        if listener.failure:
            raise listener.failure
        if refused or not packets.lengths:
            raise refused or Refused(f"ffmpeg makes no packets of {stream.codec} in {source.path}")
        packets.described(sdp.read_text())
    if not anew:
        packets.begins_at = first_time(source.path, stream.selector)
    else:
        packets.begins_at = stream.start - (PRIMING / packets.clock if anew is SOUND_ANEW else 0)
    return packets
