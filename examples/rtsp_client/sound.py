"""Sound of a stream to samples of 16 bits, telephone audio (ITU-T G.711) and L16 (RFC 3551), and a .wav of them."""
import array
import struct
import sys
import wave
from typing import BinaryIO, Dict, List


def pcmu_sample(octet: int) -> int:
    """A sample of mu-law."""
    octet = ~octet & 0xFF
    magnitude = (((octet & 15) << 3) + 132 << (octet >> 4 & 7)) - 132
    return -magnitude if octet & 0x80 else magnitude


def pcma_sample(octet: int) -> int:
    """A sample of A-law."""
    octet ^= 0x55
    exponent, magnitude = octet >> 4 & 7, (octet & 15) << 4
    magnitude = magnitude + 8 if exponent == 0 else magnitude + 264 << exponent - 1
    return magnitude if octet & 0x80 else -magnitude


# Of each encoding of one octet the sample of each.
SAMPLES: Dict[str, List[int]] = {
    "PCMU": [pcmu_sample(octet) for octet in range(256)],
    "PCMA": [pcma_sample(octet) for octet in range(256)],
}
# The encodings that are decoded.
DECODED = ("PCMU", "PCMA", "L16")
# What a .wav says of a length that isn't known yet.
UNKNOWN = 0xFFFFFFFF


def samples_of(encoding: str, octets: bytes) -> array.array:
    """The samples of a payload; of several channels one of each, again and again."""
    if encoding in SAMPLES:
        table = SAMPLES[encoding]
        return array.array("h", [table[octet] for octet in octets])
    samples = array.array("h", octets[: len(octets) // 2 * 2])
    if sys.byteorder == "little":
        samples.byteswap()
    return samples


def little_endian(samples: array.array) -> bytes:
    """Samples as a .wav has them."""
    if sys.byteorder == "big":
        samples = samples[:]
        samples.byteswap()
    return samples.tobytes()


class Sound:
    """The samples of one track; where nothing came it is silent."""

    def __init__(self, encoding: str, channels: int = 1) -> None:
        self.encoding = encoding
        self.count = channels
        self.samples = array.array("h")

    def put(self, at: int, octets: bytes) -> None:
        """Puts octets at a tick; what would begin before the first one is left out."""
        if at < 0:
            return
        came = samples_of(self.encoding, octets)
        start, end = at * self.count, at * self.count + len(came)
        if len(self.samples) < end:
            self.samples.extend([0] * (end - len(self.samples)))
        self.samples[start:end] = came

    @property
    def channels(self) -> List[array.array]:
        return [self.samples[number :: self.count] for number in range(self.count)]


def write_wav(file: BinaryIO, rate: int, channels: List[array.array]) -> float:
    """Writes channels as one .wav, and returns its seconds."""
    length = max(map(len, channels))
    whole = array.array("h", [0] * (length * len(channels)))
    for number, samples in enumerate(channels):
        whole[number :: len(channels)] = samples + array.array("h", [0] * (length - len(samples)))
    with wave.open(file, "wb") as wav:
        wav.setnchannels(len(channels))
        wav.setsampwidth(2)
        wav.setframerate(rate)
        wav.writeframes(little_endian(whole))
    return length / rate


def wav_head(rate: int, channels: int) -> bytes:
    """The head of a .wav whose length isn't known, as in a pipe."""
    form = struct.pack("<HHIIHH", 1, channels, rate, rate * channels * 2, channels * 2, 16)
    parts = [b"RIFF", struct.pack("<I", UNKNOWN), b"WAVEfmt ", struct.pack("<I", len(form)), form]
    return b"".join([*parts, b"data", struct.pack("<I", UNKNOWN)])
