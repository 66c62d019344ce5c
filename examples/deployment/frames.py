"""Streams of records, and what a frame shows without being opened (docs/FORMATS.md, "The record stream", "The frame" and "Faults")."""
from typing import NamedTuple

MAX_RECORD = 8_192
P = 2**61 - 1
FIXED = 137                         # bytes of a frame besides its box and its body
LAYER = FIXED + 1                   # bytes that a layer adds to a report besides its value: its frame and the first byte of its plain body
MAX_VALUE = 64


class VersionLimits(NamedTuple):
    """What a version bounds."""

    level: int
    threshold: int
    frame: int
    extra: int


VERSIONS = {1: VersionLimits(7, 512, 4_096, 0), 2: VersionLimits(15, 4_096, 8_192, 255)}


class NoStream(ValueError):
    """The bytes aren't whole records of at most 8,192 bytes."""


class Fault(ValueError):
    """The bytes aren't a frame: the kind and the place that `check` prints."""

    def __init__(self, kind, place):
        super().__init__(f"{kind} {place}")
        self.kind = kind
        self.place = place


class Frame(NamedTuple):
    """What the door looks at; `box` and `body` are lengths in bytes."""

    version: int
    level: int
    epoch: int
    threshold: int
    box: int
    body: int


def record(frame):
    """The record of a frame; records one after the other are a stream."""
    return len(frame).to_bytes(4, "big") + frame


def records_of(body):
    """The records of a body of whole records; NoStream if it isn't one."""
    found, at = [], 0
    while at < len(body):
        start = at + 4
        at = start + int.from_bytes(body[at:start], "big")
        if at - start > MAX_RECORD or at > len(body):
            raise NoStream(f"record {len(found)} is cut or has more than {MAX_RECORD} bytes")
        found.append(body[start:at])
    return found


class _Reader:
    """Takes one field after the other, and raises the first fault."""

    def __init__(self, data):
        self._data = data
        self.at = 0

    def skip(self, size):
        """Passes over a field of any content."""
        if self.at + size > len(self._data):
            raise Fault("Truncated", self.at)
        self.at += size

    def number(self, size, least, most, kind):
        """A big-endian number in its range."""
        start = self.at
        self.skip(size)
        number = int.from_bytes(self._data[start:self.at], "big")
        if not least <= number <= most:
            raise Fault(kind, start)
        return number


def _refuse_length(data):
    """Raises the fault of bytes that are too many, whatever they hold."""
    if len(data) > MAX_RECORD:
        raise Fault("TooLong", MAX_RECORD)
    if len(data) > VERSIONS[1].frame and data[:3] == b"ST\x01":
        raise Fault("TooLong", VERSIONS[1].frame)


def read(data):
    """The frame that these bytes are; Fault if they are none."""
    _refuse_length(data)
    reader = _Reader(data)
    reader.skip(2)
    if data[:2] != b"ST":
        raise Fault("Magic", 0)
    version = reader.number(1, 1, 2, "Version")
    limits = VERSIONS[version]
    level = reader.number(1, 0, limits.level, "Level")
    epoch = reader.number(4, 0, 2**32 - 1, "Epoch")
    threshold = reader.number(2, 2, limits.threshold, "Threshold")
    reader.number(8, 1, P - 1, "Point")
    for _ in range(3):
        reader.number(8, 0, P - 1, "Share")
    reader.skip(16)
    reader.skip(32)
    box = reader.number(1, 1, MAX_VALUE, "BoxLength")
    reader.skip(box)
    reader.skip(12)
    body = reader.number(2, 1, 2**16 - 1, "BodyLength")
    reader.skip(body)
    reader.skip(32)
    if reader.at < len(data):
        raise Fault("Trailing", reader.at)
    return Frame(version, level, epoch, threshold, box, body)


def body_lengths(version, layers):
    """The lengths that the body of level 0 may have in a report with so many layers."""
    below = layers - 1
    return range(1 + below * (LAYER + 1), 1 + below * (LAYER + MAX_VALUE) + VERSIONS[version].extra + 1)
