"""What client, aggregator and auditor share: the field, ChaCha20, records, frames, derivations.

Written from docs/FORMATS.md, chapters "The record stream" to "What is derived" and "Faults".
All numbers in bytes are big-endian unless a name says otherwise.
"""

import functools
import hashlib
import hmac
import struct
from typing import NamedTuple, Optional

P = 2**61 - 1
NONCE_ZERO = bytes(12)
NO_PARENT = bytes(32)
MOST_RECORDS = 131_072
MOST_RECORD_BYTES = 8_192


class Version(NamedTuple):
    """What differs between the versions of a report."""

    number: int
    levels: int
    most_threshold: int
    most_frame_bytes: int
    label: bytes
    most_extra_bytes: int


VERSIONS = {
    1: Version(1, 8, 512, 4_096, b"STARNEST", 0),
    2: Version(2, 16, 4_096, 8_192, b"STARNES2", 255),
}


class Refusal(Exception):
    """The whole input is refused: an exit status, and the line on standard error."""

    def __init__(self, status, line):
        super().__init__(line)
        self.status = status
        self.line = line


TOO_MANY = Refusal(5, "too many")


class Fault(Exception):
    """Bytes are not what they should be: the kind of fault, and its place from the front."""

    def __init__(self, kind, place=0):
        super().__init__(kind, place)
        self.kind = kind
        self.place = place


# The field of p elements. A polynomial is the list of its coefficients, the lowest first.


def value_at(polynomial, x):
    """The value of a polynomial at x."""
    value = 0
    for coefficient in reversed(polynomial):
        value = (value * x + coefficient) % P
    return value


def agreeing(polynomials, points):
    """How many points, each x with three shares, lie on all three polynomials."""
    count = 0
    for x, shares in points:
        count += all(value_at(polynomial, x) == y for polynomial, y in zip(polynomials, shares))
    return count


# ChaCha20, RFC 8439.

MASK = 0xFFFFFFFF
QUARTERS = (
    (0, 4, 8, 12), (1, 5, 9, 13), (2, 6, 10, 14), (3, 7, 11, 15),
    (0, 5, 10, 15), (1, 6, 11, 12), (2, 7, 8, 13), (3, 4, 9, 14),
)  # fmt: skip


def quarter_round(a, b, c, d):
    """Four words after one quarter round: sums modulo 2^32, and rotations by 16, 12, 8 and 7."""
    a = (a + b) & MASK
    d ^= a
    d = (d << 16 | d >> 16) & MASK
    c = (c + d) & MASK
    b ^= c
    b = (b << 12 | b >> 20) & MASK
    a = (a + b) & MASK
    d ^= a
    d = (d << 8 | d >> 24) & MASK
    c = (c + d) & MASK
    b ^= c
    b = (b << 7 | b >> 25) & MASK
    return a, b, c, d


@functools.lru_cache(maxsize=65_536)
def chacha20_block(key, nonce, counter):
    """The 64 bytes of one block, kept since boxes and bodies of one key are often opened."""
    first = struct.unpack("<16I", b"expand 32-byte k" + key + struct.pack("<I", counter) + nonce)
    s = list(first)
    for a, b, c, d in QUARTERS * 10:
        s[a], s[b], s[c], s[d] = quarter_round(s[a], s[b], s[c], s[d])
    return struct.pack("<16I", *((after + before) & MASK for after, before in zip(s, first)))


def keystream(key, nonce, length):
    """The first bytes of the keystream, from counter 0."""
    blocks = [chacha20_block(key, nonce, counter) for counter in range((length + 63) // 64)]
    return b"".join(blocks)[:length]


def exclusive_or(data, mask):
    """Two byte lists of one length, bit by bit."""
    number = int.from_bytes(data, "big") ^ int.from_bytes(mask, "big")
    return number.to_bytes(len(data), "big")


# Reading fields. Frames, books and certificates are all read by this.


class Reader:
    """Reads one field after the other; places of faults count from where it began."""

    def __init__(self, data, start=0):
        self.data = data
        self.start = start
        self.position = start

    def place(self):
        """How many bytes were read."""
        return self.position - self.start

    def take(self, length):
        """The next field, of so many bytes."""
        end = self.position + length
        if end > len(self.data):
            raise Fault("Truncated", self.place())
        field = self.data[self.position : end]
        self.position = end
        return field

    def number(self, length):
        """The next field, as a number."""
        return int.from_bytes(self.take(length), "big")

    def number_within(self, length, lowest, highest, kind):
        """The next field, as a number that has a range."""
        place = self.place()
        number = self.number(length)
        if not lowest <= number <= highest:
            raise Fault(kind, place)
        return number


# The record stream.


class Record(NamedTuple):
    """A record: whole with its bytes, or a name and the number that `check` prints with it."""

    data: Optional[bytes]
    name: Optional[str] = None
    number: int = 0


def read_record(stream, start):
    """The record that begins at start, and where the next one begins."""
    left = len(stream) - start
    if left < 4:
        return Record(None, "CutLength", left), len(stream)
    length = int.from_bytes(stream[start : start + 4], "big")
    if left - 4 < length:
        return Record(None, "CutRecord", left - 4), len(stream)
    end = start + 4 + length
    if length > MOST_RECORD_BYTES:
        return Record(None, "TooLong", MOST_RECORD_BYTES), end
    return Record(stream[start + 4 : end]), end


def read_records(stream):
    """The records of a stream."""
    records = []
    place = 0
    while place < len(stream):
        if len(records) == MOST_RECORDS:
            raise TOO_MANY
        record, place = read_record(stream, place)
        records.append(record)
    return records


def write_record(data):
    """The bytes of a whole record."""
    return len(data).to_bytes(4, "big") + data


# The frame.


class Frame(NamedTuple):
    """The fields of a frame, with its version as a number."""

    version: int
    level: int
    epoch: int
    threshold: int
    x: int
    shares: tuple
    tag: bytes
    check: bytes
    box: bytes
    nonce: bytes
    body: bytes
    seal: bytes


def read_frame(data):
    """The frame that the bytes are, else the one fault that they have."""
    if len(data) > 8_192:
        raise Fault("TooLong", 8_192)
    if len(data) > 4_096 and data[:3] == b"ST\x01":
        raise Fault("TooLong", 4_096)
    reader = Reader(data)
    if reader.take(2) != b"ST":
        raise Fault("Magic", 0)
    version = VERSIONS[reader.number_within(1, 1, 2, "Version")]
    frame = Frame(
        version=version.number,
        level=reader.number_within(1, 0, version.levels - 1, "Level"),
        epoch=reader.number(4),
        threshold=reader.number_within(2, 2, version.most_threshold, "Threshold"),
        x=reader.number_within(8, 1, P - 1, "Point"),
        shares=tuple(reader.number_within(8, 0, P - 1, "Share") for _ in range(3)),
        tag=reader.take(16),
        check=reader.take(32),
        box=reader.take(reader.number_within(1, 1, 64, "BoxLength")),
        nonce=reader.take(12),
        body=reader.take(reader.number_within(2, 1, 65_535, "BodyLength")),
        seal=reader.take(32),
    )
    if reader.position < len(data):
        raise Fault("Trailing", reader.place())
    return frame


def before_seal(frame):
    """The bytes of a frame before its seal."""
    return b"".join(
        [
            b"ST",
            struct.pack(">BBIH", frame.version, frame.level, frame.epoch, frame.threshold),
            struct.pack(">4Q", frame.x, *frame.shares),
            frame.tag,
            frame.check,
            struct.pack(">B", len(frame.box)),
            frame.box,
            frame.nonce,
            struct.pack(">H", len(frame.body)),
            frame.body,
        ]
    )


def write_frame(frame):
    """The bytes of a frame."""
    return before_seal(frame) + frame.seal


# What is derived.


def labelled_hash(version, kind, data):
    """The hash H of FORMATS, under the label of the version."""
    return hashlib.sha256(VERSIONS[version].label + bytes([kind]) + data).digest()


class Context(NamedTuple):
    """What the clients of one group have in common."""

    version: int
    parent: bytes
    epoch: int
    level: int
    threshold: int
    value: bytes

    @property
    def data(self):
        """The bytes of the context."""
        numbers = struct.pack(">IBHB", self.epoch, self.level, self.threshold, len(self.value))
        return self.parent + numbers + self.value

    def derive(self, kind):
        """The hash of the context of this kind."""
        return labelled_hash(self.version, kind, self.data)

    @property
    def key(self):
        """The key that the shares hide."""
        return self.derive(1)[:16]

    @property
    def tag(self):
        """The tag, by which reports are grouped."""
        return self.derive(2)[:16]

    @property
    def check(self):
        """The commitment to the context."""
        return self.derive(3)


class Keys(NamedTuple):
    """The keys that follow from the key of a context."""

    box: bytes
    body: bytes
    seal: bytes


def keys_of(version, key):
    """The box key, the body key and the seal key."""
    return Keys(*(labelled_hash(version, kind, key) for kind in (6, 7, 8)))


def limbs_of(key):
    """The three numbers that a key is split into."""
    return tuple(int.from_bytes(part, "big") for part in (key[:6], key[6:11], key[11:]))


def key_of(limbs):
    """The key that three numbers are the limbs of, or None."""
    if limbs[0] >= 2**48 or limbs[1] >= 2**40 or limbs[2] >= 2**40:
        return None
    return b"".join(limb.to_bytes(length, "big") for limb, length in zip(limbs, (6, 5, 5)))


@functools.lru_cache(maxsize=256)
def polynomials_of(context):
    """The three polynomials of a context, on which its shares lie."""
    count = context.threshold - 1
    stream = keystream(context.derive(5), NONCE_ZERO, 24 * count)
    numbers = [number % 2**61 % P for number in struct.unpack(f">{3 * count}Q", stream)]
    return tuple([limb, *numbers[j::3]] for j, limb in enumerate(limbs_of(context.key)))


def open_box(version, key, box):
    """The value in a box; also the box of a value."""
    return exclusive_or(box, keystream(keys_of(version, key).box, NONCE_ZERO, len(box)))


def crypt_body(keys, nonce, body):
    """The plain body of a body, and the other way round."""
    return exclusive_or(body, keystream(keys.body, nonce, len(body)))


def seal_of(keys, frame):
    """The seal that a frame should have."""
    return hmac.new(keys.seal, before_seal(frame), hashlib.sha256).digest()


# How values are printed.

PLAIN_BYTES = frozenset(
    b"ABCDEFGHIJKLMNOPQRSTUVWXYZabcdefghijklmnopqrstuvwxyz0123456789-._=:"
)


def text_of_bytes(data):
    """Bytes as they are printed in paths and as extra bytes."""
    return "".join(chr(byte) if byte in PLAIN_BYTES else f"%{byte:02X}" for byte in data)


def text_of_lines(lines):
    """Lines as they are written."""
    return "".join(line + "\n" for line in lines).encode()


def text_of_step(value, threshold, version):
    """One step of a path."""
    return f"{text_of_bytes(value)}~{threshold}" + ("~2" if version == 2 else "")
