"""Random streams: honest reports, liars, odd bodies, broken frames, and bytes between them.

Each function draws from a generator `rng` of the module random, so that a stream is a function
of the seed of that generator.
"""

from client import contexts_of, make_frame, sealed
from shared import VERSIONS, P, open_box, write_frame, write_record

EPOCHS = [0, 1, 7, 2**32 - 1]
VALUES = [b"red", b"DE", b"a/b", b"ab", b"a", b"\xff\x00", "Zürich".encode(), b"~", b"z" * 64]


def flipped(rng, data):
    """Bytes with one bit turned."""
    turned = bytearray(data)
    turned[rng.randrange(len(data))] ^= 1 << rng.randrange(8)
    return bytes(turned)


def with_bytes(data, place, part):
    """Bytes with other bytes at a place."""
    return data[:place] + part + data[place + len(part) :]


# Bytes that are no frame.


def out_of_range(rng, data):
    """A frame with one of its fields out of its range."""
    box_end = 91 + data[90]
    beyond = P.to_bytes(8, "big")
    place, part = rng.choice(
        [
            (0, b"SU"),
            (2, b"\x00"),
            (2, b"\x03"),
            (3, b"\x10"),
            (3, b"\x08"),
            (8, b"\x00\x01"),
            (8, rng.choice([b"\x02\x01", b"\x10\x01"])),
            (10, rng.choice([bytes(8), beyond])),
            (rng.choice([18, 26, 34]), beyond),
            (90, rng.choice([b"\x00", b"\x41"])),
            (box_end + 12, b"\x00\x00"),
        ]
    )
    return with_bytes(data, place, part)


def broken(rng, data):
    """A frame out of range, cut, longer than it says, or too long; at times it stays a frame."""
    kind = rng.randrange(9)
    if kind < 5:
        return out_of_range(rng, data)
    if kind == 5:
        return data[: rng.randrange(len(data))]
    if kind == 6:
        return data + rng.randbytes(rng.choice([1, 9]))
    if kind == 7:
        return data.ljust(rng.choice([4_097, 8_192, 8_193]), b"\x00")
    return rng.choice([b"", b"ST", rng.randbytes(139), bytes(4_097), flipped(rng, data)])


# Reports in which something is odd.


def odd_inner(rng, frame):
    """The bytes of an inner frame that the layer around it shouldn't hold."""
    kind = rng.randrange(5)
    if kind == 0:
        return write_frame(frame._replace(epoch=frame.epoch ^ 1))
    if kind == 1:
        return write_frame(frame._replace(level=(frame.level + rng.choice([1, 6])) % 8))
    if kind == 2:
        threshold = min(frame.threshold, 512)
        return write_frame(frame._replace(version=3 - frame.version, threshold=threshold))
    too_long = b"ST\x01" + bytes(4_094)
    return too_long if frame.version == 2 else rng.randbytes(rng.choice([0, 1, 200]))


def odd_body(rng, version, frame):
    """A plain body that no client makes; frame is the report of the next layer, or None."""
    kind = rng.randrange(12)
    if kind == 0:
        most = VERSIONS[version].most_extra_bytes
        return bytes(1 + rng.choice([most + 1, most + 1, most]))
    if kind == 1:
        return rng.choice([b"\x02", b"\xff", b"\x02" + rng.randbytes(9)])
    if kind == 2 or frame is None:
        return b"\x01" + rng.choice([b"", b"ST", rng.randbytes(150)])
    if kind < 9:
        return b"\x01" + broken(rng, write_frame(frame))[: 3_000 if version == 1 else 6_000]
    return b"\x01" + odd_inner(rng, frame)


def wrong_shares(rng, shares):
    """Three shares, one of them wrong."""
    wrong = list(shares)
    wrong[rng.randrange(3)] += rng.choice([1, 1, rng.randrange(1, P)])
    return tuple(share % P for share in wrong)


def next_key(key):
    """The key whose last limb is one more, modulo 2^40."""
    return key[:11] + ((int.from_bytes(key[11:], "big") + 1) % 2**40).to_bytes(5, "big")


def with_wrong_head(context, frame, kind):
    """A frame with a wrong tag, check or box, or whose shares and box are those of another key."""
    if kind != "key":
        right = getattr(frame, kind)
        return frame._replace(**{kind: bytes([right[0] ^ 1]) + right[1:]})
    y0, y1, y2 = frame.shares
    box = open_box(context.version, next_key(context.key), context.value)
    return frame._replace(shares=(y0, y1, (y2 + 1) % P), box=box)


ODD = "odd bodies"
HABITS = [(), ("lies",), ("wrong head",), ("swaps",), (ODD,), (ODD,), (ODD,), ("lies", ODD)]


class Population:
    """Clients of one version, epoch and list of thresholds, with their habits."""

    def __init__(self, rng, epoch):
        self.rng = rng
        self.epoch = epoch
        self.version = rng.choice([1, 2])
        self.count = rng.choice([1, 2, 3, 5, 8, 13])
        depths = [1, 1, 2, 2, 3] if self.count != 3 else [2, VERSIONS[self.version].levels]
        self.thresholds = [rng.choice([2, 2, 2, 3, 4, 7]) for _ in range(rng.choice(depths))]
        self.values = rng.sample(VALUES, rng.choice([1, 1, 1, 2, 3]))
        self.most_x = rng.choice([P - 1, P - 1, P - 1, 12])
        habits = rng.choice(HABITS)
        if ODD in habits:
            self.count = rng.choice([5, 8, 13])
            self.thresholds = [rng.choice([2, 3]) for _ in range(rng.choice([1, 2, 2, 2, 3]))]
            self.values = self.values[:1]
        if "swaps" in habits:
            self.count = 13
            self.thresholds = [2, 2, 3]
            self.values = rng.sample(VALUES, 2)
        self.lies = rng.choice([0.1, 0.3]) if "lies" in habits else 0
        self.odd_bodies = rng.choice([0.2, 0.8, 0.8]) if ODD in habits else 0
        heads = ["tag", "check", "box", "key"]
        self.wrong_head = rng.choice(heads) if "wrong head" in habits else None
        self.swaps = "swaps" in habits
        self.bodies = {}

    def coins(self):
        """A point and a nonce for each layer."""
        rng = self.rng
        return [(rng.randint(1, self.most_x), rng.randbytes(12)) for _ in self.thresholds]

    def last_body(self):
        """The plain body of the last layer."""
        extra = self.rng.choice([b"", b"abc", b"a b\n%", bytes(255)])
        return b"\x00" + (extra if self.version == 2 else b"")

    def bent(self, context, frame):
        """The frame, or one with a wrong share or a wrong head; the seal is right."""
        if self.wrong_head and context.level == 0 and self.rng.random() < 0.7:
            frame = with_wrong_head(context, frame, self.wrong_head)
        if self.rng.random() < self.lies:
            frame = frame._replace(shares=wrong_shares(self.rng, frame.shares))
        return sealed(context, frame)

    def swapped(self, level, plain_body):
        """The plain body, or that of an earlier client, perhaps under another parent."""
        bodies = self.bodies.setdefault(level, [])
        bodies.append(plain_body)
        return self.rng.choice(bodies) if self.swaps else plain_body

    def frames(self):
        """The frames of one client's report, the innermost first."""
        rng = self.rng
        values = [rng.choice(self.values) for _ in self.thresholds]
        contexts = contexts_of(self.version, self.epoch, self.thresholds, values)
        made = []
        plain_body = self.last_body()
        for context, (x, nonce) in zip(reversed(contexts), reversed(self.coins())):
            if rng.random() < self.odd_bodies:
                plain_body = odd_body(rng, self.version, made[-1] if made else None)
            frame = self.bent(context, make_frame(context, x, nonce, plain_body))
            if rng.random() < self.odd_bodies / 8:
                frame = frame._replace(seal=flipped(rng, frame.seal))
            made.append(frame)
            plain_body = self.swapped(context.level, b"\x01" + write_frame(frame))
        return made


def reports(rng, epoch):
    """The bytes of the reports of a population; some stand for records that went wrong."""
    population = Population(rng, epoch)
    found = []
    for _ in range(population.count):
        frames = population.frames()
        data = write_frame(frames[-1])
        chance = rng.random()
        if chance < 0.15:
            data = broken(rng, data)
        elif chance < 0.18:
            data = write_frame(rng.choice(frames))
        found += [data] * rng.choice([1, 1, 1, 1, 2])
    return found


def crowd(rng, epoch):
    """A group of a higher threshold, with about as many liars as decoding bears."""
    population = Population(rng, epoch)
    population.thresholds = [rng.choice([10, 20, 31])]
    population.values = population.values[:1]
    population.most_x = P - 1
    population.odd_bodies = 0
    count = population.thresholds[0] + rng.choice([0, 1, 6, 15])
    population.lies = (count - population.thresholds[0]) / 2 / count
    return [write_frame(population.frames()[-1]) for _ in range(count)]


def records(rng, epochs):
    """The bytes of whole and too long records of reports of these epochs."""
    found = []
    for epoch in epochs:
        found += crowd(rng, epoch) if rng.random() < 0.1 else reports(rng, epoch)
    if rng.random() < 0.4:
        rng.shuffle(found)
    found = [write_record(data) for data in found]
    if rng.random() < 0.15:
        too_long = write_record(bytes(rng.choice([8_193, 9_000])))
        found.insert(rng.randrange(len(found) + 1), too_long)
    return found


def stream_of(rng, epochs):
    """A stream of reports of these epochs; at times cut, or with bytes between its records."""
    found = records(rng, epochs)
    if rng.random() < 0.05:
        found.insert(rng.randrange(len(found) + 1), rng.randbytes(rng.randrange(1, 9)))
    stream = b"".join(found)
    kind = rng.randrange(8)
    if kind == 0:
        return stream[: rng.randrange(len(stream) + 1)]
    if kind == 1:
        return stream + rng.randbytes(rng.randrange(1, 12))
    return stream
