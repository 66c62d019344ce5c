"""Books and certificates that are damaged somewhere, drawn as streams are."""

import struct

from books import book_of, write_book
from certificates import Certificate, write_certificate
from shared import (
    NO_PARENT,
    VERSIONS,
    Context,
    P,
    key_of,
    limbs_of,
    open_box,
    polynomials_of,
    read_frame,
    read_records,
    value_at,
    write_frame,
)
from streams import VALUES, flipped, next_key, stream_of, with_bytes, wrong_shares

# Books.


def entry(count, frame):
    """The bytes of an entry of a book."""
    return struct.pack(">IH", count, len(frame)) + frame


def odd_entries(rng, book):
    """The bytes of a book's entries with something wrong in them."""
    frames = sorted(book.counts) or [b"ST"]
    kind = rng.randrange(6)
    if kind == 0:
        frames.reverse()
    elif kind == 1:
        frames.append(frames[-1])
    elif kind == 2:
        frames.append(b"SU" + frames[-1])
    elif kind == 3 and len(frames[-1]) > 2:
        frames[-1] = write_frame(read_frame(frames[-1])._replace(level=1))
    counts = [book.counts[frame] or 1 for frame in frames]
    if kind >= 4:
        pool = rng.choice([[1, 0], [1, 131_073], [65_536, 65_537]])
        counts = [rng.choice(pool) for _ in counts]
    return b"".join(entry(count, frame) for count, frame in zip(counts, frames)), len(frames)


def odd_book(rng, book):
    """The bytes of a book with something wrong."""
    data = write_book(book)
    kind = rng.randrange(9)
    if kind < 3:
        entries, count = odd_entries(rng, book)
        return data[:17] + count.to_bytes(4, "big") + entries
    if kind == 3:
        return with_bytes(data, rng.randrange(8), b"x")
    if kind == 4:
        return with_bytes(data, 8, rng.choice([b"\x00", b"\x02"]))
    if kind == 5:
        return with_bytes(data, 13, rng.choice([131_072, 131_073, 2**32 - 1]).to_bytes(4, "big"))
    if kind == 6:
        return flipped(rng, data)
    return data[: rng.randrange(len(data))]


def books_of(rng, epoch):
    """Books one behind the other, mostly good ones of the epoch."""
    parts = []
    for _ in range(rng.choice([0, 1, 2, 2, 3])):
        own = epoch if rng.random() < 0.95 else epoch ^ 1
        book = book_of(read_records(stream_of(rng, [own])), own)
        if rng.random() < 0.05:
            book.dropped = 131_072 - sum(book.counts.values())
        parts.append(odd_book(rng, book) if rng.random() < 0.5 else write_book(book))
    return b"".join(parts)


# Certificates.


def certificate_of(rng):
    """The certificate of a group with some wrong points, mostly of one that opens."""
    version = rng.choice([1, 2])
    level = rng.randrange(VERSIONS[version].levels)
    parent = rng.randbytes(32) if level else NO_PARENT
    threshold = rng.choice([2, 2, 3, 5, 20])
    context = Context(version, parent, 7, level, threshold, rng.choice(VALUES))
    polynomials = polynomials_of(context)
    count = threshold + rng.choice([0, 1, 2, 5])
    xs = sorted(rng.sample(range(1, rng.choice([count + 1, P])), count))
    points = [(x, tuple(value_at(polynomial, x) for polynomial in polynomials)) for x in xs]
    for i in rng.sample(range(count), (count - threshold) // 2 + rng.choice([0, 0, 0, 1])):
        points[i] = (points[i][0], wrong_shares(rng, points[i][1]))
    box = open_box(version, context.key, context.value)
    return Certificate(
        version, level, 7, threshold, parent, context.tag, context.check, box, points, polynomials
    )


def odd_points(rng, certificate):
    """A certificate with points taken away, changed or put out of order."""
    points = list(certificate.points)
    kind = rng.randrange(5)
    if kind == 0:
        points = points[: certificate.threshold - 1]
    elif kind == 1:
        points.reverse()
    elif kind == 2:
        points.append(points[-1])
    elif kind == 3:
        points[0] = (0, points[0][1])
    else:
        points[0] = (points[0][0], wrong_shares(rng, points[0][1]))
    return certificate._replace(points=points)


def odd_polynomials(rng, certificate):
    """A certificate with a number changed."""
    polynomials = [list(polynomial) for polynomial in certificate.polynomials]
    place = rng.randrange(3)
    kind = rng.randrange(4)
    if kind == 0:
        polynomials[place][0] = rng.choice([2**48, 2**48 - 1, 2**40, P - 1])
    elif kind == 1:
        polynomials[place][-1] = (polynomials[place][-1] + 1) % P
    elif kind == 2:
        polynomials[place][rng.randrange(certificate.threshold)] = rng.choice([P, 2**64 - 1])
    else:
        polynomials[place] = polynomials[place - 1]
    return certificate._replace(polynomials=polynomials)


def other_key(certificate):
    """A certificate of the same value and head, but with points and polynomials of another key."""
    c = certificate
    right = key_of([polynomial[0] for polynomial in c.polynomials])
    wrong = next_key(right)
    lowest = limbs_of(wrong)[2]
    shift = lowest - c.polynomials[2][0]
    points = [(x, (y0, y1, (y2 + shift) % P)) for x, (y0, y1, y2) in c.points]
    polynomials = [*c.polynomials[:2], [lowest, *c.polynomials[2][1:]]]
    box = open_box(c.version, wrong, open_box(c.version, right, c.box))
    return c._replace(points=points, polynomials=polynomials, box=box)


def odd_fields(rng, certificate):
    """A certificate with another field changed."""
    c = certificate
    changes = [
        {"version": 3 - c.version},
        {"version": rng.choice([0, 3])},
        {"level": rng.choice([c.level ^ 1, 8, 16])},
        {"epoch": c.epoch ^ 1},
        {"threshold": rng.choice([0, 1, 513, 4_097])},
        {"parent": flipped(rng, c.parent)},
        {"tag": flipped(rng, c.tag)},
        {"check": flipped(rng, c.check)},
        {"box": rng.choice([flipped(rng, c.box), b"", c.box[:1], bytes(65)])},
    ]
    change = rng.choice(changes)
    if "threshold" in change:
        size = change["threshold"]
        change["polynomials"] = [(polynomial + [0] * size)[:size] for polynomial in c.polynomials]
    return c._replace(**change)


def odd_bytes(rng, certificate):
    """The bytes of a certificate with some of them changed or cut off."""
    data = write_certificate(certificate)
    kind = rng.randrange(5)
    if kind == 0:
        return data[: rng.randrange(1, len(data))]
    if kind == 1:
        return with_bytes(data, rng.randrange(8), b"x")
    if kind == 2:
        return with_bytes(data, 8, b"\x02")
    if kind == 3:
        count = rng.choice([b"\x00\x02\x00\x01", b"\xff" * 4])
        return with_bytes(data, 98 + len(certificate.box), count)
    return flipped(rng, data)


def odd_certificate(rng, certificate):
    """A certificate that is wrong somewhere."""
    kind = rng.randrange(9)
    if kind < 2:
        return odd_points(rng, certificate)
    if kind < 6:
        return odd_polynomials(rng, certificate)
    return odd_fields(rng, certificate) if kind < 8 else other_key(certificate)


def certificates_of(rng):
    """Certificates one behind the other, some of them damaged."""
    parts = []
    for _ in range(rng.choice([0, 1, 2, 4])):
        certificate = certificate_of(rng)
        chance = rng.random()
        if chance < 0.5:
            parts.append(write_certificate(certificate))
        elif chance < 0.85:
            parts.append(write_certificate(odd_certificate(rng, certificate)))
        else:
            parts.append(odd_bytes(rng, certificate))
    return b"".join(parts)
