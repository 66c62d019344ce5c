"""Certificates: their bytes. Written from docs/FORMATS.md, chapter "Certificates"."""

import struct
from typing import NamedTuple

from shared import MOST_RECORDS, VERSIONS, Fault, P, Reader


class Certificate(NamedTuple):
    """What shows that a group opens; a point is x and three shares."""

    version: int
    level: int
    epoch: int
    threshold: int
    parent: bytes
    tag: bytes
    check: bytes
    box: bytes
    points: list
    polynomials: list


def write_certificate(certificate):
    """The bytes of a certificate."""
    c = certificate
    points = b"".join(struct.pack(">4Q", x, *shares) for x, shares in c.points)
    numbers = b"".join(struct.pack(f">{c.threshold}Q", *polynomial) for polynomial in c.polynomials)
    return b"".join(
        [
            b"STARCERT\x01",
            struct.pack(">BBIH", c.version, c.level, c.epoch, c.threshold),
            c.parent,
            c.tag,
            c.check,
            struct.pack(">B", len(c.box)),
            c.box,
            struct.pack(">I", len(c.points)),
            points,
            numbers,
        ]
    )


def read_points(reader):
    """The points, whose x ascend."""
    points = []
    lowest = 1
    for _ in range(reader.number_within(4, 0, MOST_RECORDS, "Range")):
        x = reader.number_within(8, lowest, P - 1, "Range")
        points.append((x, tuple(reader.number_within(8, 0, P - 1, "Range") for _ in range(3))))
        lowest = x + 1
    return points


def read_polynomials(reader, threshold):
    """The three polynomials, each of so many numbers."""
    return [
        [reader.number_within(8, 0, P - 1, "Range") for _ in range(threshold)] for _ in range(3)
    ]


def read_certificate(data, start):
    """The certificate that begins at start, and the place behind it; else the fault."""
    reader = Reader(data, start)
    if reader.take(8) != b"STARCERT":
        raise Fault("Magic", 0)
    reader.number_within(1, 1, 1, "Format")
    version = VERSIONS[reader.number_within(1, 1, 2, "Range")]
    level = reader.number_within(1, 0, version.levels - 1, "Range")
    epoch = reader.number(4)
    threshold = reader.number_within(2, 2, version.most_threshold, "Range")
    certificate = Certificate(
        version=version.number,
        level=level,
        epoch=epoch,
        threshold=threshold,
        parent=reader.take(32),
        tag=reader.take(16),
        check=reader.take(32),
        box=reader.take(reader.number_within(1, 1, 64, "Range")),
        points=read_points(reader),
        polynomials=read_polynomials(reader, threshold),
    )
    return certificate, reader.position
