#!/usr/bin/env python3
"""Audits certificates by docs/FORMATS.md, with hashlib and plain integers: reads them from standard input and prints what `star_tool audit` prints."""
import hashlib
import struct
import sys

P = 2**61 - 1
LABEL = {1: b"STARNEST", 2: b"STARNES2"}
MAX_LEVEL = {1: 7, 2: 15}
MAX_K = {1: 512, 2: 4096}
PLAIN = set(b"ABCDEFGHIJKLMNOPQRSTUVWXYZabcdefghijklmnopqrstuvwxyz0123456789-._=:")


class Bad(Exception):
    """The bytes begin with no certificate: kind and place."""


def block(key, counter):
    """A block of the ChaCha20 keystream of RFC 8439, under the nonce of zeros."""
    start = list(struct.unpack("<4I", b"expand 32-byte k") + struct.unpack("<8I", key) + (counter, 0, 0, 0))
    w = list(start)
    rounds = [(0, 4, 8, 12), (1, 5, 9, 13), (2, 6, 10, 14), (3, 7, 11, 15), (0, 5, 10, 15), (1, 6, 11, 12), (2, 7, 8, 13), (3, 4, 9, 14)]
    for a, b, c, d in rounds * 10:
        for x, y, z, turn in ((a, b, d, 16), (c, d, b, 12), (a, b, d, 8), (c, d, b, 7)):
            w[x] = (w[x] + w[y]) & 0xFFFFFFFF
            v = w[z] ^ w[x]
            w[z] = (v << turn | v >> (32 - turn)) & 0xFFFFFFFF
    return struct.pack("<16I", *((a + b) & 0xFFFFFFFF for a, b in zip(w, start)))


class Reader:
    """Reads the fields of a certificate that begins at a place."""

    def __init__(self, data, start):
        self.data, self.start, self.at = data, start, start

    def bytes(self, size):
        if len(self.data) - self.at < size:
            raise Bad("Truncated", self.at - self.start)
        self.at += size
        return self.data[self.at - size:self.at]

    def number(self, size, low, high, kind="Range"):
        at, n = self.at, int.from_bytes(self.bytes(size), "big")
        if n < low or high < n:
            raise Bad(kind, at - self.start)
        return n


def read_points(r, n):
    points, x = [], 0
    for _ in range(n):
        x = r.number(8, x + 1, P - 1)
        points.append((x, [r.number(8, 0, P - 1) for _ in range(3)]))
    return points


def read(r):
    magic = int.from_bytes(b"STARCERT", "big")
    r.number(8, magic, magic, "Magic")
    r.number(1, 1, 1, "Format")
    version = r.number(1, 1, 2)
    level = r.number(1, 0, MAX_LEVEL[version])
    epoch = r.bytes(4)
    k = r.number(2, 2, MAX_K[version])
    parent, tag, check = r.bytes(32), r.bytes(16), r.bytes(32)
    box = r.bytes(r.number(1, 1, 64))
    points = read_points(r, r.number(4, 0, 131072))
    polynomials = [[r.number(8, 0, P - 1) for _ in range(k)] for _ in range(3)]
    return version, level, epoch, k, parent, tag, check, box, points, polynomials


def value_at(polynomial, x):
    y = 0
    for c in reversed(polynomial):
        y = (y * x + c) % P
    return y


def audit(version, level, epoch, k, parent, tag, check, box, points, polynomials):
    """The name of the verdict, and for Yes the value and how many points agree."""
    limbs = [f[0] for f in polynomials]
    if len(points) < k:
        return "Few", None
    if limbs[0] >= 2**48 or limbs[1] >= 2**40 or limbs[2] >= 2**40:
        return "Key", None
    agree = sum(all(value_at(f, x) == y for f, y in zip(polynomials, ys)) for x, ys in points)
    if 2 * agree < len(points) + k:
        return "Short", None
    key = b"".join(n.to_bytes(size, "big") for n, size in zip(limbs, (6, 5, 5)))
    hashed = lambda kind, text: hashlib.sha256(LABEL[version] + bytes([kind]) + text).digest()
    value = bytes(a ^ b for a, b in zip(box, block(hashed(6, key), 0)))
    context = parent + epoch + bytes([level]) + k.to_bytes(2, "big") + bytes([len(value)]) + value
    if (hashed(1, context)[:16], hashed(2, context)[:16], hashed(3, context)) != (key, tag, check):
        return "Value", None
    return "Yes", (value, agree)


def step(value, k, version):
    return "".join(chr(b) if b in PLAIN else "%%%02X" % b for b in value) + "~%d" % k + ("~2" if version == 2 else "")


def audited(data):
    """The exit status, the output, and the line on standard error."""
    lines, yes, at = [], 0, 0
    while at < len(data):
        reader = Reader(data, at)
        try:
            cert = read(reader)
        except Bad as bad:
            return 12, "", "bad cert %d: %s %d\n" % (len(lines), *bad.args)
        verdict, opened = audit(*cert)
        if opened:
            yes += 1
            lines.append("%d yes %s level=%d points=%d agree=%d" % (len(lines), step(opened[0], cert[3], cert[0]), cert[1], len(cert[8]), opened[1]))
        else:
            lines.append("%d no %s" % (len(lines), verdict))
        at = reader.at
    return 0, "\n".join(lines + ["certs=%d yes=%d" % (len(lines), yes)]) + "\n", ""


if __name__ == "__main__":
    status, out, err = audited(sys.stdin.buffer.read())
    sys.stdout.write(out)
    sys.stderr.write(err)
    sys.exit(status)
