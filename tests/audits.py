#!/usr/bin/env python3
"""Compares `star_tool audit` with examples/auditor.py, on the certificates of 1,000 groups of both versions and two levels, and on each of them
with one byte changed.

usage: tests/audits.py [PROGRAM]
"""
import os
import random
import subprocess
import sys

HERE = os.path.dirname(os.path.abspath(__file__))
sys.path.insert(0, os.path.join(HERE, "..", "examples"))
import auditor

PROGRAM = sys.argv[1] if len(sys.argv) > 1 else os.path.join(HERE, "..", "crates", "star_tool", "out", "star_tool")
GROUPS = 250


def run(words, data):
    """The exit status, the output, and the errors."""
    done = subprocess.run([PROGRAM] + words, input=data, capture_output=True)
    return done.returncode, done.stdout, done.stderr


def certificates():
    """The certificates of two levels with GROUPS groups each, of both versions."""
    stream = b""
    for version, end in (("1", ""), ("2", ",")):
        rows = "".join("country %d,city %d%s\n" % (i, i, end) for i in range(GROUPS) for _ in range(2 + i % 3))
        made = run(["make", "--epoch", "9", "--thresholds", "2,2", "--seed", "%064x" % int(version), "--version", version], rows.encode())
        stream += made[1]
    return run(["certify", "--epoch", "9"], stream)[1]


def parts(data):
    """The bytes of each certificate."""
    out, at = [], 0
    while at < len(data):
        reader = auditor.Reader(data, at)
        auditor.read(reader)
        out.append(data[at:reader.at])
        at = reader.at
    return out


def differs(data):
    """Whether the two auditors differ on these bytes; says how."""
    status, out, err = run(["audit"], data)
    wanted = auditor.audited(data)
    if (status, out.decode(), err.decode()) == wanted:
        return False
    print("wanted %r, got %r" % (wanted, (status, out[:300], err)))
    return True


def told(data):
    """The kind of the fault, or the verdict, of one certificate."""
    status, out, err = auditor.audited(data)
    if status:
        return err.split()[3]
    return "Yes" if out.split()[1] == "yes" else out.split()[2]


def main():
    data = certificates()
    certs = parts(data)
    draw = random.Random(19)
    wrong = differs(data)
    kinds = {}
    for cert in certs:
        damaged = bytearray(cert)
        damaged[draw.randrange(len(cert))] ^= draw.randrange(1, 256)
        wrong += differs(bytes(damaged))
        kind = told(bytes(damaged))
        kinds[kind] = kinds.get(kind, 0) + 1
    print("%d certificates, as many damaged ones (%s), %d differences" % (len(certs), ", ".join("%s %d" % k for k in sorted(kinds.items())), wrong))
    return 1 if wrong or len(certs) != 4 * GROUPS else 0


sys.exit(main())
