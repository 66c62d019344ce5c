#!/usr/bin/env python3
"""Writes streams that cost `reveal` much, runs the program on them, and says what each costs it and its sender.

    worst_streams.py PROGRAM [--records N] [--only NAME,..] [--workers W] [--seconds S]

Each stream of the table STREAMS has up to N records, 131,072 where not given, and goes through `reveal --epoch 1`. Printed are
the bytes that must be sent, the seconds and the processor seconds that `reveal` took, the most memory it held, and the last lines
of what it told. A run is ended after S seconds, 600 where not given. Wall-clock figures need a quiet machine.
"""
import os
import random
import struct
import subprocess
import sys
import tempfile
import time

sys.path.insert(0, os.path.join(os.path.dirname(os.path.abspath(__file__)), "plain"))
from shared import NO_PARENT, NONCE_ZERO, Frame, P, write_frame, write_record

EPOCH = 1


def frame(version, k, x, y, tag, box=b"\0", body=b"\0"):
    """The record of a good frame of level 0. Its tag names its group; check, nonce and seal are zeros."""
    return write_record(write_frame(Frame(version, 0, EPOCH, k, x, tuple(y), tag, NO_PARENT, box, NONCE_ZERO, body, seal=bytes(32))))


def shares(rng):
    return [rng.randrange(P) for _ in range(3)]


# ---- streams whose records nobody had to seal

def no_line(rng, count, k=2):
    """One group, whose points are random: no polynomials fit them."""
    for x in range(1, count + 1):
        yield frame(1, k, x, shares(rng), bytes(16))


def no_line_of_512(rng, count):
    return no_line(rng, count, 512)


def no_third_line(rng, count):
    """One group, whose first two shares lie on a line but for as many as may be wrong, and whose third ones are random."""
    wrong = (count - 2) // 2
    first, second = set(rng.sample(range(1, count + 1), wrong)), set(rng.sample(range(1, count + 1), wrong))
    for x in range(1, count + 1):
        y = shares(rng)
        yield frame(1, 2, x, [y[0] if x in first else 5 + x, y[1] if x in second else 7 + x, y[2]], bytes(16))


def lone_rows(rng, count):
    """A group for each record."""
    for i in range(count):
        yield frame(1, 2, 1, [0, 0, 0], struct.pack(">QQ", i, 0))


def equal_points(rng, count):
    """One group, all of whose points are equal."""
    for _ in range(count):
        yield frame(1, 2, 1, [0, 0, 0], bytes(16))


def two_values(rng, count):
    """One group, in which each point has two values."""
    for i in range(count):
        yield frame(1, 2, 1 + i // 2, [i % 2, 0, 0], bytes(16))


def pairs(rng, count):
    """Groups of two random points, just enough for threshold 2: polynomials fit them, and no key ends these."""
    for i in range(count):
        yield frame(1, 2, 1 + i % 2, shares(rng), struct.pack(">QQ", i // 2, 0))


def just_enough(rng, count):
    """Groups of 4,096 random points, just enough for threshold 4,096."""
    for i in range(count):
        yield frame(2, 4096, 1 + i % 4096, shares(rng), struct.pack(">QQ", i // 4096, 0))


def more_than_enough(rng, count):
    """Groups of 8,192 random points for threshold 4,096."""
    for i in range(count):
        yield frame(2, 4096, 1 + i % 8192, shares(rng), struct.pack(">QQ", i // 8192, 0))


def longest(rng, count):
    """Frames of 8,192 bytes in one group of equal points."""
    for _ in range(count):
        yield frame(2, 2, 1, [0, 0, 0], bytes(16), body=bytes(8192 - 138))


# ---- streams that `make` makes

def nested(program, count, path, digits=1, extra=b""):
    """Reports of 16 layers for threshold 2, of which two and two name the same values: each pair opens at each level."""
    with open(path, "wb") as out:
        for part in range(0, count, 65536):
            rows = range(part, min(count, part + 65536))
            table = b"".join(b",".join([b"%0*x" % (digits, i // 2)] * 16) + b"," + extra + b"\n" for i in rows)
            seed = "--seed=%064x" % part
            words = [program, "make", "--epoch", str(EPOCH), "--version", "2", "--thresholds", ",".join(["2"] * 16), seed]
            subprocess.run(words, input=table, stdout=out, check=True)


def nested_long(program, count, path):
    """The same with values of 64 bytes and 255 extra bytes: no report is longer."""
    nested(program, count, path, 64, b"e" * 255)


def one_value(program, count, path):
    """Honest reports of one value for threshold 2."""
    with open(path, "wb") as out:
        for part in range(0, count, 65536):
            rows = min(count, part + 65536) - part
            words = [program, "make", "--epoch", str(EPOCH), "--thresholds", "2", "--seed=%064x" % part]
            subprocess.run(words, input=b"red\n" * rows, stdout=out, check=True)


# A stream: its name, and what writes it.
STREAMS = [no_line, no_line_of_512, no_third_line, lone_rows, pairs, equal_points, two_values, just_enough, more_than_enough, longest, nested,
           nested_long, one_value]


def write(stream, program, count, path):
    if stream in (nested, nested_long, one_value):
        stream(program, count, path)
        return
    with open(path, "wb") as out:
        for record in stream(random.Random(stream.__name__), count):
            out.write(record)


def measured(program, path, workers, seconds):
    """Seconds, processor seconds and megabytes of a run, how it ended, and its last lines."""
    words = [program, "reveal", "--epoch", str(EPOCH), "--workers", workers]
    with open(path, "rb") as stream, tempfile.TemporaryFile() as told:
        start = time.monotonic()
        child = subprocess.Popen(words, stdin=stream, stdout=told)
        ended = False
        while not ended and time.monotonic() - start < seconds:
            pid, status, used = os.wait4(child.pid, os.WNOHANG)
            ended = pid != 0
            time.sleep(0 if ended else .01)
        if not ended:
            child.kill()
            pid, status, used = os.wait4(child.pid, 0)
        child.returncode = os.waitstatus_to_exitcode(status)
        told.seek(max(0, told.tell() - 2000))
        lines = told.read().decode().splitlines()
        counts = [line for line in lines if line.startswith(("level ", "records="))]
        ending = "ended with status %d" % child.returncode if ended else "not done in %d s" % seconds
        return time.monotonic() - start, used.ru_utime + used.ru_stime, used.ru_maxrss / 1024, ending, counts[-3:]


def option(name, default):
    return sys.argv[sys.argv.index(name) + 1] if name in sys.argv else default


def main():
    if len(sys.argv) < 2:
        sys.exit(__doc__)
    program, count = os.path.abspath(sys.argv[1]), int(option("--records", "131072"))
    only = option("--only", ",".join(stream.__name__ for stream in STREAMS)).split(",")
    for stream in STREAMS:
        if stream.__name__ not in only:
            continue
        with tempfile.TemporaryDirectory() as folder:
            path = os.path.join(folder, "stream")
            write(stream, program, count, path)
            size = os.path.getsize(path)
            wall, used, memory, ending, told = measured(program, path, option("--workers", "4"), float(option("--seconds", "600")))
        print("%s: %d records, %d bytes; %.2f s, %.2f s of processors, %.0f MB, %s; load %s"
              % (stream.__name__, count, size, wall, used, memory, ending, open("/proc/loadavg").read().split()[0]))
        print("".join("    %s\n" % line for line in told), end="", flush=True)


main()
