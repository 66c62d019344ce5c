"""Changed frames get at the door the verdict of `check`: frames_test.py PROGRAM [NUMBER]. A frame that is taken is one that `check` calls good."""
import random
import subprocess
import sys

import support
import frames
import intake

FIELDS = ((2, 1), (3, 1), (8, 2), (10, 8), (18, 8), (26, 8), (34, 8), (90, 1))
BOUNDS = (0, 1, 2, 3, 7, 8, 15, 16, 63, 64, 65, 255, 511, 512, 513, 4_095, 4_096, 4_097, 2**61 - 2, 2**61 - 1, 2**61, 2**64 - 1)


def flip(rng, data):
    data[rng.randrange(len(data))] ^= 1 << rng.randrange(8)


def cut(rng, data):
    del data[rng.randrange(len(data)):]


def grow(rng, data):
    data += bytes(rng.choice((1, 32, 3_800, 4_000, 7_800, 8_000)))


def bound(rng, data):
    at, size = rng.choice(FIELDS)
    data[at:at + size] = (rng.choice(BOUNDS) % 256**size).to_bytes(size, "big")


def resize(rng, data):
    """Another length of the body, with a body of that length or without."""
    if len(data) > 105:
        at = 103 + data[90]
        size = rng.choice((0, 1, 139, 140, 203, 204, 3_800, 8_000, 65_535))
        data[at:at + 2] = size.to_bytes(2, "big")
        if rng.random() < .7:
            data[at + 2:-32] = bytes(size)


def other_version(rng, data):
    data[2:3] = b"\2"


def empty(rng, data):
    data.clear()


CHANGES = (flip, flip, cut, grow, bound, bound, bound, resize, other_version, empty)


def changed(number, rng):
    """Good frames of both versions and of several thresholds, each changed by none to two steps; at most a record's bytes."""
    good = support.reports(100, 7) + support.reports(50, 7, [2], 2) + support.reports(50, 7, [3, 3], 2)
    for _ in range(number):
        data = bytearray(rng.choice(good))
        for _ in range(rng.randint(0, 2)):
            if data:
                rng.choice(CHANGES)(rng, data)
        yield bytes(data[:frames.MAX_RECORD])


def verdict(data):
    """What `check` prints of a record, by the reader of the door, without its number."""
    try:
        frame = frames.read(data)
    except frames.Fault as fault:
        return f"refused {fault.kind} {fault.place}"
    version = "" if frame.version == 1 else f"version={frame.version} "
    return f"good {version}level={frame.level} epoch={frame.epoch} k={frame.threshold} box={frame.box} body={frame.body}"


def main(program, number=5_000):
    rng = random.Random(1)
    some = list(changed(number, rng))
    run = subprocess.run([program, "check"], input=support.body_of(some), stdout=subprocess.PIPE, check=True)
    lines = run.stdout.decode("ascii").splitlines()[:-1]
    assert len(lines) == len(some)
    kinds = {}
    for at, (data, line) in enumerate(zip(some, lines)):
        assert line == f"{at} {verdict(data)}", (data.hex(), line, verdict(data))
        kind = " ".join(line.split()[1:3]) if " refused " in line else "good"
        kinds[kind] = kinds.get(kind, 0) + 1
    terms = support.configuration.read(support.configured(from_epoch=1))
    taken = [frames.read(data) for data in some if verdict(data).startswith("good")]
    refusals = [intake.refusal_of(frame, terms, range(7, 8)) for frame in taken]
    assert None in refusals and {"other_level", "other_epoch", "other_version", "other_threshold", "other_layers"} <= set(refusals), set(refusals)
    for frame, refusal in zip(taken, refusals):
        is_ours = (frame.level, frame.epoch, frame.version, frame.threshold) == (0, 7, 1, 20) and 140 <= frame.body <= 203
        assert is_ours == (refusal is None), (frame, refusal)
    assert len(kinds) >= 11, kinds
    print(f"frames: {number} as check says, {kinds.get('good')} good; {refusals.count(None)} taken; " + ", ".join(sorted(kinds)))


if __name__ == "__main__":
    main(sys.argv[1], *map(int, sys.argv[2:]))
