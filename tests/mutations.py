#!/usr/bin/env python3
"""Runs the program on streams that are derived from good ones, and compares what it prints with what tests/plain says.

    mutations.py PROGRAM [--streams N] [--first I] [--jobs J] [--reference FOLDER] [--verbs NAME,..]

Stream I is a function of I, and goes through each verb of the table VERBS. With --reference, the texts are also compared with
those of star_reference.py in that folder, an implementation that shares no line with this one. --jobs runs as many processes.
The last line counts the runs, the crashes (an end by a signal), the hangs (no end in 60 seconds) and the differences (another
status than 0, another output, anything on standard error), and the status is 1 where one of the three is above 0.
"""
import collections
import functools
import multiprocessing
import os
import random
import struct
import subprocess
import sys

sys.path.insert(0, os.path.join(os.path.dirname(os.path.abspath(__file__)), "plain"))
import aggregator
import client
import fast
import shared

SECONDS = 60

# A verb: its name, its words for an epoch, its text for the stream by the plain aggregator, and the same by the reference.
VERBS = [
    ("check", lambda epoch, number: ["check"],
     lambda epoch, stream: aggregator.check(stream),
     lambda star, spec, epoch, records: star.check_text(records, spec)),
    ("reveal", lambda epoch, number: ["reveal", "--epoch", str(epoch), "--workers", str(1 + number % 3)],
     lambda epoch, stream: aggregator.reveal(stream, epoch, 1),
     lambda star, spec, epoch, records: star.text_of(star.reveal(records, epoch, spec))),
]

# ---- good streams, as lists of frames

EPOCHS = [0, 1, 7, 2**32 - 1]
VALUES = [b"red", b"DE", b"a/b", b"\xff\x00", b"zz" * 32]
POOL = 400


@functools.lru_cache(maxsize=None)
def good(number):
    """The epoch and the frames of a good stream: one or two versions, one to three layers, and at times bodies of every kind."""
    rng = random.Random("good %d" % number)
    epoch, seed, frames = EPOCHS[number % len(EPOCHS)], rng.randbytes(32), []
    for _ in range(rng.choice([1, 1, 2])):
        version, depth = rng.choice([1, 2]), rng.choice([1, 1, 2, 3])
        thresholds, values = [rng.choice([2, 2, 3]) for _ in range(depth)], rng.sample(VALUES, rng.choice([1, 2]))
        for _ in range(rng.choice([2, 3, 5])):
            extra = rng.choice([b"", b"abc"]) if version == 2 else b""
            frames.append(client.report_of(version, epoch, thresholds, seed, len(frames), [rng.choice(values) for _ in range(depth)], extra))
    if number % 5 == 0:
        frames += odd_bodies(rng, rng.choice([1, 2]), epoch)
    return epoch, tuple(frames)


def layer(rng, context, plain_body, **said):
    """The bytes of a frame of the context with this plain body, rightly sealed; level and epoch may be said wrongly."""
    frame = client.make_frame(context, rng.randint(1, shared.P - 1), rng.randbytes(12), plain_body)
    return shared.write_frame(client.sealed(context, frame._replace(**said)))


def odd_bodies(rng, version, epoch):
    """Reports of one value, rightly sealed, with bodies of every kind."""
    k = rng.choice([2, 3])
    context = shared.Context(version, shared.NO_PARENT, epoch, 0, k, b"body")
    child = shared.Context(version, context.check, epoch, 1, 2, b"in")
    other = child._replace(version=3 - version)
    found = []
    for _ in range(k + rng.choice([0, 1, 4])):
        def inner(of=child, **said):
            return layer(rng, of, b"\0", **said)
        plain_body = rng.choice([
            b"\0", b"\0", b"\0\0", b"\0" + bytes(255), b"\0" + bytes(256), b"\2", b"\xff\1", b"\1", b"\1\0",
            b"\1" + inner(), b"\1" + inner(), b"\1" + inner(epoch=epoch ^ 1), b"\1" + inner(level=0),
            b"\1" + inner(level=2), b"\1" + inner(other), b"\1" + inner() + b"x", b"\1" + inner()[:-1]])
        found.append(layer(rng, context, plain_body))
    return found


# ---- changes of a list of frames, of which at least one is left

def changed(rng, frames, change):
    """The frames with one of them changed."""
    frames = list(frames)
    i = rng.randrange(len(frames))
    frames[i] = change(rng, bytearray(frames[i]))
    return frames


def flipped(rng, frame):
    for _ in range(rng.choice([1, 1, 2, 8])):
        if frame:
            frame[rng.randrange(len(frame))] ^= 1 << rng.randrange(8)
    return bytes(frame)


def cut(rng, frame):
    return bytes(frame[:rng.randrange(len(frame) + 1)])


def grown(rng, frame):
    at = rng.randrange(len(frame) + 1)
    return bytes(frame[:at]) + rng.randbytes(rng.choice([1, 2, 60, 5000])) + bytes(frame[at:])


def with_field(rng, frame):
    """A field at a bound of its range, or past it: version, level, epoch, threshold, point, share, lengths."""
    p = shared.P
    at, form, values = rng.choice([
        (2, ">B", [0, 1, 2, 3]), (3, ">B", [0, 1, 7, 8, 15, 16]), (4, ">I", EPOCHS), (8, ">H", [1, 2, 3, 512, 513, 4096, 4097]),
        (10, ">Q", [0, 1, p - 1, p]), (18, ">Q", [0, p - 1, p]), (34, ">Q", [0, p - 1, p]), (90, ">B", [0, 1, 2, 64, 65]),
        (94, ">H", [0, 1, 2]), (106, ">H", [0, 1, 2, 65535])])
    if len(frame) >= at + struct.calcsize(form):
        struct.pack_into(form, frame, at, rng.choice(values))
    return bytes(frame)


def joined(rng, frames):
    """Two streams joined, or half of each."""
    others = good(rng.randrange(POOL))[1]
    return list(frames) + list(others[:rng.randrange(len(others) + 1)])


def repeated(rng, frames):
    return list(frames) + [rng.choice(frames) for _ in range(rng.choice([1, 3]))]


def reordered(rng, frames):
    return rng.sample(list(frames), len(frames))


def spliced(rng, frames):
    """The front of one frame with the back of another."""
    one, other = rng.choice(frames), rng.choice(frames)
    at = rng.choice([10, 18, 42, 58, 90, 91, rng.randrange(len(one) + 1)])
    return list(frames) + [one[:at] + other[at:]]


CHANGES = [joined, repeated, reordered, spliced] + [functools.partial(changed, change=one) for one in (flipped, cut, grown, with_field)]


# ---- changes of the bytes of a stream

def with_length(rng, stream):
    """The first length, or four bytes anywhere, that state another number."""
    at = rng.choice([0, rng.randrange(max(1, len(stream) - 3))])
    if len(stream) >= at + 4:
        struct.pack_into(">I", stream, at, rng.choice([0, 1, 138, 139, 140, 8192, 8193, 65536, 2**31, 2**32 - 1]))
    return stream


def stream_of(number):
    """The epoch and the bytes of stream `number`."""
    rng = random.Random("mutation %d" % number)
    epoch, frames = good(rng.randrange(POOL))
    for _ in range(rng.choice([0, 1, 1, 2, 3])):
        frames = rng.choice(CHANGES)(rng, frames)
    stream = bytearray(b"".join(shared.write_record(frame) for frame in frames))
    kind = rng.randrange(8)
    if kind == 0:
        del stream[rng.randrange(len(stream) + 1):]
    elif kind == 1:
        stream = with_length(rng, stream)
    elif kind == 2:
        stream = bytearray(flipped(rng, stream))
    elif kind == 3:
        stream += rng.randbytes(rng.randrange(12))
    return rng.choice([epoch] * 9 + EPOCHS[:1]), bytes(stream)


# ---- runs

def run(program, words, stream):
    """What a run ends as: its text, or why there is none."""
    try:
        done = subprocess.run([program, *words], input=stream, capture_output=True, timeout=SECONDS)
    except subprocess.TimeoutExpired:
        return "hangs", b""
    if done.returncode < 0:
        return "crashes", b"signal %d" % -done.returncode
    if done.returncode or done.stderr:
        return "differences", b"status %d: %s" % (done.returncode, done.stderr[:500])
    return "text", done.stdout


def kinds_told(text):
    """The kinds of the lines of `reveal`: a group that is opened or isn't, a refusal by its name, extra bytes."""
    kinds = set()
    for line in text.decode().split("\n"):
        words = line.split(" ")
        if words[0] in ("open", "aux"):
            kinds.add(words[0])
        elif words[0] == "refused":
            kinds.add("refused " + words[3])
        elif words[0] == "level":
            kinds.update(word[:-len(count)] + "some" for word in words[3:] for count in [word.split("=")[1]] if count != "0")
    return kinds


def tried(numbers, program, verbs, folder):
    """Counts what comes of the streams of these numbers."""
    counts = collections.Counter()
    star = None
    if folder:
        sys.path.insert(0, folder)
        import star_reference as star
    for number in numbers:
        epoch, stream = stream_of(number)
        for name, words, by_plain, by_reference in verbs:
            wanted = by_plain(epoch, stream)
            if star:
                spec = star.Spec(2)
                if by_reference(star, spec, epoch, star.records(stream, spec)) != wanted:
                    counts["differences"] += 1
                    print("stream %d, %s: the reference differs from tests/plain" % (number, name), flush=True)
            kind, text = run(program, words(epoch, number), stream)
            counts["runs"] += 1
            if kind != "text" or text != wanted:
                counts["differences" if kind == "text" else kind] += 1
                print("stream %d, %s: %s\n--- wanted\n%s--- got\n%s" % (number, name, kind, wanted.decode(), text.decode("latin1")), flush=True)
            if name == "reveal":
                counts.update("told " + kind for kind in kinds_told(wanted))
    return counts


def option(name, default):
    return sys.argv[sys.argv.index(name) + 1] if name in sys.argv else default


def main():
    if len(sys.argv) < 2:
        sys.exit(__doc__)
    first, streams, jobs = int(option("--first", "0")), int(option("--streams", "1000")), int(option("--jobs", "1"))
    names = option("--verbs", ",".join(verb[0] for verb in VERBS)).split(",")
    verbs = [verb for verb in VERBS if verb[0] in names]
    parts = [(range(first + job, first + streams, jobs), os.path.abspath(sys.argv[1]), verbs, option("--reference", None)) for job in range(jobs)]
    counts = collections.Counter()
    if jobs == 1:
        counts = tried(*parts[0])
    else:
        queue = multiprocessing.SimpleQueue()
        for part in parts:
            multiprocessing.Process(target=put_tried, args=(queue, part)).start()
        for _ in parts:
            counts += queue.get()
    for kind in sorted(kind for kind in counts if kind.startswith("told ")):
        print("%8d streams %s" % (counts[kind], kind))
    print("%d streams, %d runs, %d crashes, %d hangs, %d differences"
          % (streams, counts["runs"], counts["crashes"], counts["hangs"], counts["differences"]))
    sys.exit(1 if counts["crashes"] + counts["hangs"] + counts["differences"] else 0)


def put_tried(queue, part):
    queue.put(tried(*part))


main()
