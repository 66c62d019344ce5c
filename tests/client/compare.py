#!/usr/bin/env python3
"""Compares the client library with tests/plain, on random reports of 1 to 16 layers and on faulty requests.

    compare.py [--cases N] [--reference FOLDER] [-- PROGRAM WORD..]..

Each program reads lines and answers a line each, as tests/client/lines.c says. With --reference, star_reference.py in that folder has
to agree. It prints a line for each program, and at last 'N passed, M failed'.
"""
import os
import random
import subprocess
import sys

HERE = os.path.dirname(os.path.abspath(__file__))
sys.dont_write_bytecode = True
sys.path[:0] = [HERE, os.path.join(HERE, "..", "plain")]
import vectors
from random_requests import random_request

SEED = bytes(32)

# Faulty requests: version, values, thresholds, extra bytes, seed, and the status. Wrappers whose types rule one out leave it out.
FAULTY = [
    (1, [], [], b"", SEED, 2), (1, [b"a", b"b"], [1, 2], b"", SEED, 2), (1, [b"a", b"b"], [2, 513], b"", SEED, 2),
    (2, [b"a", b"b"], [2, 4097], b"", SEED, 2), (1, [b"a"] * 9, [2] * 9, b"", SEED, 2), (2, [b"a"] * 17, [2] * 17, b"", SEED, 2),
    (1, [b"", b"a"], [2, 2], b"", SEED, 3), (2, [b"a" * 65, b"b"], [2, 2], b"", SEED, 3), (1, [b"a"], [2, 2], b"", SEED, 3),
    (2, [b"a", b"b", b"c"], [2, 2], b"", SEED, 3), (1, [b"a"], [2], b"x", SEED, 4), (2, [b"a"], [2], b"x" * 256, SEED, 4),
    (1, [b"a"], [2], b"", bytes(31), 5), (2, [b"a"], [2], b"", bytes(33), 5), (0, [b"a"], [2], b"", SEED, 1), (3, [b"a"], [2], b"", SEED, 1),
]


def line_of(version, epoch, client, seed, thresholds, values, extra):
    joined = lambda items: ",".join(items) if items else "-"
    return " ".join([str(version), str(epoch), str(client), seed.hex(), joined([str(k) for k in thresholds]), joined([v.hex() for v in values]), extra.hex() or "-"])


def built(version, epoch, client, seed, thresholds, values, extra):
    return vectors.report(version, epoch, seed, thresholds, client, values, extra)["report"]


def by_program(words, requests):
    lines = "".join(line_of(*request) + "\n" for request in requests)
    done = subprocess.run(words, input=lines, capture_output=True, text=True, timeout=300)
    return done.stdout.splitlines() if done.returncode == 0 else [done.stderr] * len(requests)


def groups(words):
    found = [[]]
    for word in words:
        if word == "--":
            found.append([])
        else:
            found[-1].append(word)
    return found


def main():
    options, *programs = groups(sys.argv[1:])
    option = lambda name, default: options[options.index(name) + 1] if name in options else default
    rng = random.Random(22)
    good = [random_request(rng) for _ in range(int(option("--cases", "500")))]
    wanted = [built(*request) for request in good]
    answers = []
    if option("--reference", None):
        sys.path.insert(0, option("--reference", None))
        import star_reference
        for (version, epoch, client, seed, thresholds, values, extra), report in zip(good, wanted):
            other = star_reference.build(values, thresholds, epoch, seed, client, version, extra)
            answers.append(("the reference", other.hex() == report))
    faulty = [((version, 7, 0, seed, thresholds, values, extra), status) for version, values, thresholds, extra, seed, status in FAULTY]
    for words in programs:
        typed = words[-1].endswith("_rs")
        some = [(request, status) for request, status in faulty if not (typed and status in (1, 5))]
        told = by_program(words, good + [request for request, _ in some])
        want = wanted + ["status %d" % status for _, status in some]
        name = " ".join(os.path.basename(word) for word in words)
        same = [i < len(told) and told[i] == text for i, text in enumerate(want)]
        print("%s: %d of %d agree" % (name, sum(same), len(want)))
        answers += [("%s, line %d" % (name, i), agrees) for i, agrees in enumerate(same)]
    failed = [name for name, passed in answers if not passed]
    for name in failed[:20]:
        print("differs: " + name)
    print("%d passed, %d failed" % (len(answers) - len(failed), len(failed)))
    sys.exit(1 if failed else 0)


main()
