#!/usr/bin/env python3
"""Compares the built program with the plain client, aggregator and auditor, on random inputs.

    compare.py PROGRAM [--cases N] [--seed S] [--jobs J] [--seconds T]

N cases, 300 where not given, go to each of the three: a case is a command line and an input, and
is a function of S and its number. Exit status, standard output and standard error must be equal,
and a run that has no end within T seconds, 600 where not given, is a difference.
The last lines say how often each answer was reached; the status is 1 where a case differs, or
where 300 cases or more didn't reach one of the answers that are listed here.
"""

import argparse
import collections
import concurrent.futures
import os
import random
import subprocess
import sys

sys.dont_write_bytecode = True
sys.path.insert(0, os.path.dirname(os.path.abspath(__file__)))
import aggregator
import auditor
import client
import commands
import damage
import streams
import tables
from shared import MOST_RECORDS

HERE = os.path.dirname(os.path.abspath(__file__))
FRAME_FAULTS = (
    "Truncated Magic Version Level Threshold Point Share BoxLength BodyLength Trailing TooLong"
).split()
WANTED = {
    "client": "made version1 version2 extra quoted empty 2 5 7 bad-value bad-next bad-more".split(),
    "aggregator": [
        *"check reveal certify epochs book merge openbook expect gen".split(),
        *"good opened few noline badvalue aux clear=yes 2 5 10 11".split(),
        *(f"outer-{name}" for name in FRAME_FAULTS),
        *"outer-CutLength outer-CutRecord outer-WrongEpoch outer-WrongLevel".split(),
        *(f"inner-{name}" for name in FRAME_FAULTS),
        *"inner-Seal inner-BodyTail inner-BodyKind".split(),
        *"inner-WrongEpoch inner-WrongLevel inner-WrongVersion".split(),
        *(f"book-{name}" for name in "Truncated Magic Version Count Frame Order".split()),
    ],
    "auditor": [
        *"Yes Few Key Short Value 2 12".split(),
        *(f"cert-{name}" for name in "Truncated Magic Format Range".split()),
    ],
}


# The cases: each gives the words of a command and the bytes of its input.


def client_case(rng, number):
    """A table for `make`."""
    version = rng.choice([1, 2])
    thresholds = tables.thresholds_of(rng, version)
    options = {"epoch": rng.choice(streams.EPOCHS), "thresholds": ",".join(map(str, thresholds))}
    options["seed"] = rng.choice([rng.randbytes(32).hex(), rng.randbytes(32).hex().upper()])
    if version == 2 or rng.random() < 0.3:
        options["version"] = version
    words = tables.words_of(rng, "make", options)
    if number == 0:
        return words, b"a\n" * 65_537
    return words, tables.table_of(rng, len(thresholds), version)


def stream_case(rng, verb, number):
    """A stream for one of the verbs that read streams."""
    first = rng.choice(streams.EPOCHS)
    epochs = [first] * rng.choice([1, 2]) + rng.choice([[], [], [first ^ 1]])
    options = {} if verb in ("check", "epochs") else {"epoch": first}
    if verb in ("reveal", "epochs") and rng.random() < 0.5:
        options["workers"] = rng.randint(1, 9)
    words = tables.words_of(rng, verb, options)
    if number < 2:
        return words, bytes(4 * MOST_RECORDS + number)
    return words, streams.stream_of(rng, epochs)


def books_case(rng, verb):
    """Books for `merge` or `openbook`."""
    epoch = rng.choice(streams.EPOCHS)
    return tables.words_of(rng, verb, {"epoch": epoch}), damage.books_of(rng, epoch)


def expect_case(rng):
    """A table for `expect`."""
    thresholds = tables.thresholds_of(rng, 1)
    options = {"epoch": rng.choice(streams.EPOCHS), "thresholds": ",".join(map(str, thresholds))}
    options["seed"] = rng.randbytes(32).hex()
    table = tables.table_of(rng, len(thresholds), 1)
    return tables.words_of(rng, "expect", options), table


def gen_case(rng):
    """Numbers for `gen`."""
    reports = rng.choice([1, 20, 20, 60, 200])
    options = {"number": rng.randrange(2**32), "reports": reports, "liars": rng.choice([0, 5, 100])}
    return tables.words_of(rng, "gen", options), b""


AGGREGATOR_VERBS = (
    "check reveal certify merge reveal epochs openbook "
    "reveal book merge reveal expect openbook gen"
).split()


def aggregator_case(rng, number):
    """A case of one of the verbs in turn."""
    verb = AGGREGATOR_VERBS[number % len(AGGREGATOR_VERBS)]
    if verb in ("merge", "openbook"):
        return books_case(rng, verb)
    if verb == "expect":
        return expect_case(rng)
    if verb == "gen":
        return gen_case(rng)
    return stream_case(rng, verb, number)


def auditor_case(rng, number):
    """Certificates for `audit`."""
    return tables.words_of(rng, "audit", {}, 0.02), damage.certificates_of(rng)


FAMILIES = {
    "client": (client_case, client.VERBS),
    "aggregator": (aggregator_case, aggregator.VERBS),
    "auditor": (auditor_case, auditor.VERBS),
}


# Which answers a case reached.


def reached_in_line(words):
    """The answers that one line of output shows."""
    if words[0] == "open":
        return ["opened"]
    if words[0] == "level":
        names = [word.partition("=") for word in words[3:]]
        return [name for name, _, count in names if count != "0"]
    if words[0] == "aux":
        return ["aux"]
    if words[0] == "refused":
        inner = len(words) == 4 and words[2] != "outer"
        return [("inner-" if inner else "outer-") + words[-1]]
    if words[1:2] == ["refused"]:
        return ["outer-" + words[2]]
    if words[1:2] in (["good"], ["yes"]):
        return ["good" if words[1] == "good" else "Yes"]
    if words[1:2] == ["no"]:
        return [words[2]]
    return [word for word in words if word.startswith("clear=")]


def reached_by_client(words, data, output):
    """The answers that a stream which `make` wrote shows."""
    found = ["made", "version2" if output[6:7] == b"\x02" else "version1"] if output else ["empty"]
    if b'"' in data:
        found.append("quoted")
    if output[6:7] == b"\x02" and len(data.rstrip(b"\r\n").rpartition(b",")[2]) > 1:
        found.append("extra")
    return found


def bad_column(words, told):
    """What is bad about a table: a value, the column behind the values, or one more."""
    width = 1 + max(word.count(",") for word in words)
    column = int(told[-1]) - width
    return "bad-value" if column < 0 else "bad-next" if column == 0 else "bad-more"


def reached(family, words, data, answer):
    """The answers that a case reached."""
    status, output, complaint = answer
    if status:
        told = complaint.split()
        kinds = {"book": "book-", "cert": "cert-"}
        named = [kinds[told[1]] + told[3]] if told[0] == "bad" and told[1] in kinds else []
        return [str(status), *named, *([bad_column(words, told)] if status == 7 else [])]
    if family == "client":
        return reached_by_client(words, data, output)
    if words[0] in ("book", "merge", "certify"):
        return [words[0]]
    lines = [line.split(" ") for line in output.decode().splitlines()]
    return [words[0], *(name for line in lines for name in reached_in_line(line))]


# Running.


def by_program(command, data, seconds):
    """The answer of a program."""
    try:
        done = subprocess.run(command, input=data, capture_output=True, timeout=seconds)
    except subprocess.TimeoutExpired:
        return "no end", b"", ""
    return done.returncode, done.stdout, done.stderr.decode()


def told(answer):
    """What an answer is, in a few words."""
    status, output, complaint = answer
    return f"{status} {complaint[:60]!r} {len(output)} bytes, the last {output[-60:]!r}"


def without_seed(words, answer):
    """The answer, but of a stream under a seed that was drawn only the length."""
    drawn = words and words[0] == "make" and "seed" not in " ".join(words)
    return (answer[0], bytes(len(answer[1])), answer[2]) if drawn else answer


def run_case(family, number, options):
    """How the answers to a case differ, or nothing, and what it reached."""
    make_case, verbs = FAMILIES[family]
    words, data = make_case(random.Random(f"{options.seed} {family} {number}"), number)
    wanted = commands.run(verbs, words, lambda: data)
    runs = [[options.program]]
    if number % 50 == 49:
        runs.append([sys.executable, "-B", os.path.join(HERE, family + ".py")])
    difference = ""
    for run in runs:
        answer = by_program([*run, *words], data, options.seconds)
        if without_seed(words, answer) != without_seed(words, wanted):
            difference = f"{' '.join(words)}\n  wanted {told(wanted)}\n  got {told(answer)}"
    return difference, reached(family, words, data, wanted)


def run_family(executor, family, options):
    """Runs the cases of one of the three; gives the number of differences and the counts."""
    numbers = range(options.cases)
    tries = [executor.submit(run_case, family, number, options) for number in numbers]
    counts = collections.Counter()
    differences = 0
    for number, it in zip(numbers, tries):
        difference, found = it.result()
        counts.update(set(found))
        if difference:
            differences += 1
            print(f"{family}, case {number} differs: {difference}", flush=True)
    return differences, counts


def main():
    """Runs all cases and says what they came to."""
    parser = argparse.ArgumentParser(usage=__doc__)
    parser.add_argument("program", type=os.path.abspath)
    parser.add_argument("--cases", type=int, default=300)
    parser.add_argument("--seed", default="1")
    parser.add_argument("--jobs", type=int, default=os.cpu_count())
    parser.add_argument("--seconds", type=float, default=600)
    options = parser.parse_args()
    failed = 0
    with concurrent.futures.ProcessPoolExecutor(options.jobs) as executor:
        for family in FAMILIES:
            differences, counts = run_family(executor, family, options)
            missing = [name for name in WANTED[family] if not counts[name]]
            failed += differences + (len(missing) if options.cases >= 300 else 0)
            print(f"{family}: {options.cases} cases, {differences} differences", flush=True)
            print("  reached: " + ", ".join(f"{name} {counts[name]}" for name in WANTED[family]))
            if missing:
                print("  never reached: " + ", ".join(missing))
    sys.exit(1 if failed else 0)


if __name__ == "__main__":
    main()
