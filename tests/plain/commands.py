"""Command lines and exit statuses: the words of a command, and what a program does with them."""

import re
import sys
from typing import Callable, NamedTuple

from shared import VERSIONS, Refusal

USAGE = Refusal(
    2,
    "usage: star_tool check | reveal --epoch E [--workers W]"
    " | make --epoch E --thresholds K,.. [--seed HEX] [--version V]"
    " | gen --number N --reports R --liars L [--workers W] | selftest"
    " | expect --epoch E --thresholds K,.. --seed HEX | book --epoch E | merge --epoch E"
    " | openbook --epoch E [--workers W] | certify --epoch E | audit | epochs [--workers W]",
)
REQUIRED = object()


def number(lowest, highest):
    """An option that is a number within a range, in 1 to 10 digits."""

    def read(text):
        if not re.fullmatch("[0-9]{1,10}", text) or not lowest <= int(text) <= highest:
            raise USAGE
        return int(text)

    return read


def seed(text):
    """An option that is 64 hexadecimal digits."""
    if not re.fullmatch("[0-9a-fA-F]{64}", text):
        raise USAGE
    return bytes.fromhex(text)


def version(text):
    """An option that is a version of reports."""
    if text not in ("1", "2"):
        raise USAGE
    return int(text)


def thresholds(text):
    """An option that is numbers joined by commas; their ranges depend on the version."""
    return [number(2, 4_096)(part) for part in text.split(",")]


def check_thresholds(numbers, version_number):
    """Refuses thresholds that the version doesn't have."""
    rules = VERSIONS[version_number]
    if len(numbers) > rules.levels or max(numbers) > rules.most_threshold:
        raise USAGE


EPOCH = {"epoch": (number(0, 2**32 - 1), REQUIRED)}
WORKERS = {"workers": (number(1, 64), 4)}
THRESHOLDS = {"thresholds": (thresholds, REQUIRED)}


def pairs_of(words):
    """The names and values of options in words, in either form."""
    words = iter(words)
    for word in words:
        if not word.startswith("--"):
            raise USAGE
        name, equals, value = word[2:].partition("=")
        if not equals:
            value = next(words, None)
        if value is None:
            raise USAGE
        yield name, value


def read_options(words, known):
    """The value of each known option, from the words behind the verb."""
    options = {}
    for name, value in pairs_of(words):
        if name not in known or name in options:
            raise USAGE
        options[name] = known[name][0](value)
    for name, (_, default) in known.items():
        if options.setdefault(name, default) is REQUIRED:
            raise USAGE
    return options


class Verb(NamedTuple):
    """A verb: the bytes that it writes, from its input and its options, and what options it has.

    An option is known by name, and has the function that reads it and its default.
    """

    act: Callable
    options: dict
    reads_input: bool = True


def run(verbs, words, read_input):
    """The exit status, standard output and standard error of a command."""
    try:
        if not words or words[0] not in verbs:
            raise USAGE
        verb = verbs[words[0]]
        options = read_options(words[1:], verb.options)
        if "thresholds" in options:
            check_thresholds(options["thresholds"], options.get("version", 1))
        inputs = [read_input()] if verb.reads_input else []
        return 0, verb.act(*inputs, **options), ""
    except Refusal as refusal:
        return refusal.status, b"", refusal.line + "\n"


def main(verbs):
    """Runs the command of the process."""
    status, output, complaint = run(verbs, sys.argv[1:], sys.stdin.buffer.read)
    sys.stdout.buffer.write(output)
    sys.stderr.write(complaint)
    sys.exit(status)
