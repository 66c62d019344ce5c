#!/usr/bin/env python3
"""Reads the text that `star_tool reveal` prints (docs/FORMATS.md, "What `reveal` prints"); so does the text of any verb that prints the same.

    star_tool reveal --epoch 7 < reports.stream | ./star_text.py --csv

--json prints one JSON object a line, for each line of the text, in its order:

    {"kind": "open", "path": [{"value": "DE", "hex": "4445", "threshold": 3, "version": 1}, ..], "points": 3, "agree": 3, "members": 3}
    {"kind": "level", "level": 0, "opened": 1, "few": 2, "noline": 0, "badvalue": 0}
    {"kind": "refused", "record": 4, "stage": "outer", "name": "WrongEpoch"}       a stage is "outer" or the level of a group
    {"kind": "aux", "record": 0, "level": 0, "value": "build 116", "hex": "6275.."}
    {"kind": "counts", "records": 6, "rows": 5, "refused": 1}

"hex" is always there; "value" is null if the bytes aren't UTF-8.

--csv prints a row for each opened group, after a line with the names of the columns. "value" is spelled as in the text, so it is exact and plain
ASCII. "text" is the value for people to read: it is empty if the bytes aren't UTF-8 or a spreadsheet could take them for a formula.

Nothing is printed and the status is 1 unless the whole text has this form. From Python, `lines(file)` gives the lines one by one, and
`read(bytes)` a list of them. The module has no imports but the standard library's, so the file can be copied.
"""
import argparse
import csv
import io
import json
import re
import shutil
import sys
import tempfile
from typing import NamedTuple, Optional, Tuple
from urllib.parse import unquote_to_bytes

MAX_LEVELS = {1: 8, 2: 16}
MAX_THRESHOLD = {1: 512, 2: 4_096}
MAX_VALUE, MAX_EXTRA = 64, 255

NUMBER = rb"(0|[1-9][0-9]{0,11})"
SPELLED = rb"(?:[A-Za-z0-9._=:-]|%[0-9A-F]{2})"
OPEN = re.compile(rb"open ((?:[^ /]+/)*)([^ /]+) points=N agree=N members=N".replace(b"N", NUMBER))
STEP = re.compile(rb"(" + SPELLED + rb"+)~([1-9][0-9]{0,3})(~2)?")
LEVEL = re.compile(rb"level N opened=N few=N noline=N badvalue=N".replace(b"N", NUMBER))
REFUSED = re.compile(rb"refused N (outer|[0-9]{1,2}) ([A-Za-z]+)".replace(b"N", NUMBER))
EXTRA = re.compile(rb"aux N N (".replace(b"N", NUMBER) + SPELLED + rb"+)")
COUNTS = re.compile(rb"records=N rows=N refused=N".replace(b"N", NUMBER))
SPELLING = [bytes([byte]) if re.match(SPELLED, bytes([byte])) else b"%%%02X" % byte for byte in range(256)]

FAULTS = {
    "TooLong",
    "Truncated",
    "Magic",
    "Version",
    "Level",
    "Threshold",
    "Point",
    "Share",
    "BoxLength",
    "BodyLength",
    "Trailing",
    "WrongEpoch",
    "WrongLevel",
}
OUTER = FAULTS | {"CutLength", "CutRecord"}
INNER = FAULTS | {"Seal", "BodyTail", "BodyKind", "WrongVersion"}


class NotTheText(ValueError):
    """The bytes aren't a whole text of this form; the message has the number of the line, counted from 1."""


class Step(NamedTuple):
    """One value of a path, with the threshold that its clients set and the version of their reports."""

    value: bytes
    threshold: int
    version: int


class Opened(NamedTuple):
    """An opened group: its values from the outermost on, its points, those that agree, and its reports."""

    path: Tuple[Step, ...]
    points: int
    agree: int
    members: int


class Level(NamedTuple):
    """How many groups of a level had which outcome."""

    level: int
    opened: int
    few: int
    noline: int
    badvalue: int


class Refused(NamedTuple):
    """A refused record: `stage` is None before any group, and otherwise the level of the group."""

    record: int
    stage: Optional[int]
    name: str


class Extra(NamedTuple):
    """The extra bytes of the report of a record, from a group of this level."""

    record: int
    level: int
    value: bytes


class Counts(NamedTuple):
    """The last line: all records, those that are reports of the epoch, and those that were refused."""

    records: int
    rows: int
    refused: int


class Reader:
    """Takes a text line by line, in order, and checks each line by itself and against the lines before it."""

    def __init__(self):
        self._branch = []  # of the last opened group: [the path as bytes, Opened, the members of the groups below it so far]
        self._first = 0  # members of all groups of level 0
        self._opened = []  # opened groups by level
        self._levels = []
        self._refused = self._outer = 0
        self._last = {Refused: -1, Extra: -1}
        self._highest = -1  # number of a record
        self._stage = 0  # kinds of lines ascend: open, level, refused, aux, records
        self._kinds = [
            (b"open ", self._open),
            (b"level ", self._level),
            (b"refused ", self._refusal),
            (b"aux ", self._extra),
            (b"records=", self._counts),
        ]

    @property
    def whole(self):
        """Whether the last line was read."""
        return self._stage == len(self._kinds)

    def line(self, line):
        """What a line says, without its newline byte; ValueError if it can't be the next one."""
        for stage in range(self._stage, len(self._kinds)):
            start, read = self._kinds[stage]
            if line.startswith(start):
                self._stage = stage + (start == b"records=")
                return read(line)
        raise ValueError("it is not a line that can follow here")

    def _open(self, line):
        above, step, *numbers = _fields(OPEN, line)
        depth, step = above.count(b"/"), _step(step)
        self._check_place(above, depth, step)
        found = Opened((self._branch[depth - 1][1].path if depth else ()) + (step,), *map(int, numbers))
        if not (step.threshold <= found.points and found.agree <= found.points <= found.members and 2 * found.agree >= found.points + step.threshold):
            raise ValueError("no opened group has these numbers")
        self._count_below(depth, found.members)
        del self._branch[depth:]
        self._branch.append([line[5 : line.index(b" ", 5)] + b"/", found, 0])
        if depth == len(self._opened):
            self._opened.append(0)
        self._opened[depth] += 1
        return found

    def _check_place(self, above, depth, step):
        if depth > len(self._branch) or depth and self._branch[depth - 1][0] != above:
            raise ValueError("the group one level up is not among the lines before")
        if depth < len(self._branch) and self._branch[depth][1].path[-1] >= step:
            raise ValueError("the paths do not ascend")
        if depth and self._branch[depth - 1][1].path[-1].version != step.version or depth >= MAX_LEVELS[step.version]:
            raise ValueError("no path has this step at this level")

    def _count_below(self, depth, members):
        if depth == 0:
            self._first += members
            return
        above = self._branch[depth - 1]
        above[2] += members
        if above[2] > above[1].members:
            raise ValueError("the groups below a group have more members than the group")

    def _level(self, line):
        found = Level(*map(int, _fields(LEVEL, line)))
        opened = self._opened[found.level] if found.level < len(self._opened) else 0
        if found.level != len(self._levels) or found.opened != opened or not any(found[1:]):
            raise ValueError("the level is not the next one, or has other groups than the lines before")
        if found.level and not self._levels[-1].opened:
            raise ValueError("there is no group one level up")
        self._levels.append(found)
        return found

    def _refusal(self, line):
        record, stage, name = _fields(REFUSED, line)
        found = Refused(int(record), None if stage == b"outer" else int(stage), name.decode())
        if found.name not in (OUTER if found.stage is None else INNER):
            raise ValueError("no record is refused by this name there")
        if found.stage is None:
            self._outer += 1
        else:
            self._check_level(found.stage)
        self._refused += 1
        return self._ascending(found)

    def _extra(self, line):
        record, level, value = _fields(EXTRA, line)
        found = Extra(int(record), int(level), _bytes(value, MAX_EXTRA))
        self._check_level(found.level)
        return self._ascending(found)

    def _check_level(self, level):
        if level >= len(self._opened):
            raise ValueError("no group of this level was opened")

    def _ascending(self, found):
        if found.record <= self._last[type(found)]:
            raise ValueError("the numbers of records do not ascend")
        self._last[type(found)] = found.record
        self._highest = max(self._highest, found.record)
        return found

    def _counts(self, line):
        found = Counts(*map(int, _fields(COUNTS, line)))
        if len(self._levels) < len(self._opened) or bool(self._levels) != bool(found.rows):
            raise ValueError("the line of a level is missing")
        if found.refused != self._refused or found.records - found.rows != self._outer or self._highest >= found.records or self._first > found.rows:
            raise ValueError("the counts are not those of the lines before")
        return found


def _fields(form, line):
    found = form.fullmatch(line)
    if found is None:
        raise ValueError("it does not have the form of such a line")
    return found.groups()


def _step(text):
    value, threshold, second = _fields(STEP, text)
    version = 2 if second else 1
    if not 2 <= int(threshold) <= MAX_THRESHOLD[version]:
        raise ValueError("no report of this version has this threshold")
    return Step(_bytes(value, MAX_VALUE), int(threshold), version)


def _bytes(spelled, most):
    """The bytes that are spelled so; each byte has one spelling."""
    if b"%" not in spelled:
        value = spelled
    else:
        value = unquote_to_bytes(spelled)
        if spelling(value) != spelled:
            raise ValueError("a byte is spelled in another way than the program does")
    if len(value) > most:
        raise ValueError("it has %d bytes, and at most %d are possible" % (len(value), most))
    return value


def spelling(value):
    """Bytes as the program prints them, in ASCII."""
    return b"".join(map(SPELLING.__getitem__, value))


def lines(file):
    """What each line of a text says, in order, from a file of bytes or any other iterable of lines of bytes; NotTheText if it isn't the text."""
    reader, number = Reader(), 0
    for number, line in enumerate(file, 1):
        try:
            if not line.endswith(b"\n"):
                raise ValueError("its end is missing")
            found = reader.line(line[:-1])
        except ValueError as fault:
            raise NotTheText("line %d: %s: %r" % (number, fault, line[:80])) from None
        yield found
    if not reader.whole:
        raise NotTheText("line %d: the text ends before its last line" % (number + 1))


def read(text):
    """What each line of these bytes says, as a list."""
    return list(lines(io.BytesIO(text)))


def text_of(value):
    """A value as text; None if its bytes aren't UTF-8."""
    try:
        return value.decode()
    except UnicodeDecodeError:
        return None


def as_json(found):
    """A line as the object that --json prints."""
    kind = {Opened: "open", Level: "level", Refused: "refused", Extra: "aux", Counts: "counts"}[type(found)]
    what = {"kind": kind, **found._asdict()}
    if kind == "open":
        what["path"] = [
            {"value": text_of(step.value), "hex": step.value.hex(), "threshold": step.threshold, "version": step.version} for step in found.path
        ]
    elif kind == "refused" and found.stage is None:
        what["stage"] = "outer"
    elif kind == "aux":
        what.update(value=text_of(found.value), hex=found.value.hex())
    return what


CSV_COLUMNS = ["level", "threshold", "version", "points", "agree", "members", "text", "value", "path"]


def as_row(opened):
    """An opened group as the row that --csv prints."""
    step = opened.path[-1]
    text = text_of(step.value) or ""
    if text[:1] in tuple("=+-@\t\r\n"):
        text = ""
    path = "/".join(spelling(one.value).decode() + "~%d%s" % (one.threshold, "~2" if one.version == 2 else "") for one in opened.path)
    return [
        len(opened.path) - 1,
        step.threshold,
        step.version,
        opened.points,
        opened.agree,
        opened.members,
        text,
        spelling(step.value).decode(),
        path,
    ]


def convert(source, target, as_csv):
    """Writes the text of a file of bytes to a file of text, as JSON or CSV."""
    table = csv.writer(target, lineterminator="\n")
    if as_csv:
        table.writerow(CSV_COLUMNS)
    for found in lines(source):
        if not as_csv:
            target.write(json.dumps(as_json(found), ensure_ascii=False) + "\n")
        elif isinstance(found, Opened):
            table.writerow(as_row(found))


def main():
    words = argparse.ArgumentParser(description=__doc__, formatter_class=argparse.RawDescriptionHelpFormatter)
    form = words.add_mutually_exclusive_group()
    form.add_argument("--json", action="store_true", help="one JSON object a line (the default)")
    form.add_argument("--csv", action="store_true", help="a row for each opened group")
    words.add_argument("file", nargs="?", help="standard input if there is none")
    words = words.parse_args()
    sys.stdout.reconfigure(encoding="utf-8", errors="strict", newline="")
    with tempfile.TemporaryFile("w+", encoding="utf-8", newline="") as held:
        try:
            with open(words.file, "rb") if words.file else sys.stdin.buffer as source:
                convert(source, held, words.csv)
        except (NotTheText, OSError) as fault:
            sys.exit("star_text: %s" % fault)
        held.seek(0)
        shutil.copyfileobj(held, sys.stdout)


if __name__ == "__main__":
    main()
