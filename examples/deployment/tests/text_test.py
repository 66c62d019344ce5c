#!/usr/bin/env python3
"""The reader of texts: text_test.py PROGRAM [--mutations N]

Texts of the built program are read, and spelled again from what was read they are the same bytes. Texts that were written by hand for
each rule of docs/FORMATS.md are refused at the line that breaks it. Every cut of a text and 4,000 changed ones are refused, or spell themselves.
--mutations reads what `reveal` and `openbook` print for the first N streams of tests/mutations.py as well.
"""
import csv
import io
import json
import os
import random
import subprocess
import sys

HERE = os.path.dirname(os.path.abspath(__file__))
sys.path.insert(0, os.path.dirname(HERE))
import star_text  # noqa: E402

TOP = os.path.dirname(os.path.dirname(os.path.dirname(HERE)))
READER = os.path.join(os.path.dirname(HERE), "star_text.py")
HOSTILE = [b"=1+1", b"\xff\xfe", b"a,b", b'say "no"', b"line\nend", b"\x00", "Türkiye".encode(), b"~2/x%41", b"x" * 64]


def spelled(found):
    """The line that says this, written anew from docs/FORMATS.md."""
    plain = set(b"ABCDEFGHIJKLMNOPQRSTUVWXYZabcdefghijklmnopqrstuvwxyz0123456789-._=:")
    text = lambda value: "".join(chr(byte) if byte in plain else "%%%02X" % byte for byte in value)
    if isinstance(found, star_text.Opened):
        path = "/".join(text(step.value) + "~%d" % step.threshold + "~2" * (step.version == 2) for step in found.path)
        return "open %s points=%d agree=%d members=%d\n" % ((path,) + found[1:])
    if isinstance(found, star_text.Level):
        return "level %d opened=%d few=%d noline=%d badvalue=%d\n" % found
    if isinstance(found, star_text.Refused):
        return "refused %d %s %s\n" % (found.record, "outer" if found.stage is None else found.stage, found.name)
    if isinstance(found, star_text.Extra):
        return "aux %d %d %s\n" % (found.record, found.level, text(found.value))
    return "records=%d rows=%d refused=%d\n" % found


def run(program, words, given):
    return subprocess.run([program] + words, input=given, stdout=subprocess.PIPE, check=True).stdout


def program_texts(program):
    """Texts that the program prints: versions 1 and 2, hostile values, extra bytes, refusals of several kinds."""
    table = io.StringIO(newline="")
    rows = csv.writer(table)
    for value in HOSTILE:
        for _ in range(3):
            rows.writerow([value.decode("latin-1"), "below"])
    first = table.getvalue().encode("latin-1")
    one = run(program, ["make", "--epoch", "7", "--thresholds", "3,2"], first)
    second = "".join("crash,%d,build %d\r\n" % (i % 2, i) for i in range(9)).encode()
    two = run(program, ["make", "--epoch", "7", "--thresholds", "3,2", "--version", "2"], second)
    with open(os.path.join(TOP, "examples", "reports.stream"), "rb") as file:
        mixed = file.read()
    broken = bytearray(one[: 4 + int.from_bytes(one[:4], "big")])
    broken[-1] ^= 1
    streams = [b"", one, two, one + two, mixed, one + bytes(broken) + b"\0\0\0\2ST" + two[:30]]
    return [run(program, ["reveal", "--epoch", "7"], stream) for stream in streams]


GOOD = b"""open DE~3 points=4 agree=4 members=6
open DE~3/Berlin~2 points=2 agree=2 members=2
open DE~3/Bonn~2 points=2 agree=2 members=3
open FR~3 points=5 agree=4 members=5
level 0 opened=2 few=1 noline=0 badvalue=0
level 1 opened=2 few=1 noline=1 badvalue=0
refused 0 outer WrongEpoch
refused 3 0 Seal
aux 4 1 build%20116
records=14 rows=13 refused=2
"""

# A line of GOOD, what stands in its place, and the line of the fault.
BROKEN = [
    ("open DE~3 ", "open DE~1 ", 1),
    ("open DE~3 ", "open DE~513 ", 1),
    ("open DE~3 ", "open DE~03 ", 1),
    ("open DE~3 ", "open DE ", 1),
    ("open DE~3 ", "open %44E~3 ", 1),
    ("open DE~3 ", "open D%c3~3 ", 1),
    ("open DE~3 ", "open D%C~3 ", 1),
    ("open DE~3 ", "open ~3 ", 1),
    ("open DE~3 ", "open " + "x" * 65 + "~3 ", 1),
    ("open DE~3 ", "open D E~3 ", 1),
    ("open DE~3 ", "open D/E~3 ", 1),
    ("points=4 agree=4", "points=2 agree=2", 1),
    ("points=4 agree=4", "points=4 agree=5", 1),
    ("points=4 agree=4", "points=7 agree=7", 1),
    ("points=4 agree=4", "points=4 agree=3", 1),
    ("points=4 agree=4", "points=04 agree=4", 1),
    ("points=4 agree=4", "points=+4 agree=4", 1),
    ("points=4 agree=4", "points=\u0664 agree=4", 1),
    ("members=6", "members=6 ", 1),
    ("members=6", "members=6\r", 1),
    ("members=6", "members=4", 3),
    ("DE~3/Bonn~2", "DE~3/Bonn~2~2", 3),
    ("DE~3/Bonn~2", "DE~3/Berlin~2", 3),
    ("DE~3/Bonn~2", "DE~3/Aachen~2", 3),
    ("DE~3/Bonn~2", "DE~4/Bonn~2", 3),
    ("DE~3/Bonn~2", "DE~3/Berlin~2/Bonn~2/x~2", 3),
    ("open FR~3 ", "open AT~3 ", 4),
    ("open FR~3 ", "open DE~3 ", 4),
    ("points=5 agree=4", "points=5 agree=3", 4),
    ("level 0 opened=2", "level 0 opened=3", 5),
    ("level 0 opened=2", "level 1 opened=2", 5),
    ("level 1 opened=2", "level 2 opened=2", 6),
    ("level 1 opened=2 few=1 noline=1 badvalue=0\n", "", 9),
    ("level 1 ", "level 0 opened=2 few=1 noline=0 badvalue=0\nlevel 1 ", 6),
    ("0 outer WrongEpoch", "0 outer Seal", 7),
    ("0 outer WrongEpoch", "0 outer Wrong", 7),
    ("0 outer WrongEpoch", "0 inner WrongEpoch", 7),
    ("3 0 Seal", "3 2 Seal", 8),
    ("3 0 Seal", "0 0 Seal", 8),
    ("3 0 Seal", "3 0 CutLength", 8),
    ("3 0 Seal", "99 0 Seal", 10),
    ("aux 4 1 build%20116", "aux 4 2 build%20116", 9),
    ("aux 4 1 build%20116", "aux 4 1 ", 9),
    ("aux 4 1 build%20116", "aux 4 1 " + "x" * 256, 9),
    ("refused 3 0 Seal\naux 4 1 build%20116", "aux 4 1 build%20116\nrefused 3 0 Seal", 9),
    ("refused=2", "refused=1", 10),
    ("rows=13", "rows=12", 10),
    ("records=14 rows=13", "records=11 rows=10", 10),
    ("refused=2\n", "refused=2", 10),
    ("refused=2\n", "refused=2\n\n", 11),
    ("refused=2\n", "refused=2\nrecords=14 rows=13 refused=2\n", 11),
    ("open DE~3 ", "\nopen DE~3 ", 1),
    ("open DE~3 ", "opened DE~3 ", 1),
]


def check_rules():
    assert len(star_text.read(GOOD)) == 10
    for old, new, place in BROKEN:
        assert GOOD.decode().count(old) == 1, old
        text = GOOD.decode().replace(old, new).encode()
        try:
            star_text.read(text)
        except star_text.NotTheText as fault:
            assert str(fault).startswith("line %d:" % place), (old, new, str(fault))
        else:
            raise AssertionError("taken: %r for %r" % (new, old))
    return len(BROKEN)


def holds(text):
    """Whether a text is taken; if so, what was read spells it."""
    try:
        found = star_text.read(text)
    except star_text.NotTheText:
        return False
    assert "".join(map(spelled, found)).encode() == text, text
    return True


def changed(text, random_numbers):
    """A text with a byte, a line or a number changed."""
    kind = random_numbers.randrange(4)
    at = random_numbers.randrange(len(text))
    if kind == 0:
        return text[:at] + bytes([random_numbers.randrange(256)]) + text[at + 1 :]
    lines = text.splitlines(keepends=True)
    at = random_numbers.randrange(len(lines))
    if kind == 1:
        del lines[at]
    elif kind == 2:
        lines.insert(random_numbers.randrange(len(lines) + 1), lines[at])
    else:
        other = random_numbers.randrange(len(lines))
        lines[at], lines[other] = lines[other], lines[at]
    return b"".join(lines)


def check_program(texts):
    random_numbers, taken, refused = random.Random(11), 0, 0
    for text in texts:
        assert holds(text), text
        refused += sum(not holds(text[:end]) for end in range(len(text)))
        assert not any(holds(text[:end]) for end in range(len(text)))
    for _ in range(4_000):
        text = random_numbers.choice(texts)
        other = changed(text, random_numbers)
        taken += holds(other) and other != text
    return refused, taken


def check_command(text):
    """What the command prints as JSON and CSV is what the text says; it prints nothing for half a text."""
    said = subprocess.run([sys.executable, READER, "--json"], input=text, stdout=subprocess.PIPE, check=True).stdout.decode()
    groups = [found for found in star_text.read(text) if isinstance(found, star_text.Opened)]
    opened = [json.loads(line) for line in said.splitlines() if '"kind": "open"' in line]
    assert [[bytes.fromhex(step["hex"]) for step in one["path"]] for one in opened] == [[step.value for step in group.path] for group in groups]
    assert {one["path"][0]["value"] for one in opened} >= {None, "Türkiye"}
    said = subprocess.run([sys.executable, READER, "--csv"], input=text, stdout=subprocess.PIPE, check=True).stdout.decode()
    rows = list(csv.DictReader(io.StringIO(said, newline="")))
    assert [row["path"] for row in rows] == [line.split()[1] for line in text.decode().splitlines() if line.startswith("open ")]
    assert not any(row["text"][:1] in tuple("=+-@") for row in rows if row["text"]) and "=1%2B1" in [row["value"] for row in rows]
    half = subprocess.run([sys.executable, READER, "--csv"], input=text[:-9], stdout=subprocess.PIPE, stderr=subprocess.PIPE)
    assert half.returncode == 1 and half.stdout == b"" and half.stderr


def check_mutations(program, number):
    """What the program prints for streams that are derived from good ones is read, and spelled again the same."""
    with open(os.path.join(TOP, "tests", "mutations.py"), encoding="utf-8") as file:
        source = file.read()
    sys.path.insert(0, os.path.join(TOP, "tests", "client"))
    mutations = {"__name__": "mutations", "__file__": os.path.join(TOP, "tests", "mutations.py")}
    exec(compile(source[: source.rindex("\nmain()")], "mutations.py", "exec"), mutations)  # without its last line, which runs it
    for one in range(number):
        epoch, stream = mutations["stream_of"](one)
        words = ["--epoch", str(epoch)]
        for text in (run(program, ["reveal"] + words, stream), run(program, ["openbook"] + words, run(program, ["book"] + words, stream))):
            assert holds(text), (one, text)
    print("reader of texts: %d texts of %d streams that are derived from good ones" % (2 * number, number))


def main(program):
    texts = program_texts(program)
    rules = check_rules()
    refused, taken = check_program(texts)
    check_command(texts[1])
    print(
        "reader of texts: %d texts of the program, %d broken rules, %d cuts refused, 4,000 changed texts of which %d are texts again"
        % (len(texts), rules, refused, taken)
    )
    if "--mutations" in sys.argv:
        check_mutations(program, int(sys.argv[sys.argv.index("--mutations") + 1]))


if __name__ == "__main__":
    main(sys.argv[1])
