#!/usr/bin/env python3
"""Runs a program on inputs that are put together here byte for byte, and compares what it tells with what is stated here: its exit status, each byte
of its output, and its line on standard error. Each run has to end within a minute.

The reports are made by the client in plain Python; the lines follow from docs/FORMATS.md.

usage: tests/stated.py [COMMAND..]
"""
import pathlib
import subprocess
import sys

HERE = pathlib.Path(__file__).resolve().parent
sys.path.insert(0, str(HERE / "plain"))
from client import contexts_of, report_of, sealed  # noqa: E402
from shared import P, crypt_body, keys_of, read_frame, write_frame, write_record  # noqa: E402

ZEROS = bytes(32)
MOST_SECONDS = 60
SEED = ["--seed", ZEROS.hex()]
SMALLEST = b"ST\x01" + bytes(4) + b"\x01\x00\x02" + bytes(7) + b"\x01" + bytes(72) + b"\x01" + bytes(14) + b"\x01" + bytes(33)
FIRST = "0 good level=0 epoch=1 k=2 box=1 body=1\n"

# The record of the report of `red` under threshold 2 in epoch 1, from client 0 with a seed of zeros, as an implementation with hashlib and the
# package cryptography makes it.
RED = bytes.fromhex(
    "0000008d5354010000000001000206b8e0ada0f13d910b79c59d127328790881d8d7cf3fcb230356f5cae5ccc58ff67d678717bdf3b1da3e31811cf2ae3b44816bc02197"
    "3080805860f2ca6d345ba6b04839dda56852e7955c27b084704b03f8d05b405d6ae55386bd28bdd219b800010d305252365b25a57eddc695d8911b06ed8d8670d5553475"
    "fe2e73cb2578d640c0"
)

# The certificate of the reports of `red` of clients 0 and 1: the same implementation writes it.
REDS_CERTIFIED = bytes.fromhex(
    "53544152434552540101000000000100020000000000000000000000000000000000000000000000000000000000000000f67d678717bdf3b1da3e31811cf2ae3b44816b"
    "c021973080805860f2ca6d345ba6b04839dda56852e7955c27b084704b03f8d05b0000000206b8e0ada0f13d910b79c59d127328790881d8d7cf3fcb230356f5cae5ccc5"
    "8f0f3fdfd6c61578fc142a59d935b8fd651b4a6a9d23170dd61cabd14a613db1c000000f83a554af5c18e42d371c75e38f0000007ec2d1fe4a0434980a6a67eade000000"
    "e273a86c7515f92c48085762e2"
)

# What the first 60 reports of the cities tell, and the same with a broken seal and copies.
CITIES = 22 * ["DE,Berlin"] + 8 * ["DE,Bad Homburg"] + 12 * ["FR,Paris"] + 12 * ["FR,Aix en Provence"] + 6 * ["LU,Esch"] + 11 * ["FR,Berlin"]


def cities_told(berlin, france, few, bad):
    """The lines of the cities: the points of Berlin and of France, and how many groups of level 1 are too small or have no value."""
    return (
        "open DE~20 points=30 agree=30 members=30\n"
        f"open DE~20/Berlin~10 points={berlin} agree={berlin} members={berlin}\n"
        f"open FR~20 points={france} agree={france} members={france}\n"
        "open FR~20/Aix%20en%20Provence~10 points=12 agree=12 members=12\n"
        "open FR~20/Paris~10 points=12 agree=12 members=12\n"
        "level 0 opened=2 few=1 noline=0 badvalue=0\n"
        f"level 1 opened=3 few={few} noline=0 badvalue={bad}\n"
    )


def stream(*frames):
    """The stream of records of these bytes."""
    return b"".join(write_record(frame) for frame in frames)


def red(number, epoch=1, version=1, extra=b""):
    """The frame of the report of `red` of a client under threshold 2."""
    return report_of(version, epoch, [2], ZEROS, number, [b"red"], extra)


def changed(frame, **fields):
    """The frame with other fields, and the seal that it has."""
    return write_frame(read_frame(frame)._replace(**fields))


def put(data, place, byte):
    """The bytes with another one at this place."""
    return data[:place] + bytes([byte]) + data[place + 1 :]


def made_up(x, share):
    """The smallest frame for epoch 0 with this x and this first number of its share."""
    return SMALLEST[:7] + b"\0" + SMALLEST[8:10] + x.to_bytes(8, "big") + share.to_bytes(8, "big") + SMALLEST[26:]


def raised(frame):
    """The frame with the first number of its share raised by 1."""
    first, *others = read_frame(frame).shares
    return changed(frame, shares=((first + 1) % P, *others))


def other_tag(frame):
    """The frame with the lowest bit of its tag's first byte changed."""
    tag = read_frame(frame).tag
    return changed(frame, tag=bytes([tag[0] ^ 1]) + tag[1:])


def with_body(context, frame, plain_body):
    """The frame of this context with another plain body, sealed anew."""
    fields = read_frame(frame)
    body = crypt_body(keys_of(context.version, context.key), fields.nonce, plain_body)
    return write_frame(sealed(context, fields._replace(body=body)))


def city(number):
    """The frame of the report of a client of the cities."""
    values = [value.encode() for value in CITIES[number].split(",")]
    return report_of(1, 7, [20, 10], ZEROS, number, values)


def copied(source, target):
    """The frame of one city with the body of another one, which is of another country."""
    (source_context, _), (target_context, _) = (
        contexts_of(1, 7, [20, 10], [value.encode() for value in CITIES[number].split(",")]) for number in (source, target)
    )
    fields = read_frame(city(source))
    plain_body = crypt_body(keys_of(1, source_context.key), fields.nonce, fields.body)
    return with_body(target_context, city(target), plain_body)


class Cases:
    """Runs a command, and counts what is as stated."""

    def __init__(self, command):
        self.command = command
        self.passed = self.failed = 0

    def tells(self, name, words, data, output, status=0, error=""):
        """Compares a run on these words and this input with what it should tell."""
        output = output.encode() if isinstance(output, str) else output
        try:
            run = subprocess.run(self.command + words, input=data, capture_output=True, check=False, timeout=MOST_SECONDS)
        except subprocess.TimeoutExpired:
            self.failed += 1
            print(f"{name}: no end within {MOST_SECONDS} seconds")
            return
        got = (run.returncode, run.stdout, run.stderr.decode("utf-8", "replace"))
        if got == (status, output, error and error + "\n"):
            self.passed += 1
        else:
            self.failed += 1
            print(f"{name}: wanted {(status, output, error)}, got {got}")


def check_cases(cases):
    """Frames of either version, faulty ones, and streams that are cut."""

    def told(name, data, output):
        cases.tells("check: " + name, ["check"], data, output)

    told("no record", b"", "records=0 good=0 refused=0\n")
    told("the smallest frame", stream(SMALLEST), FIRST + "records=1 good=1 refused=0\n")
    second = SMALLEST[:2] + b"\x02" + SMALLEST[3:]
    told("of version 2", stream(second), "0 good version=2 level=0 epoch=1 k=2 box=1 body=1\nrecords=1 good=1 refused=0\n")
    told("a byte less", stream(SMALLEST[:-1]), "0 refused Truncated 107\nrecords=1 good=0 refused=1\n")
    told("a byte more", stream(SMALLEST + b"\0"), "0 refused Trailing 139\nrecords=1 good=0 refused=1\n")
    told("no byte", stream(b""), "0 refused Truncated 0\nrecords=1 good=0 refused=1\n")
    good = stream(SMALLEST)
    told("a cut record", good + b"\0\0\0\x8b0123456789", FIRST + "1 refused CutRecord 10\nrecords=2 good=1 refused=1\n")
    third = FIRST.replace("0", "2", 1)
    told("5,000 zeros", good + stream(bytes(5000)) + good, FIRST + "1 refused Magic 0\n" + third + "records=3 good=2 refused=1\n")
    told("9,000 zeros", good + stream(bytes(9000)) + good, FIRST + "1 refused TooLong 8192\n" + third + "records=3 good=2 refused=1\n")
    told("a cut length", good + b"abc", FIRST + "1 refused CutLength 3\nrecords=2 good=1 refused=1\n")
    told("the greatest length", b"\xff\xff\xff\xffabcde", "0 refused CutRecord 5\nrecords=1 good=0 refused=1\n")
    told("three bytes", b"abc", "0 refused CutLength 3\nrecords=1 good=0 refused=1\n")


def make_cases(cases):
    """Reports of both versions, and tables that are bad."""
    words = ["make", "--epoch", "1", "--thresholds"]
    cases.tells("make: red", words + ["2"] + SEED, b"red\n", RED)
    for table, row, column in ((b"a,b\nc\n", 1, 1), (b"a,", 0, 1), (b"a,b,c", 0, 2)):
        cases.tells(f"make: {table}", words + ["2,2"], table, b"", 7, f"bad table: row {row} column {column}")
    words += ["2", "--version", "2"] + SEED
    cases.tells("make: extra bytes", words, b"red,abc\n", stream(red(0, version=2, extra=b"abc")))
    cases.tells("make: no extra bytes", words, b"red,", stream(red(0, version=2)))
    for table, column in ((b"red", 1), (b"red,a,b", 2), (b"red," + 256 * b"x", 1)):
        cases.tells(f"make: {table}", words, table, b"", 7, f"bad table: row 0 column {column}")


def opened(points, agree, members):
    """The lines of one group of `red` that opens."""
    return f"open red~2 points={points} agree={agree} members={members}\nlevel 0 opened=1 few=0 noline=0 badvalue=0\n"


def shut(few, no_line, bad_value):
    """The line of a level with so many groups that stay shut."""
    return f"level 0 opened=0 few={few} noline={no_line} badvalue={bad_value}\n"


def group_cases(cases):
    """Groups that open by their points. The numbers name clients; `a` and `c` are clients 0 and 2 with another share, `x` and `y` clients 0 and 1
    with another tag."""
    frames = {str(number): red(number) for number in range(4)}
    frames |= {"a": raised(red(0)), "c": raised(red(2)), "x": other_tag(red(0)), "y": other_tag(red(1))}
    for names, output in (
        ("000", shut(1, 0, 0) + "records=3 rows=3 refused=0\n"),
        ("0001", opened(2, 2, 4) + "records=4 rows=4 refused=0\n"),
        ("012a", opened(2, 2, 4) + "refused 3 0 Seal\nrecords=4 rows=4 refused=1\n"),
        ("01c", shut(0, 1, 0) + "records=3 rows=3 refused=0\n"),
        ("01c3", opened(4, 3, 4) + "refused 2 0 Seal\nrecords=4 rows=4 refused=1\n"),
        ("xy", shut(0, 0, 1) + "records=2 rows=2 refused=0\n"),
    ):
        data = stream(*(frames[name] for name in names))
        cases.tells(f"reveal: {names}", ["reveal", "--epoch", "1"], data, output)


def made_up_cases(cases):
    """Reports of made-up shares: with threshold 2, n points come out where at least (n + 2) / 2 of them lie on one line."""
    for name, points, counts in (
        ("one point", ((1, 5),), (1, 0, 0)),
        ("one point twice", ((1, 5), (1, 5)), (1, 0, 0)),
        ("an x with two shares", ((1, 5), (1, 6), (2, 7)), (1, 0, 0)),
        ("three points on no line", ((1, 1), (2, 2), (3, 4)), (0, 1, 0)),
        ("a line to no key", ((1, 1 << 60), (2, 1 << 60)), (0, 1, 0)),
        ("the key of zeros, which has another tag", ((1, 1), (2, 2)), (0, 0, 1)),
        ("three of four points on that line", ((1, 1), (2, 2), (3, 3), (4, 9)), (0, 0, 1)),
    ):
        data = stream(*(made_up(x, share) for x, share in points))
        told = shut(*counts) + f"records={len(points)} rows={len(points)} refused=0\n"
        cases.tells(f"reveal: {name}", ["reveal", "--epoch", "0"], data, told)


def many_case(cases):
    """A group for each of 131,072 records, which has to end in time as every run has."""
    data = stream(*(SMALLEST[:42] + number.to_bytes(4, "big") + SMALLEST[46:] for number in range(131_072)))
    told = shut(131_072, 0, 0) + "records=131072 rows=131072 refused=0\n"
    cases.tells("reveal: many groups", ["reveal", "--epoch", "1"], data, told)


def escape_case(cases):
    """Bytes of values and of extra bytes that aren't printed as they are, and those that are."""
    values = [b"100%/~\xff", b"-._=:AZaz09", b"@[`{ "]
    frames = [report_of(2, 1, [2, 2, 2], ZEROS, number, values, b"\0\n/;") for number in range(2)]
    steps = ["100%25%2F%7E%FF~2~2", "-._=:AZaz09~2~2", "%40%5B%60%7B%20~2~2"]
    told = "".join(f"open {'/'.join(steps[: level + 1])} points=2 agree=2 members=2\n" for level in range(3))
    told += "".join(f"level {level} opened=1 few=0 noline=0 badvalue=0\n" for level in range(3))
    told += "".join(f"aux {number} 2 %00%0A%2F%3B\n" for number in range(2)) + "records=2 rows=2 refused=0\n"
    cases.tells("reveal: escapes", ["reveal", "--epoch", "1"], stream(*frames), told)


def refusal_cases(cases):
    """Records and bodies that are refused by name, beside reports that are revealed."""
    first, second, later = red(0), red(1), red(0, epoch=2)
    deeper = changed(first, level=1)
    data = stream(first, b"abc", later, bytes(9000), deeper, second) + b"\0\0\0\x8bST"
    names = ((1, "Magic"), (2, "WrongEpoch"), (3, "TooLong"), (4, "WrongLevel"), (6, "CutRecord"))
    lines = "".join(f"refused {number} outer {name}\n" for number, name in names)
    cases.tells("reveal: refused records", ["reveal", "--epoch", "1"], data, opened(2, 2, 2) + lines + "records=7 rows=2 refused=5\n")

    data = stream(first, first, first, second)
    lines = "".join(f"refused {number} outer WrongEpoch\n" for number in range(4))
    cases.tells("reveal: another epoch", ["reveal", "--epoch", "2"], data, lines + "records=4 rows=0 refused=4\n")

    (context,) = contexts_of(1, 1, [2], [b"red"])
    bodies = [b"\0\0", b"\x02", b"\x01", b"\x01" + later, b"\x01" + first]
    frames = [with_body(context, red(2 + i), body) for i, body in enumerate(bodies)]
    names = ("BodyTail", "BodyKind", "Truncated", "WrongEpoch", "WrongLevel")
    lines = "".join(f"refused {2 + i} 0 {name}\n" for i, name in enumerate(names))
    data = stream(first, second, *frames)
    cases.tells("reveal: refused bodies", ["reveal", "--epoch", "1"], data, opened(7, 7, 7) + lines + "records=7 rows=7 refused=5\n")


def extra_cases(cases):
    """Extra bytes of version 2, beside version 1 and bodies that are refused."""
    words = ["reveal", "--epoch", "1"]
    first = [red(number, version=2, extra=extra) for number, extra in enumerate((b"abc", b""))]
    (context,) = contexts_of(2, 1, [2], [b"red"])
    long = with_body(context, red(2, version=2), bytes(257))
    inner = with_body(context, red(3, version=2), b"\x01" + changed(red(0), level=1))
    line = "open red~2~2 points={0} agree={0} members={0}\n"
    level = "level 0 opened={} few=0 noline=0 badvalue=0\n"
    told = line.format(2) + level.format(1) + "aux 0 0 abc\nrecords=2 rows=2 refused=0\n"
    cases.tells("reveal: extra bytes", words, stream(*first), told)
    told = "open red~2 points=2 agree=2 members=2\n" + line.format(2) + level.format(2) + "aux 0 0 abc\nrecords=4 rows=4 refused=0\n"
    cases.tells("reveal: both versions", words, stream(*first, red(0), red(1)), told)
    told = line.format(4) + level.format(1) + "refused 2 0 BodyTail\nrefused 3 0 WrongVersion\naux 0 0 abc\nrecords=4 rows=4 refused=2\n"
    cases.tells("reveal: refused bodies of version 2", words, stream(*first, long, inner), told)


def front_cases(cases):
    """Each front of two reports; a record has 4 bytes of its length and a frame of 141."""
    data = stream(red(0), red(1))
    few = shut(1, 0, 0)
    for first, last, output in (
        (0, 0, "records=0 rows=0 refused=0\n"),
        (1, 3, "refused 0 outer CutLength\nrecords=1 rows=0 refused=1\n"),
        (4, 144, "refused 0 outer CutRecord\nrecords=1 rows=0 refused=1\n"),
        (145, 145, few + "records=1 rows=1 refused=0\n"),
        (146, 148, few + "refused 1 outer CutLength\nrecords=2 rows=1 refused=1\n"),
        (149, 289, few + "refused 1 outer CutRecord\nrecords=2 rows=1 refused=1\n"),
        (290, 290, opened(2, 2, 2) + "records=2 rows=2 refused=0\n"),
    ):
        for size in range(first, last + 1):
            cases.tells(f"reveal: {size} bytes", ["reveal", "--epoch", "1"], data[:size], output)


def city_cases(cases):
    """Two layers, for any number of workers, and bodies that are copied under another parent."""
    frames = [city(number) for number in range(60)]
    told = cities_told(22, 24, 1, 0) + "records=60 rows=60 refused=0\n"
    broken = changed(frames[0], seal=frames[0][-32:-1] + bytes([frames[0][-1] ^ 1]))
    copies = [copied(1 + i, 60 + i) for i in range(11)]
    refused = "refused 0 0 Seal\nrecords={0} rows={0} refused=1\n"
    one = cities_told(21, 25, 2, 0) + refused.format(61)
    for workers in ([], ["--workers", "1"], ["--workers", "2"], ["--workers", "7"]):
        words = ["reveal", "--epoch", "7"] + workers
        cases.tells(f"reveal: cities, {workers}", words, stream(*frames), told)
        cases.tells(f"reveal: a copy, {workers}", words, stream(broken, *frames[1:], copies[0]), one)
    eleven = cities_told(21, 35, 1, 1) + refused.format(71)
    cases.tells("reveal: eleven copies", ["reveal", "--epoch", "7"], stream(broken, *frames[1:], *copies), eleven)


def twice_case(cases):
    """Of the points of 100 clients 50 have two values, so these are absent."""
    frames = [red(number) for number in range(100)]
    lines = "".join(f"refused {100 + number} 0 Seal\n" for number in range(50))
    data = stream(*frames, *(raised(frame) for frame in frames[:50]))
    cases.tells("reveal: shares sent twice", ["reveal", "--epoch", "1"], data, opened(50, 50, 150) + lines + "records=150 rows=150 refused=50\n")


def epoch_cases(cases):
    """The reports of two epochs in turn, and records of no epoch."""
    data = stream(red(0), red(0, epoch=2), red(1), red(1, epoch=2))
    section = "epoch {}\n" + opened(2, 2, 2) + "records=2 rows=2 refused=0\n"
    told = section.format(1) + section.format(2) + "records=4 epochs=2 refused=0\n"
    for words in (["epochs"], ["epochs", "--workers", "3"]):
        cases.tells(f"{words}", words, data, told)
    deeper = changed(red(0), level=1)
    cases.tells("epochs: another level", ["epochs"], stream(deeper), "refused 0 WrongLevel\nrecords=1 epochs=0 refused=1\n")
    data = stream(deeper, b"abc", bytes(9000)) + b"\0\0\0\x8bST"
    told = "refused 0 WrongLevel\nrefused 1 Magic\nrefused 2 TooLong\nrefused 3 CutRecord\nrecords=4 epochs=0 refused=4\n"
    cases.tells("epochs: records of none", ["epochs"], data, told)


def expect_case(cases):
    """The table of the cities."""
    table = "".join(row + "\n" for row in CITIES[:60]).encode()
    lines = cities_told(22, 24, 1, 0).split("level")[0]
    cases.tells("expect: cities", ["expect", "--epoch", "7", "--thresholds", "20,10"] + SEED, table, lines + "prefixes=5 clear=yes\n")


def book_cases(cases):
    """A book, its sums, what it opens to, and books that are bad."""
    first, second = sorted((red(0), red(1)))

    def book(refused, *entries):
        head = b"STARBOOK\x01\0\0\0\x01" + refused.to_bytes(4, "big") + len(entries).to_bytes(4, "big")
        return head + b"".join(count.to_bytes(4, "big") + len(frame).to_bytes(2, "big") + frame for count, frame in entries)

    made = book(0, (3, first), (1, second))
    words = ["--epoch", "1"]
    cases.tells("book: a frame three times", ["book"] + words, stream(first, first, second, first), made)
    with_refused = book(1, (3, first), (1, second))
    cases.tells("book: a refused record", ["book"] + words, stream(second, first, b"abc", first, first), with_refused)
    cases.tells("merge: a book twice", ["merge"] + words, made + made, book(0, (6, first), (2, second)))
    cases.tells("merge: no book", ["merge"] + words, b"", book(0))
    told = opened(2, 2, 4) + "records=4 rows=4 refused=0\n"
    cases.tells("openbook", ["openbook", "--workers", "2"] + words, made, told)
    other = b"STARBOOK\x01\0\0\0\x02" + bytes(8)
    for name, data, status, error in (
        ("cut", book(0)[:20], 10, "bad book 0: Truncated 17"),
        ("of another epoch", other, 11, "book 0: epoch 2"),
        ("of another epoch, behind one", book(0) + other, 11, "book 1: epoch 2"),
        ("of other bytes", book(0) + b"STARBOOM", 10, "bad book 1: Magic 0"),
    ):
        cases.tells(f"merge: a book {name}", ["merge"] + words, data, b"", status, error)


def certificate_cases(cases):
    """A certificate, each verdict, and each fault at its place."""
    certificate = REDS_CERTIFIED
    cases.tells("certify: red", ["certify", "--epoch", "1"], stream(red(0), red(1)), certificate)
    cases.tells("certify: another epoch", ["certify", "--epoch", "2"], stream(red(0), red(1)), b"")
    yes = "yes red~2 level=0 points=2 agree=2\n"
    cases.tells("audit: none", ["audit"], b"", "certs=0 yes=0\n")
    cases.tells("audit: red, twice", ["audit"], 2 * certificate, f"0 {yes}1 {yes}certs=2 yes=2\n")
    more = put(certificate, 16, 3) + bytes(24)
    for name, data, verdict in (
        ("a threshold above the points", more, "Few"),
        ("a number that is no limb", put(certificate, 170, 1), "Key"),
        ("another last number", put(certificate, 216, 0), "Short"),
        ("another tag", put(certificate, 49, 0), "Value"),
    ):
        cases.tells(f"audit: {name}", ["audit"], data, f"0 no {verdict}\ncerts=1 yes=0\n")
    cases.tells("audit: a byte less", ["audit"], certificate[:-1], b"", 12, "bad cert 0: Truncated 209")
    for place, byte, fault in (
        (0, 0x54, "Magic 0"),
        (8, 2, "Format 8"),
        (9, 3, "Range 9"),
        (10, 8, "Range 10"),
        (16, 1, "Range 15"),
        (97, 0, "Range 97"),
        (102, 2, "Range 101"),
        (113, 0x20, "Range 113"),
        (137, 0x06, "Range 137"),
        (209, 0x20, "Range 209"),
    ):
        cases.tells(f"audit: {byte} at {place}", ["audit"], put(certificate, place, byte), b"", 12, f"bad cert 0: {fault}")


def trial_cases(cases):
    """Streams for trials. Two other implementations agree on their digests."""

    def told(reports, level_0, level_1, text):
        levels = "".join(
            f"level {i} opened={opened} few={few} noline=0 badvalue=0\n" for i, (opened, few) in enumerate((level_0, level_1)) if opened + few
        )
        return levels + f"records={reports} rows={reports} refused=0\ntext={text}\n"

    words = ["gen", "--number", "7", "--liars", "10", "--reports", "2000"]
    text = "799ec91abc36ee0e911a1420ccbd218917f38f6a80ecec2c1f4998b86c40235d"
    for workers in ("1", "2", "7"):
        cases.tells(f"gen: {workers} workers", words + ["--workers", workers], b"", told(2000, (18, 2), (99, 81), text))
    text = "2b1e13f944338ac91b727831632c537af6f3c085c3f52211c2709542bfecabf3"
    cases.tells("gen: one report", ["gen", "--number", "0", "--reports", "1", "--liars", "0"], b"not read", told(1, (0, 1), (0, 0), text))


def main(command):
    cases = Cases(command or [str(HERE.parent / "crates" / "star_tool" / "out" / "star_tool")])
    for group in (
        check_cases,
        make_cases,
        group_cases,
        made_up_cases,
        many_case,
        escape_case,
        refusal_cases,
        extra_cases,
        front_cases,
        city_cases,
        twice_case,
        epoch_cases,
        expect_case,
        book_cases,
        certificate_cases,
        trial_cases,
    ):
        group(cases)
    print(f"{cases.passed} passed, {cases.failed} failed")
    return 1 if cases.failed else 0


if __name__ == "__main__":
    sys.exit(main(sys.argv[1:]))
