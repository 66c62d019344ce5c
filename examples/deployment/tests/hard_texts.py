"""Texts that are hard to show, as `star_tool reveal` would print them: hard_texts.py FOLDER writes the page of each."""
import os
import random
import sys

HERE = os.path.dirname(os.path.abspath(__file__))
sys.path.insert(0, os.path.dirname(HERE))
import epoch_summary  # noqa: E402
import page  # noqa: E402
import star_text  # noqa: E402
import weeks as weeks_of  # noqa: E402

PLAN = epoch_summary.Plan((20, 10))
HOSTILE = [
    "<script>document.title='owned'</script>",
    "\"><img src=x onerror=alert(1)>",
    "</title></svg><svg onload=alert(1)>",
    "'; DROP TABLE reports;--",
    b"\xff\xfe\x00\x80binary",
    "\u202egnp.exe",
    "日本語の値",
    "العربية",
    "  two  blanks ",
    "new\nline",
    "a" * 64,
    "é" * 32,
    "Z\u0351\u0348\u0353a\u0351\u0348l\u0351go",
    "%41%42",
    "{{7*7}}${7*7}",
    "&lt;b&gt;",
    "\x1b[31mred",
    "a/b~3",
    "👩‍👩‍👧‍👦 family",
    "javascript:alert(1)",
    "</style><style>*{display:none}",
    "<!-- x --><base href=//example.invalid>",
    "\ufdfd" * 8,
    "=cmd|' /C calc'!A0",
]


def opened(path, members, points=None, agree=None, thresholds=(20, 10)):
    """A line of an opened group."""
    values = [value.encode() if isinstance(value, str) else value for value in path]
    steps = "/".join("%s~%d" % (star_text.spelling(value).decode(), (thresholds + (3,) * 16)[i]) for i, value in enumerate(values))
    points = members if points is None else points
    return "open %s points=%d agree=%d members=%d\n" % (steps, points, points if agree is None else agree, members)


def key(path):
    return [value.encode() if isinstance(value, str) else value for value in path]


def whole(groups, rows, shut, refused="", extra=""):
    """A text of groups (pairs of a path and the words of `opened`), the shut groups of each level, and further lines."""
    lines = [opened(path, *words) for path, words in sorted(groups, key=lambda group: key(group[0]))]
    for level, outcomes in enumerate(shut):
        lines.append("level %d opened=%d few=%d noline=%d badvalue=%d\n" % ((level, sum(len(path) == level + 1 for path, _ in groups)) + outcomes))
    outer = refused.count(" outer ")
    return ("".join(lines) + refused + extra + "records=%d rows=%d refused=%d\n" % (rows + outer, rows, refused.count("\n"))).encode()


def five_hundred():
    """40 countries with 460 cities; from few to many reports."""
    numbers, groups, rows = random.Random(5), [], 700
    for i in range(40):
        cities = [int(2500 / (i + 1) / (j + 1)) + 10 for j in range(numbers.randint(4, 19))]
        total = sum(cities) + numbers.randint(20, 80)
        groups += [(["country %02d" % i], (total,))] + [(["country %02d" % i, "city %02d" % j], (n,)) for j, n in enumerate(cities)]
        rows += total
    return whole(groups, rows, [(12, 0, 0), (300, 0, 0)], extra="")


def deep(levels):
    groups, path = [], []
    for i in range(levels):
        path = path + ["level %d" % i]
        groups.append((path, (900 - 50 * i,)))
        if i:
            groups.append((path[:-1] + ["other"], (30,)))
    return whole(groups, 1000, [(i, 0, 0) for i in range(levels)])


def hostile():
    groups = [([value], (900 - 7 * i,)) for i, value in enumerate(HOSTILE)] + [([HOSTILE[0], value], (30,)) for value in HOSTILE]
    return whole(
        groups,
        25_000,
        [(9, 0, 0), (3, 0, 0)],
        extra="".join("aux %d 1 %s\n" % (i, star_text.spelling(key([value])[0]).decode()) for i, value in enumerate(HOSTILE)),
    )


def other_thresholds():
    lines = [
        opened(["Germany"], 60),
        opened(["Germany", "Berlin"], 20),
        opened(["Germany", "visit evil.example"], 2, thresholds=(20, 2)),
        opened(["buy now"], 12, thresholds=(2, 10)),
        opened(["buy now", "evil, with the week's own threshold"], 12, thresholds=(2, 10)),
    ]
    lines += ["level 0 opened=2 few=4 noline=0 badvalue=0\n", "level 1 opened=3 few=1 noline=0 badvalue=0\n", "records=90 rows=90 refused=0\n"]
    return "".join(lines).encode()


def liars():
    refused = "".join(
        "refused %d %s\n" % (i, ["outer WrongEpoch", "0 Seal", "outer Magic", "outer TooLong", "1 BodyKind"][i % 5 if i < 20 else 0])
        for i in range(43)
    )
    return whole([(["Germany"], (60, 55, 41)), (["Germany", "Berlin"], (20,))], 300, [(8, 2, 1), (3, 1, 0)], refused)


def many(count, levels=1, below=0):
    """So many first values, then chains of `levels` below each: the widest and deepest texts that reports can make."""
    groups, tail = [], tuple("v%d" % i for i in range(levels - 1))
    for i in range(count):
        groups += [(("w%06d" % i,) + tail[:depth], (40 + i % 7,)) for depth in range(levels)]
    return groups


CASES = {
    "empty": whole([], 0, []),
    "nothing": whole([], 57, [(41, 0, 0)]),
    "one": whole([(["Germany"], (23,))], 31, [(5, 0, 0), (9, 0, 0)]),
    "five_hundred": five_hundred(),
    "deep": deep(8),
    "hostile": hostile(),
    "liars": liars(),
    "other_thresholds": other_thresholds(),
    "left_out": whole(many(6_000), 270_000, [(7, 0, 0)]),
}

DOOR = {"known": 12, "no_frame": 7, "other_threshold": 2}


def about(name, epoch=2969):
    plain = name not in ("nothing", "deep")
    return page.About(
        epoch,
        "week 49 of 2026, 2026-11-30 to 2026-12-06",
        "2026-12-09 00:31 UTC",
        name != "one",
        ("country", "city") if plain else (),
        DOOR if plain else None,
        "%d.txt" % epoch,
    )


def page_of(name, plan=PLAN):
    """The page of a case."""
    text = CASES[name]
    plan = plan if name in ("five_hundred", "other_thresholds", "one", "liars") else None
    return page.epoch_page(epoch_summary.summarize(star_text.lines(text.splitlines(keepends=True)), plan), about(name))


def weeks():
    """Thirty weeks that grow, with two missing and values that come and go."""
    found = []
    for epoch in range(2940, 2970):
        if epoch in (2950, 2951):
            continue
        groups = [
            (["country %02d" % i], (n,))
            for i in range(14)
            if (n := int(9000 / (i + 1) * random.Random(epoch * 31 + i).uniform(0.7, 1.3) * (1 + (epoch - 2940) / 60))) > 900
        ]
        text = whole(groups, sum(words[0] for _, words in groups) + 800, [(20 + epoch % 7, 0, 0)])
        summary = epoch_summary.summarize(star_text.lines(text.splitlines(keepends=True)))
        one = about("five_hundred", epoch)
        one.name = weeks_of.name_of(epoch)
        found.append(page.week_of(summary, one))
    return found


def main(folder):
    os.makedirs(folder, exist_ok=True)
    pages = {name: page_of(name) for name in CASES}
    pages["index"] = page.index_page(weeks(), [("2901.txt", "line 4: <b>it does not have the form of such a line</b>")])
    for name, text in pages.items():
        with open(os.path.join(folder, name + ".html"), "w", encoding="utf-8") as file:
            file.write(text)
        print("%-18s %9d bytes" % (name, len(text.encode())))


if __name__ == "__main__":
    main(sys.argv[1])
