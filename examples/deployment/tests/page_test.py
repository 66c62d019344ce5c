#!/usr/bin/env python3
"""The pages without a browser: page_test.py [--large]

Each hard text becomes a page that is well formed, has no element and no attribute that a page isn't made of, loads nothing, runs one script, whose
checksum is the one in its policy, and shows each value. The numbers of its plot are those of the text. With --large also the widest and
deepest texts: each is a page in 60 seconds, 1 GB and 5 MB.
"""
import base64
import hashlib
import html.parser
import os
import re
import resource
import sys
import tempfile
import time
import unicodedata

sys.path.insert(0, os.path.dirname(os.path.abspath(__file__)))
import hard_texts  # noqa: E402
import epoch_summary  # noqa: E402
import markup  # noqa: E402
import page  # noqa: E402
import star_text  # noqa: E402

ELEMENTS = set(
    "html meta link title style main script h1 h2 p a div section ul li b i bdi span table thead tbody tr th td details summary input button "
    "svg defs pattern rect text path polyline circle".split()
)
EMPTY = {"meta", "link"}
ATTRIBUTES = set(
    "lang charset name content http-equiv rel href class style title type placeholder aria-label aria-sort role open id "
    "viewbox width height x y cx cy r rx d fill "
    "fill-opacity font-size font-weight points stroke stroke-width patternunits patterntransform".split()
)
LINKS = re.compile(r"data:,|index\.html|\d+\.html|\d+\.txt")
STYLES = re.compile(r"(width:\d+\.\d{3}%;?)?(background:#[0-9a-f]{6})?")


class Checked(html.parser.HTMLParser):
    """Reads a page, and keeps its texts and scripts; AssertionError for what has no place in one."""

    def __init__(self, text):
        super().__init__(convert_charrefs=True)
        self.branch, self.texts, self.scripts, self.titles, self.policy = [], [], [], [], None
        self.feed(text)
        self.close()
        assert not self.branch, self.branch

    def handle_starttag(self, tag, attributes):
        assert tag in ELEMENTS, tag
        for name, value in attributes:
            assert name in ATTRIBUTES and not name.startswith("on"), (tag, name)
            assert name != "href" or LINKS.fullmatch(value), value
            assert name != "style" or STYLES.fullmatch(value), value
            assert name != "fill" or re.fullmatch(r"none|currentColor|#[0-9a-f]{6}|url\(#(wide|narrow)-hatch\)", value), value
        words = dict(attributes)
        if words.get("http-equiv") == "Content-Security-Policy":
            self.policy = words["content"]
        if tag not in EMPTY:
            self.branch.append(tag)

    def handle_endtag(self, tag):
        assert self.branch and self.branch.pop() == tag, (tag, self.branch)

    def handle_data(self, data):
        if not self.branch:
            assert not data.strip(), data
            return
        {"script": self.scripts, "title": self.titles}.get(self.branch[-1], self.texts).append(data)

    def handle_comment(self, data):
        raise AssertionError("a comment: " + data)

    def handle_pi(self, data):
        raise AssertionError("an instruction: " + data)


def check_page(text):
    """A page that has its form; what it shows."""
    found = Checked(text)
    assert len(found.scripts) == 1 and text.count("<script") == 1
    digest = base64.b64encode(hashlib.sha256(found.scripts[0].encode()).digest()).decode()
    assert "default-src 'none'" in found.policy and "script-src 'sha256-%s'" % digest in found.policy
    for character in text:
        assert character.isprintable() or character in "\n\u202f", "a character that can't be seen: U+%04X %s" % (
            ord(character),
            unicodedata.name(character, ""),
        )
    return found


def check_hostile():
    found = check_page(hard_texts.page_of("hostile"))
    for value in hard_texts.HOSTILE:
        bytes_of = value if isinstance(value, bytes) else value.encode()
        assert markup.spelled(bytes_of)[0] in found.texts, value


def check_spelling():
    """Two values are never shown alike: what is spelled is marked as such, and the spelling gives the bytes back."""
    for value in [b"\\x41", b"A", b"\xff", b"\\xff", "\u202e".encode(), b"\\u{202e}", b" a", b"a ", b"a  b", b"a b", b"", b"\x7f", "\u00a0".encode()]:
        text, plain = markup.spelled(value)
        assert text.encode() == value if plain else re.fullmatch(r"([!-\[\]-~]|\\x[0-9a-f]{2}|\\u\{[0-9a-f]+\}|[^\x00-\x7f])*", text)
    assert markup.spelled(b"\\xff") == ("\\xff", True) and markup.spelled(b"\xff") == ("\\xff", False)
    assert 'class="raw"' in markup.shown(b"\xff") and 'class="raw"' not in markup.shown(b"\\xff")
    assert markup.element("a", "<b>", href='"><script>') == "<a href=\"&quot;&gt;&lt;script&gt;\">&lt;b&gt;</a>"


def numbers_of(texts):
    return {int(text.replace("\u202f", "")) for text in texts if re.fullmatch(r"[\d\u202f]+", text)}


def check_numbers():
    """The numbers of the tiles are those of the text, and the areas of one level fill the plot in proportion to reports."""
    summary = epoch_summary.summarize(star_text.lines(hard_texts.CASES["five_hundred"].splitlines(keepends=True)), hard_texts.PLAN)
    found = check_page(hard_texts.page_of("five_hundred"))
    assert {summary.rows, summary.opened, summary.outcome("few"), 9} <= numbers_of(found.texts)
    plot = hard_texts.page_of("five_hundred").split('class="map wide"')[1].split('class="map narrow"')[0]
    boxes = re.findall(r'fill-opacity="0.2" class="box" x="[\d.]+" y="[\d.]+" width="([\d.]+)" height="([\d.]+)"><title>([^<]+)', plot)
    areas = {title: float(width) * float(height) for width, height, title in boxes}
    assert len(areas) == len(summary.root.children) == 40
    for child in summary.root.children:
        area = areas["%s: %s" % (child.value.decode(), markup.number(child.members))]
        assert abs(area / (1080 * 480) - child.members / summary.rows) < 0.002, child


def check_left_out():
    """Of 6,000 prefixes 5,000 are drawn, and the page says how many are not."""
    found = check_page(hard_texts.page_of("left_out"))
    text = " ".join(found.texts)
    assert "1\u202f000 beyond the greatest 5\u202f000" in text and "5\u202f000 are left out" in text
    summary = epoch_summary.summarize(star_text.lines(hard_texts.CASES["left_out"].splitlines(keepends=True)))
    assert (summary.undrawn, len(summary.groups), summary.opened) == (1_000, 5_000, 6_000)
    assert summary.root.undrawn + sum(child.members for child in summary.root.children) + summary.root.shut == summary.rows


def check_others():
    """Groups with other thresholds are in no plot and in no list but their own."""
    text = hard_texts.page_of("other_thresholds")
    check_page(text)
    before, after = text.split("Opened with other thresholds")
    assert "evil" not in before and "buy now" not in before and "evil" in after.split("Refused at the door")[0]
    assert "evil" not in after.split("All opened prefixes")[1]


def large_texts():
    """The widest and the deepest texts that 131,072 reports can make."""
    yield "65,536 first values", [("open w%06d~2 points=2 agree=2 members=2\n" % i) for i in range(65_536)], [
        "level 0 opened=65536 few=0 noline=0 badvalue=0\n"
    ]

    def deepest():
        tails = ["".join("/" + "v" * 20 + "%d~2~2" % j for j in range(depth)) for depth in range(16)]
        for i in range(65_536):
            for tail in tails:
                yield "open w%06d~2~2%s points=2 agree=2 members=2\n" % (i, tail)

    yield "65,536 on each of 16 levels", deepest(), ["level %d opened=65536 few=0 noline=0 badvalue=0\n" % i for i in range(16)]


def check_large():
    for name, groups, levels in large_texts():
        with tempfile.TemporaryFile() as file:
            file.writelines(line.encode() for line in groups)
            file.write("".join(levels + ["records=131072 rows=131072 refused=0\n"]).encode())
            file.seek(0)
            start = time.process_time()
            text = page.epoch_page(epoch_summary.summarize(star_text.lines(file)), hard_texts.about("one"))
            spent = time.process_time() - start
        size, peak = len(text.encode()), resource.getrusage(resource.RUSAGE_SELF).ru_maxrss / 1024
        print("%s: a page of %.1f MB in %.1f s of processor, at most %.0f MB of memory" % (name, size / 1e6, spent, peak))
        assert spent < 60 and size < 5e6 and peak < 1024
        check_page(text)


def main():
    for name in hard_texts.CASES:
        check_page(hard_texts.page_of(name))
    check_page(page.index_page(hard_texts.weeks(), [("1.txt", "<b>line 1</b>")]))
    check_page(page.index_page([]))
    check_hostile()
    check_spelling()
    check_numbers()
    check_left_out()
    check_others()
    print("pages: %d hard texts and 2 pages of weeks" % len(hard_texts.CASES))
    if "--large" in sys.argv:
        check_large()


if __name__ == "__main__":
    main()
