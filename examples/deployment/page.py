"""Pages for people: one for each epoch and one for all. Each is a whole file of HTML with plots in SVG, and loads nothing.

Values were sent by anyone. `markup` escapes them; besides, the policy of a page lets no script run but the one whose checksum it has.
"""
import base64
import hashlib
import os
from dataclasses import dataclass
from typing import Optional, Tuple

from markup import Markup, counted, element, escaped, joined, number, percent, shown
from plots import COLOURS, line_plot, treemaps

HERE = os.path.dirname(os.path.abspath(__file__))
MOST_ROWS = 1_000  # of the table of prefixes
WEEKS_BESIDE = 8  # columns of the table of weeks


def _beside(name):
    with open(os.path.join(HERE, name), encoding="utf-8") as file:
        return Markup(file.read())


STYLE, SCRIPT = _beside("page.css"), _beside("page.js")
POLICY = (
    "default-src 'none'; style-src 'unsafe-inline'; script-src 'sha256-%s'; img-src data:; form-action 'none'; base-uri 'none'"
    % base64.b64encode(hashlib.sha256(SCRIPT.encode()).digest()).decode()
)


@dataclass
class About:
    """What a page says besides the text. `door` has the records that came in that week and weren't new, by outcome; None if that isn't known."""

    epoch: int
    name: str  # of the week
    made: str  # when the text was made
    closed: bool  # no report of the epoch was taken any more
    names: Tuple[str, ...] = ()  # of the levels
    door: Optional[dict] = None
    text_name: str = ""
    limit: int = 131_072

    def level(self, level):
        return self.names[level] if level < len(self.names) else "level %d" % level

    def at_the_door(self):
        """How many records the collector didn't keep, without those that it had already; a dash if that isn't known."""
        return "\u2014" if self.door is None else sum(n for outcome, n in self.door.items() if outcome != "known")


def document(title, *body):
    """A whole page."""
    head = [element("title", title), element("style", STYLE)]
    metas = Markup(
        '<meta charset="utf-8"><meta name="viewport" content="width=device-width, initial-scale=1">'
        '<meta http-equiv="Content-Security-Policy" content="%s"><meta name="referrer" content="no-referrer"><link rel="icon" href="data:,">'
        % escaped(POLICY)
    )
    return "<!doctype html>\n" + element("html", metas, *head, element("main", *body), element("script", SCRIPT), lang="en") + "\n"


def section(title, *inner, class_=None):
    return element("section", element("h2", title), *inner, class_=class_)


def quiet(*inner, last=False):
    return element("p", *inner, class_="quiet last" if last else "quiet")


def tiles(pairs):
    return element("div", *(element("div", element("b", number(n) if isinstance(n, int) else n), what) for n, what in pairs), class_="tiles")


def cells(row, name="td"):
    """A row of a table: numbers to the right."""
    return element("tr", *(element(name, number(one) if isinstance(one, int) else one, class_="n" if isinstance(one, int) else None) for one in row))


def table(heads, rows, class_=None):
    """A table. A head that begins with # is that of numbers."""
    top = element("tr", *(element("th", head.lstrip("#"), class_="n" if head[0] == "#" else None) for head in heads))
    return element("table", element("thead", top), element("tbody", *map(cells, rows)), class_=class_)


def lead(about):
    state = "" if about.closed else " \u00b7 reports of this week are still taken"
    return element(
        "p",
        about.name[:1].upper() + about.name[1:],
        " \u00b7 epoch %d \u00b7 made %s%s \u00b7 " % (about.epoch, about.made, state),
        element("a", "all weeks", href="index.html"),
        class_="lead",
    )


def warnings(summary, about):
    """What an operator has to know before believing the numbers: pairs of a headline and a sentence or two."""
    found = [
        (not about.closed, "Not final.", "Reports of this week are still taken, so these numbers grow, and groups that are shut now may open."),
        (
            summary.outcome("noline"),
            "No line: %s.",
            "They have enough points and stay shut because too many of their shares are wrong. Someone may be keeping them shut.",
        ),
        (summary.outcome("badvalue"), "Bad value: %s.", "Their key opens no value that fits it, so their clients don't make reports as agreed."),
        (
            summary.wrong_points,
            "Wrong shares: %s.",
            "Some of the points of each are wrong: in the table below, it has fewer agreeing points than points.",
        ),
        (
            summary.opened_other,
            "Other thresholds: %s.",
            "Their clients set other thresholds than this epoch's. A small threshold lets few clients put a text on this page.",
        ),
    ]
    for n, headline, why in found:
        if n:
            yield headline % counted(n, "group") if "%" in headline else headline, " " + why
    if summary.records >= 0.8 * about.limit:
        yield "Nearly full.", " The epoch has %s records, and %s are possible." % (number(summary.records), number(about.limit))


def warning_box(summary, about):
    said = [element("li", element("b", what), why) for what, why in warnings(summary, about)]
    return section("Look at this first", element("ul", *said), class_="warn") if said else ""


def at_a_glance(summary):
    kinds = [(summary.opened_other, "%s with other thresholds"), (summary.undrawn, "%%s beyond the greatest %s" % number(len(summary.groups)))]
    kinds = " and ".join(words % number(n) for n, words in kinds if n)
    left = " Plain grey areas are opened prefixes that aren't drawn: %s." % kinds if kinds else ""
    return section(
        "At a glance",
        quiet(
            "Each box is an opened prefix, inside the prefix that it continues; its area is in proportion to its reports. "
            "Colours only tell first values apart. "
            "Hatched areas are reports for which nothing was opened one level down: that value stayed shut, or they end there.",
            left,
        ),
        treemaps(summary),
    )


def bar(node, whole, top, deepest, hue):
    """One line: name, bar, numbers."""
    shut = 0 if deepest else node.shut
    other, undrawn = node.below_other, node.undrawn
    solid = node.members - shut - other - undrawn
    track = [element("span", class_="full", style="width:%.3f%%;background:%s" % (100 * solid / top, hue))]
    track += [element("span", class_=kind, style="width:%.3f%%" % (100 * n / top)) for n, kind in ((other + undrawn, "plain"), (shut, "hatch")) if n]
    name = element(
        "span", element("i", "\u203a" if node.children else ""), shown(node.value), class_="name l%d" % node.level if node.level else "name"
    )
    words = element("span", element("b", number(node.members)), " %s, from %d on" % (percent(node.members, whole), node.threshold), class_="number")
    return element("div", name, element("div", *track, class_="track"), words, class_="bar")


def bars(node, top, depth, hue=""):
    """The groups below a node; those below them are seen after a click."""
    for place, child in enumerate(node.children):
        colour = hue or COLOURS[place % len(COLOURS)]
        line = bar(child, node.members, top, child.level + 1 >= depth, colour)
        if child.children:
            opened = not hue and len(node.children) <= 3 and len(child.children) <= 12
            yield element("details", element("summary", line), element("div", *bars(child, top, depth, colour), class_="below"), open=opened)
        else:
            yield line
    if node.undrawn and node.path:
        yield element("p", "and %s in opened prefixes that are left out" % counted(node.undrawn, "report"), class_="quiet")


def value_by_value(summary):
    root = summary.root
    looks = [("full", "a deeper value opened, or the last level"), ("hatch", "nothing deeper opened")]
    looks += [("plain", "opened, not listed here")] if summary.undrawn or summary.opened_other else []
    key = [element("span", element("i", class_=look, style="background:" + COLOURS[0] if look == "full" else None), what) for look, what in looks]
    rest = [(root.undrawn, "have a first value that opened and is left out here"), (root.shut, "have a first value that didn't open")]
    rest = [quiet(counted(n, "report"), " ", what.replace("have", "has", 1) if n == 1 else what, ".", last=True) for n, what in rest if n]
    return section(
        "Value by value",
        quiet(
            "Click a line to see the values below it. Each number counts the reports of a prefix; the percentage is of the reports one level up. "
            "\u201cfrom\u201d gives the number of reports from which on the value may be learned: its threshold."
        ),
        element("p", *key, class_="key"),
        *bars(root, max(child.members for child in root.children), len(summary.levels)),
        *rest,
        class_="bars",
    )


def nothing_opened(summary):
    return section(
        "Nothing opened",
        quiet(
            "There were no reports of this epoch."
            if not summary.rows
            else "No value was reported by as many clients as its threshold requires, so there is nothing to show. This is by design.",
            last=True,
        ),
    )


def shut_groups(summary, about):
    rows = [(about.level(level.level), level.opened, level.few, level.noline, level.badvalue) for level in summary.levels]
    return section(
        "What stayed shut",
        quiet("A group is all reports with the same value below the same opened prefix. What a shut group holds stays unknown."),
        table(["level", "#opened", "#below threshold", "#no line", "#bad value"], rows),
    )


def path_of(node, about=None):
    """The values of a path as HTML. The last is whole; long ones above it are cut."""
    steps = [shown(step.value if len(step.value) < 33 else step.value[:24] + "\u2026".encode()) for step in node.path[:-1]]
    return joined(sum(([step, " / "] for step in steps), []) + [shown(node.value)])


def other_thresholds(summary, about):
    rows = [(path_of(node), "%d%s" % (node.threshold, ", version 2" if node.path[-1].version == 2 else ""), node.members) for node in summary.others]
    left = " The greatest %s:" % number(len(rows)) if summary.opened_other > len(rows) else ""
    return section(
        "Opened with other thresholds",
        quiet("These groups, or groups above them, don't have the thresholds of this epoch, so the lists and plots above leave them out.", left),
        table(["prefix", "opens from", "#reports"], rows),
    )


STAGES = {None: "before any group"}
NAMES = {
    "WrongEpoch": "a report of another epoch",
    "WrongLevel": "a report of another level",
    "WrongVersion": "a report of another version inside",
    "Seal": "the seal doesn't fit",
    "BodyTail": "bytes follow its last layer",
    "BodyKind": "its body is of no known kind",
    "CutLength": "the stream was cut",
    "CutRecord": "the stream was cut",
}


def refused_records(summary, about):
    rows = [
        (STAGES.get(stage) or "in a group of " + about.level(stage), joined([name, ": " + NAMES[name] if name in NAMES else ""]), n)
        for (stage, name), n in sorted(summary.refused.items(), key=lambda item: (-item[1], str(item[0])))
    ]
    return section("Refused when the reports were opened", table(["where", "why", "#records"], rows))


DOOR = {
    "no_frame": "not a report",
    "other_level": "a report of another level",
    "other_epoch": "of an epoch that isn't open",
    "other_version": "another version than its epoch's",
    "other_threshold": "another first threshold than its epoch's",
    "other_layers": "another number of layers than its epoch's",
    "full": "the epoch was full, so it wasn't kept",
}


def at_the_door(about):
    if about.door is None:
        return section("Refused at the door", quiet("What the collector refused in this week isn't known here.", last=True))
    told = quiet(
        "The collector counts what it refuses by the week in which it came, and keeps none of its bytes. "
        "So these records may have been meant for another week."
    )
    rows = [(DOOR.get(why, why), n) for why, n in sorted(about.door.items(), key=lambda item: (-item[1], item[0])) if n and why != "known"]
    again = about.door.get("known", 0)
    again = quiet(counted(again, "report"), " arrived again and " + ("is" if again == 1 else "are") + " counted once.", last=True) if again else ""
    return section("Refused at the door", told, table(["why", "#records"], rows) if rows else quiet("Nothing was refused.", last=True), again)


def extra_bytes(summary, about):
    rows = [(str(extra.record), about.level(extra.level), shown(extra.value)) for extra in summary.extras]
    first = " The first %s:" % number(len(rows)) if summary.extra_count > len(rows) else ""
    return section("Extra bytes", quiet(counted(summary.extra_count, "report"), " carried some.", first), table(["record", "level", "bytes"], rows))


def all_prefixes(summary, about):
    heads = [("prefix", 0), ("level", 1), ("opens from", 1), ("reports", 1), ("points", 1), ("agree", 1)]
    top = element(
        "tr",
        *(
            element("th", element("button", name), class_="n" if many else None, aria_sort="descending" if name == "reports" else None)
            for name, many in heads
        ),
    )
    rows = [(path_of(node), node.level, node.threshold, node.members, node.points, node.agree) for node in summary.groups[:MOST_ROWS]]
    left = summary.opened - summary.opened_other - len(rows)
    told = (
        " The table has the greatest %s; %s left out, and the text has all." % (number(len(rows)), "1 is" if left == 1 else number(left) + " are")
        if left
        else ""
    )
    return section(
        "All opened prefixes" if not left else "The greatest prefixes",
        quiet(
            element("i", "Reports"),
            " counts every report of the prefix, ",
            element("i", "points"),
            " those that count towards the threshold, and ",
            element("i", "agree"),
            " the points that fit together. Click a column to sort.",
            told,
        ),
        element("input", type="search", placeholder="show prefixes that contain \u2026", aria_label="show prefixes that contain"),
        element("table", element("thead", top), element("tbody", *map(cells, rows)), class_="all"),
    )


def epoch_page(summary, about):
    """The page of one epoch."""
    body = [
        element("h1", "What was reported"),
        lead(about),
        tiles(
            [
                (summary.rows, "reports counted"),
                (summary.opened, "prefixes opened"),
                (summary.outcome("few"), "groups below their threshold"),
                (summary.refusals, "of %s refused when opened" % counted(summary.records, "record")),
                (about.at_the_door(), "records refused at the door"),
            ]
        ),
        warning_box(summary, about),
    ]
    body += [at_a_glance(summary), value_by_value(summary)] if summary.root.children else [nothing_opened(summary)]
    body += [shut_groups(summary, about)] if summary.levels else []
    body += [other_thresholds(summary, about)] if summary.opened_other else []
    body += [refused_records(summary, about)] if summary.refused else []
    body += [at_the_door(about)]
    body += [extra_bytes(summary, about)] if summary.extra_count else []
    body += [all_prefixes(summary, about)] if summary.groups else []
    if about.text_name:
        body.append(
            quiet(
                "Every number of the groups is in ",
                element("a", "the text that star_tool printed", href=about.text_name),
                ", which star_text.py turns into JSON or CSV.",
            )
        )
    return document("%s, epoch %d" % (about.name, about.epoch), *body)


@dataclass
class Week:
    """What the page of all epochs says about one of them. `first` has its greatest first values: pairs of a Step and a number of reports."""

    about: About
    rows: int
    records: int
    opened: int
    few: int
    refused: int
    first: list


def week_of(summary, about, most=40):
    """An epoch in short."""
    first = [(child.path[0], child.members) for child in summary.root.children[:most]]
    return Week(about, summary.rows, summary.records, summary.opened, summary.outcome("few"), summary.refusals, first)


def series(weeks):
    """For each first value its reports by epoch, the greatest sum first."""
    found = {}
    for week in weeks:
        for step, members in week.first:
            found.setdefault(step, []).append((week.about.epoch, members))
    return sorted(found.items(), key=lambda item: (-sum(n for _, n in item[1]), item[0]))


def over_time(weeks, values):
    first, last = weeks[0].about.epoch, weeks[-1].about.epoch
    plots = [(element("b", "All reports"), [(week.about.epoch, week.rows) for week in weeks], "currentColor")]
    plots += [(shown(step.value), pairs, COLOURS[i % len(COLOURS)]) for i, (step, pairs) in enumerate(values[:8])]
    drawn = [
        element(
            "div",
            element("p", name, element("span", " at most %s" % number(max(n for _, n in pairs)), class_="soft")),
            line_plot(pairs, first, last, colour),
        )
        for name, pairs, colour in plots
    ]
    return section(
        "Over time",
        quiet(
            "Each plot has its own scale, from zero. A gap is a week in which the value didn't open, or for which there is no text; it isn't zero."
        ),
        element("div", *drawn, class_="plots"),
    )


def weeks_beside(weeks, values):
    """The first values of the last weeks beside each other, the newest week first."""
    some = weeks[: -WEEKS_BESIDE - 1 : -1]
    heads = [element("th", "value")] + [element("th", week.about.name.split(" of ")[0], class_="n", title=week.about.name) for week in some]
    body = []
    for step, pairs in values[:20]:
        members = dict(pairs)
        row = [element("td", _share(members.get(week.about.epoch), week), class_="n") for week in some]
        body.append(element("tr", element("td", shown(step.value)), *row))
    return section(
        "Weeks beside each other",
        quiet(
            "Reports of a first value, and their percentage of all reports of the week, the newest first. "
            "A dash: the value didn't open, or isn't among the 40 greatest of its week."
        ),
        element("table", element("thead", element("tr", *heads)), element("tbody", *body)),
    )


def _share(members, week):
    if members is None:
        return "\u2013"
    return joined([number(members), element("span", " " + percent(members, week.rows), class_="soft")])


def list_of_weeks(weeks, preview):
    rows = []
    for week in ([preview] if preview else []) + weeks[::-1]:
        about = week.about
        name = joined(
            [element("a", about.name, href=about.text_name.replace("txt", "html")), "" if about.closed else element("span", " so far", class_="soft")]
        )
        rows.append((name, str(about.epoch), week.rows, week.opened, week.few, week.refused, about.at_the_door(), about.made))
    return section("Weeks", table(["week", "epoch", "#reports", "#opened", "#below threshold", "#refused", "#at the door", "made"], rows))


def index_page(weeks, unreadable=(), preview=None):
    """The page of all epochs: weeks in ascending order, the names of files that couldn't be read with what is wrong, and the week that isn't over."""
    body = [element("h1", "Telemetry by week"), element("p", counted(len(weeks), "week"), ", the newest first." if weeks else ".", class_="lead")]
    if unreadable:
        items = [element("li", element("b", name), ": ", why) for name, why in unreadable]
        body.append(
            section("Look at this first", quiet("These texts can't be read, so their weeks are missing here:"), element("ul", *items), class_="warn")
        )
    values = series(weeks)
    body += [over_time(weeks, values)] if len(weeks) > 1 else []
    body += [weeks_beside(weeks, values)] if values else []
    body += [list_of_weeks(weeks, preview)] if weeks or preview else []
    if not weeks:
        body.append(section("No week yet", quiet("The page of a week is made once the week is over and its late days are past.", last=True)))
    return document("Telemetry by week", *body)
