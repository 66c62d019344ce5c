"""Plots as SVG: areas within areas for one epoch, lines over epochs. Their colours are those of page.css."""
from dataclasses import dataclass, field

from markup import element, fitted, joined, number, spelled

COLOURS = ["#4e79a7", "#f28e2b", "#59a14f", "#b07aa1", "#76b7b2", "#e15759", "#c9a227", "#9c755f", "#d37295", "#6b8e9f"]


def squares(sizes, x, y, w, h):
    """Rectangles of these sizes, the greatest first, that fill one; each is nearly a square (Bruls, Huizing and van Wijk, 2000)."""
    if not sizes or w <= 0 or h <= 0:
        return
    scale, at = w * h / sum(sizes), 0
    while at < len(sizes):
        row = _row([size * scale for size in sizes[at : at + 400]], min(w, h))
        thick, along = sum(row) / min(w, h), 0
        for area in row:
            long = area / thick
            yield (x + along, y, long, thick) if w <= h else (x, y + along, thick, long)
            along += long
        x, y, w, h = (x, y + thick, w, h - thick) if w <= h else (x + thick, y, w - thick, h)
        at += len(row)
        if min(w, h) <= 0:
            return


def _row(areas, short):
    """As many of the areas as make the best row along the short side."""
    total, best = 0, None
    for place, area in enumerate(areas):
        total += area
        worst = max(max(short * short * one / total**2, total**2 / (short * short * one)) for one in (areas[0], area))
        if best is not None and worst > best:
            return areas[:place]
        best = worst
    return areas


@dataclass
class TreeMap:
    """Areas within areas. `least` is the least side of a box that is drawn, in the units of the width."""

    width: float
    height: float
    least: float
    depth: int
    name: str
    drawn: list = field(default_factory=list)

    def svg(self, root):
        """The picture of the groups below the root."""
        self._parts(root, 0, "", (0, 0, self.width, self.height), "")
        hatch = element(
            "pattern",
            element("rect", width=6, height=6, class_="hatch-ground"),
            element("rect", width=2, height=6, class_="hatch-line"),
            id=self.name + "-hatch",
            width=6,
            height=6,
            patternUnits="userSpaceOnUse",
            patternTransform="rotate(45)",
        )
        return element(
            "svg",
            element("defs", hatch),
            *self.drawn,
            viewBox="0 0 %g %g" % (self.width, self.height),
            class_="map " + self.name,
            role="img",
            aria_label="areas of the opened prefixes; the same numbers are in the lists below"
        )

    def _parts(self, node, level, colour, box, above):
        """Fills a box with the parts of a node: its children, what is opened and not drawn, what is of another plan, what stayed shut."""
        parts = [(child.members, child, "") for child in node.children]
        parts += [(members, None, kind) for members, kind in self._rest(node, level) if members > 0]
        parts.sort(key=lambda part: -part[0])
        place = {id(child): i for i, child in enumerate(node.children)} if level == 0 else {}
        for (members, child, kind), rect in zip(parts, squares([part[0] for part in parts], *box)):
            if min(rect[2:]) < self.least:
                continue
            if child is None:
                self._rest_box(members, kind, rect, above)
            else:
                self._box(child, level, COLOURS[place[id(child)] % len(COLOURS)] if level == 0 else colour, rect, above)

    def _rest(self, node, level):
        yield node.undrawn, "opened, too small to be drawn"
        yield node.below_other, "opened with other thresholds"
        if level < self.depth:
            yield node.shut, "not opened"

    def _rest_box(self, members, kind, rect, above):
        x, y, w, h = rect
        look = {"fill": "url(#%s-hatch)" % self.name, "class_": "shut"} if kind == "not opened" else {"class_": "rest"}
        title = element("title", "%s%s: %s" % (above and above + " / ", number(members), kind))
        box = element("rect", title, x="%.1f" % x, y="%.1f" % y, width="%.1f" % w, height="%.1f" % h, rx=2, **look)
        self.drawn.append(box)
        label = "%s %s" % (kind, number(members))
        if h > 24 and fitted(label, w - 14, 11) == label:
            self.drawn.append(
                element("rect", x="%.1f" % (x + 3), y="%.1f" % (y + 3), width="%.1f" % (7 + 6.5 * len(label)), height=17, rx=2, class_="label-ground")
            )
            self.drawn.append(element("text", label, x="%.1f" % (x + 6), y="%.1f" % (y + 15), font_size=11, class_="soft"))

    def _box(self, node, level, colour, rect, above):
        x, y, w, h = rect
        text = spelled(node.value)[0]
        name = (above + " / " if above else "") + (text if len(text) < 41 else text[:40] + "\u2026")
        name = name if len(name) < 121 else "\u2026" + name[-119:]
        size = 13 if level == 0 else 11.5
        label = fitted(text, w - 8, size * (1.13 if level == 0 else 1)) if h > size + 5 else ""
        place = {"x": "%.1f" % x, "y": "%.1f" % y, "width": "%.1f" % w, "height": "%.1f" % h}
        title = element("title", "%s: %s" % (name, number(node.members)))
        self.drawn.append(element("rect", title, rx=2, fill=colour, fill_opacity=(0.2, 0.26, 0.3)[min(level, 2)], class_="box", **place))
        if label:  # an svg within an svg cuts off what is wider than it, whatever a letter's width is
            self.drawn.append(element("svg", title, *self._label(node, label, size, (w, h), level), **place))
        top = size + 6 if label else 2
        self._parts(node, level + 1, colour, (x + 2, y + top, w - 4, h - top - 2), name)

    def _label(self, node, label, size, room, level):
        plain = spelled(node.value)[1]
        yield element("text", label, x=4, y=size + 1.5, font_size=size, font_weight=600 if level == 0 else None, class_=None if plain else "raw")
        count = number(node.members)
        if not node.children and room[1] > 2 * size + 8 and fitted(count, room[0] - 8, 10.5) == count:
            yield element("text", count, x=4, y=2 * size + 3, font_size=10.5, class_="soft")


def treemaps(summary):
    """The areas of an epoch for a wide page and for a narrow one."""
    rows = len(summary.root.children) + max((len(child.children) for child in summary.root.children), default=0)
    depth = len(summary.levels)
    wide = TreeMap(1080, min(480, 120 + 30 * rows), 2.5, depth, "wide").svg(summary.root)
    return joined([wide, TreeMap(350, min(520, 160 + 40 * rows), 3.5, depth, "narrow").svg(summary.root)])


def runs(pairs):
    """The pairs of an epoch and a number as runs of epochs one after the other."""
    found = []
    for epoch, n in pairs:
        if not found or found[-1][-1][0] + 1 != epoch:
            found.append([])
        found[-1].append((epoch, n))
    return found


def line_plot(pairs, first, last, colour, width=330, height=84):
    """A number by epoch, from zero. An epoch without one is a gap: it isn't zero."""
    top = max((n for _, n in pairs), default=1) or 1
    place = lambda epoch, n: (6 + (width - 12) * (epoch - first) / max(1, last - first), height - 14 - (height - 24) * n / top)
    out = [element("path", d="M6 %d H%d" % (height - 14, width - 6), class_="axis")]
    for run in runs(pairs):
        if len(run) > 1:
            out.append(element("polyline", fill="none", stroke=colour, stroke_width=2, points=" ".join("%.1f,%.1f" % place(*pair) for pair in run)))
    for epoch, n in pairs:
        x, y = place(epoch, n)
        out.append(element("circle", element("title", "epoch %d: %s" % (epoch, number(n))), cx="%.1f" % x, cy="%.1f" % y, r=2.6, fill=colour))
    return element(
        "svg", *out, viewBox="0 0 %d %d" % (width, height), class_="line", role="img", aria_label="reports by week, at most %s" % number(top)
    )
