"""What a text says, small enough for a page: its counts, and its greatest groups as a tree. It reads the text line by line."""
import heapq
from collections import Counter
from dataclasses import dataclass, field
from typing import NamedTuple, Optional, Tuple

import star_text

MOST_DRAWN = 5_000  # opened groups on a page
MOST_OTHER = 200  # of those with other thresholds
MOST_EXTRA = 200  # extra bytes


class Plan(NamedTuple):
    """How the clients of an epoch were told to make reports."""

    thresholds: Tuple[int, ...]
    version: int = 1

    def has(self, level, step):
        """Whether a step of a level is one of this plan."""
        return level < len(self.thresholds) and (step.threshold, step.version) == (self.thresholds[level], self.version)


@dataclass
class Node:
    """An opened group; the root, with no path, stands for all reports of the epoch."""

    path: tuple = ()
    points: int = 0
    agree: int = 0
    members: int = 0
    other: bool = False  # it, or a group above it, isn't of the plan
    below: int = 0  # members of the opened groups one level down, and of those among them that aren't of the plan
    below_other: int = 0
    below_count: int = 0
    children: list = field(default_factory=list)

    @property
    def value(self):
        return self.path[-1].value

    @property
    def threshold(self):
        return self.path[-1].threshold

    @property
    def level(self):
        return len(self.path) - 1

    @property
    def shut(self):
        """The members for which nothing opened one level down: their next group stayed shut, or they end here."""
        return self.members - self.below

    @property
    def undrawn(self):
        """The members of opened groups one level down that are of the plan and not among the children."""
        return self.below - self.below_other - sum(child.members for child in self.children)


@dataclass
class Summary:
    """The text of an epoch. `groups`, `others` and `extras` are the first of `opened`, `opened_other` and `extra_count`."""

    root: Node
    groups: list
    others: list
    opened: int
    opened_other: int
    wrong_points: int
    levels: list
    refused: Counter
    extras: list
    extra_count: int
    records: int
    rows: int

    def outcome(self, name):
        """How many groups of all levels had an outcome: opened, few, noline or badvalue."""
        return sum(getattr(level, name) for level in self.levels)

    @property
    def refusals(self):
        return sum(self.refused.values())

    @property
    def undrawn(self):
        """How many opened groups of the plan the page leaves out."""
        return self.opened - self.opened_other - len(self.groups)


class Greatest:
    """The greatest of the groups that were added. A group is never among them without the one above it, which is at least as great."""

    def __init__(self, most):
        self.most, self.count, self._heap = most, 0, []

    def add(self, node):
        self.count += 1
        item = (node.members, -len(node.path), -self.count, node)
        if len(self._heap) < self.most:
            heapq.heappush(self._heap, item)
        elif item > self._heap[0]:
            heapq.heapreplace(self._heap, item)

    def nodes(self):
        """The greatest first."""
        return [item[-1] for item in sorted(self._heap, reverse=True)]


class Tree:
    """Takes opened groups in the order of the text, and keeps the greatest."""

    def __init__(self, plan: Optional[Plan], most):
        self._plan, self._branch = plan, [Node()]
        self.planned, self.others = Greatest(most), Greatest(MOST_OTHER)
        self.wrong_points = 0

    def add(self, opened):
        depth = len(opened.path)
        self._end_below(depth)
        above = self._branch[-1]
        other = above.other or self._plan is not None and not self._plan.has(depth - 1, opened.path[-1])
        above.below += opened.members
        above.below_other += opened.members if other else 0
        above.below_count += 1
        self._branch.append(Node(opened.path, opened.points, opened.agree, opened.members, other))
        self.wrong_points += opened.agree < opened.points

    def _end_below(self, depth):
        while len(self._branch) > depth:
            node = self._branch.pop()
            (self.others if node.other else self.planned).add(node)

    def root(self, rows):
        """The root, with the groups that are kept below it, the greatest first."""
        self._end_below(1)
        root = self._branch[0]
        root.members = rows
        by_path = {(): root}
        for node in self.planned.nodes():
            by_path[node.path] = node
            by_path[node.path[:-1]].children.append(node)
        return root


def summarize(lines, plan=None, most=MOST_DRAWN):
    """The summary of the lines that star_text reads. Without a plan no threshold is another one."""
    tree, levels, refused, extras, extra_count, counts = Tree(plan, most), [], Counter(), [], 0, None
    for line in lines:
        if isinstance(line, star_text.Opened):
            tree.add(line)
        elif isinstance(line, star_text.Level):
            levels.append(line)
        elif isinstance(line, star_text.Refused):
            refused[line.stage, line.name] += 1
        elif isinstance(line, star_text.Extra):
            extra_count += 1
            if extra_count <= MOST_EXTRA:
                extras.append(line)
        else:
            counts = line
    root = tree.root(counts.rows)
    return Summary(
        root,
        tree.planned.nodes(),
        tree.others.nodes(),
        tree.planned.count + tree.others.count,
        tree.others.count,
        tree.wrong_points,
        levels,
        refused,
        extras,
        extra_count,
        counts.records,
        counts.rows,
    )


def of_file(path, plan=None, most=MOST_DRAWN):
    """The summary of a file with a text; NotTheText if it holds none."""
    with open(path, "rb") as file:
        return summarize(star_text.lines(file), plan, most)
