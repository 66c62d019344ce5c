"""The walk from level to level. Written from docs/FORMATS.md, "What a reveal is"."""

from collections import Counter
from typing import NamedTuple

from certificates import Certificate
from decoder import decode_points
from shared import (
    NO_PARENT,
    VERSIONS,
    Context,
    Fault,
    Frame,
    agreeing,
    crypt_body,
    key_of,
    keys_of,
    open_box,
    read_frame,
    seal_of,
    text_of_bytes,
    text_of_step,
)

OUTCOMES = ("opened", "few", "noline", "badvalue")


class Row(NamedTuple):
    """A report of one level: the number of its record, its parent and its frame."""

    number: int
    path: tuple
    parent: bytes
    frame: Frame


class Opened(NamedTuple):
    """An opened group; its path has its own step last."""

    path: tuple
    key: bytes
    agree: int
    members: int
    certificate: Certificate


class Refused(NamedTuple):
    """A refused record: its number, `outer` or the level of its group, and the name."""

    number: int
    stage: str
    name: str


class Reveal:
    """What a stream reveals: gathered level by level."""

    def __init__(self, records, epoch):
        self.epoch = epoch
        self.records = len(records)
        self.opened = []
        self.levels = []
        self.refused = []
        self.extra = []
        rows = self.rows_of_level_0(records)
        self.rows = len(rows)
        while rows:
            rows = self.open_level(rows)
        self.opened.sort(key=lambda group: group.path)
        self.refused.sort()
        self.extra.sort()

    def rows_of_level_0(self, records):
        """The rows of level 0; each other record is refused."""
        rows = []
        for number, record in enumerate(records):
            frame, name, _ = frame_of_record(record)
            if frame and frame.epoch != self.epoch:
                name = "WrongEpoch"
            elif frame and frame.level != 0:
                name = "WrongLevel"
            if name:
                self.refused.append(Refused(number, "outer", name))
            else:
                rows.append(Row(number, (), NO_PARENT, frame))
        return rows

    def open_level(self, rows):
        """Opens the groups of one level; gives the rows of the next."""
        counts = Counter()
        next_rows = []
        for members in groups_of(rows):
            name, group = open_group(members)
            counts[name] += 1
            if name == "opened":
                self.opened.append(group)
                for member in members:
                    next_rows += self.read_member(group, member)
        self.levels.append(counts)
        return next_rows

    def read_member(self, group, member):
        """The row of the next level that a member holds: a list of one or none."""
        level = member.frame.level
        try:
            extra, frame = held_by(group, member)
        except Fault as fault:
            self.refused.append(Refused(member.number, str(level), fault.kind))
            return []
        if extra:
            self.extra.append((member.number, level, extra))
        if frame is None:
            return []
        return [Row(member.number, group.path, member.frame.check, frame)]


def frame_of_record(record):
    """The frame of a record, else the name and the number with which `check` refuses it."""
    if record.data is None:
        return None, record.name, record.number
    try:
        return read_frame(record.data), None, None
    except Fault as fault:
        return None, fault.kind, fault.place


def groups_of(rows):
    """The members of each group."""
    groups = {}
    for row in rows:
        frame = row.frame
        head = (frame.version, frame.threshold, frame.tag, frame.check, frame.box)
        groups.setdefault((row.path, row.parent, head), []).append(row)
    return groups.values()


def points_left(members):
    """The points that count: each x with its shares, in ascending x."""
    shares_at = {}
    for member in members:
        shares_at.setdefault(member.frame.x, set()).add(member.frame.shares)
    return [(x, shares.pop()) for x, shares in sorted(shares_at.items()) if len(shares) == 1]


def open_group(members):
    """The outcome of a group by name, and what was opened."""
    row = members[0]
    frame = row.frame
    points = points_left(members)
    if len(points) < frame.threshold:
        return "few", None
    polynomials = decode_points(points, frame.threshold)
    key = polynomials and key_of([polynomial[0] for polynomial in polynomials])
    if not key:
        return "noline", None
    value = open_box(frame.version, key, frame.box)
    context = Context(frame.version, row.parent, frame.epoch, frame.level, frame.threshold, value)
    if (context.key, context.tag, context.check) != (key, frame.tag, frame.check):
        return "badvalue", None
    path = (*row.path, (value, frame.threshold, frame.version))
    agree = agreeing(polynomials, points)
    certificate = certificate_of(row, points, polynomials)
    return "opened", Opened(path, key, agree, len(members), certificate)


def certificate_of(row, points, polynomials):
    """The certificate of an opened group that has this row."""
    frame = row.frame
    return Certificate(
        version=frame.version,
        level=frame.level,
        epoch=frame.epoch,
        threshold=frame.threshold,
        parent=row.parent,
        tag=frame.tag,
        check=frame.check,
        box=frame.box,
        points=points,
        polynomials=polynomials,
    )


def held_by(group, member):
    """The extra bytes of a member's last layer, and its frame of the next level."""
    frame = member.frame
    keys = keys_of(frame.version, group.key)
    if seal_of(keys, frame) != frame.seal:
        raise Fault("Seal")
    plain_body = crypt_body(keys, frame.nonce, frame.body)
    kind, rest = plain_body[0], plain_body[1:]
    if kind == 0:
        if len(rest) > VERSIONS[frame.version].most_extra_bytes:
            raise Fault("BodyTail")
        return rest, None
    if kind > 1:
        raise Fault("BodyKind")
    return b"", next_frame(frame, rest)


def next_frame(frame, data):
    """The frame of the next level that stands in a plain body."""
    inner = read_frame(data)
    if inner.epoch != frame.epoch:
        raise Fault("WrongEpoch")
    if inner.level != frame.level + 1:
        raise Fault("WrongLevel")
    if inner.version != frame.version:
        raise Fault("WrongVersion")
    return inner


# What `reveal` prints.


def text_of_path(path):
    """A path as it is printed."""
    return "/".join(text_of_step(*step) for step in path)


def level_lines(reveal):
    """The line of each level that has a row."""
    return [
        f"level {level} " + " ".join(f"{name}={counts[name]}" for name in OUTCOMES)
        for level, counts in enumerate(reveal.levels)
    ]


def last_line(reveal):
    """The line that counts records, rows and refusals."""
    return f"records={reveal.records} rows={reveal.rows} refused={len(reveal.refused)}"


def lines_of(reveal):
    """All lines of a reveal."""
    lines = []
    for group in reveal.opened:
        counts = f"points={len(group.certificate.points)} agree={group.agree}"
        lines.append(f"open {text_of_path(group.path)} {counts} members={group.members}")
    lines += level_lines(reveal)
    lines += [f"refused {r.number} {r.stage} {r.name}" for r in reveal.refused]
    lines += [f"aux {i} {level} {text_of_bytes(extra)}" for i, level, extra in reveal.extra]
    return [*lines, last_line(reveal)]
