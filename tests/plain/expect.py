"""What a table's stream will reveal. Written from docs/FORMATS.md, "What `expect` prints"."""

from collections import Counter

from client import coins_of, contexts_of, read_rows
from reveal import text_of_path
from shared import open_box, text_of_lines


def fronts_of(values):
    """The fronts of a list of values, from one value on, as tuples."""
    return [tuple(values[:length]) for length in range(1, len(values) + 1)]


def prefixes_of(rows, thresholds):
    """How many rows begin with each prefix of a table."""
    counts = Counter(front for values in rows for front in fronts_of(values))
    enough = {front for front in counts if counts[front] >= thresholds[len(front) - 1]}
    return {front: counts[front] for front in enough if enough.issuperset(fronts_of(front))}


def is_clear(rows, epoch, thresholds, seed):
    """Whether no two rows have one point, or two values one head, where they would clash."""
    fronts_at, points = {}, set()
    for number, values in enumerate(rows):
        contexts = contexts_of(1, epoch, thresholds, values)
        coins = coins_of(seed, number, len(thresholds))
        for front, context, (x, _) in zip(fronts_of(values), contexts, coins):
            box = open_box(1, context.key, context.value)
            head = (front[:-1], context.tag, context.check, box)
            if (front, x) in points or fronts_at.setdefault(head, front) != front:
                return False
            points.add((front, x))
    return True


def expect(text, epoch, thresholds, seed):
    """What `expect` prints."""
    rows = [values for values, _ in read_rows(text, len(thresholds), 1)]
    prefixes = prefixes_of(rows, thresholds)
    lines = []
    for front in sorted(prefixes):
        path = text_of_path((value, k, 1) for value, k in zip(front, thresholds))
        count = prefixes[front]
        lines.append(f"open {path} points={count} agree={count} members={count}")
    clear = "yes" if is_clear(rows, epoch, thresholds, seed) else "no"
    return text_of_lines([*lines, f"prefixes={len(prefixes)} clear={clear}"])
