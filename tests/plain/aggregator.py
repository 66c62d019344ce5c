"""An aggregator of nested STAR: it checks and opens streams of reports, and adds up books.

Written from docs/FORMATS.md. The verbs are check, reveal, gen, expect, book, merge,
openbook, epochs and certify.
"""

from books import book_of, sum_of_books, write_book
from certificates import write_certificate
from commands import EPOCH, REQUIRED, THRESHOLDS, WORKERS, Verb, main, number, seed
from expect import expect
from generator import gen
from reveal import Reveal, frame_of_record, lines_of
from shared import read_records, text_of_lines


# check


def check_line(i, record):
    """The line of a record, and whether it is good."""
    frame, kind, place = frame_of_record(record)
    if frame is None:
        return f"{i} refused {kind} {place}", False
    version = "" if frame.version == 1 else f"version={frame.version} "
    fields = f"level={frame.level} epoch={frame.epoch} k={frame.threshold}"
    lengths = f"box={len(frame.box)} body={len(frame.body)}"
    return f"{i} good {version}{fields} {lengths}", True


def check(stream):
    """What `check` prints."""
    found = [check_line(i, record) for i, record in enumerate(read_records(stream))]
    good = sum(is_good for _, is_good in found)
    last = f"records={len(found)} good={good} refused={len(found) - good}"
    return text_of_lines([*(line for line, _ in found), last])


# reveal, certify and epochs


def reveal(stream, epoch, workers):
    """What `reveal` prints, whatever the number of workers."""
    return text_of_lines(lines_of(Reveal(read_records(stream), epoch)))


def certify(stream, epoch):
    """The certificates of the groups that `reveal` opens."""
    opened = Reveal(read_records(stream), epoch).opened
    return b"".join(write_certificate(group.certificate) for group in opened)


def epochs(stream, workers):
    """What `epochs` prints, whatever the number of workers."""
    records = read_records(stream)
    records_of = {}
    refused = []
    for i, record in enumerate(records):
        frame, kind, _ = frame_of_record(record)
        if frame and frame.level == 0:
            records_of.setdefault(frame.epoch, []).append(record)
        else:
            refused.append(f"refused {i} {kind or 'WrongLevel'}")
    lines = []
    for epoch in sorted(records_of):
        lines += [f"epoch {epoch}", *lines_of(Reveal(records_of[epoch], epoch))]
    last = f"records={len(records)} epochs={len(records_of)} refused={len(refused)}"
    return text_of_lines([*lines, *refused, last])


# book, merge and openbook


def book(stream, epoch):
    """The book of a stream."""
    return write_book(book_of(read_records(stream), epoch))


def merge(data, epoch):
    """The sum of books."""
    return write_book(sum_of_books(data, epoch))


def openbook(data, epoch, workers):
    """What `reveal` prints of the records of the sum."""
    return text_of_lines(lines_of(Reveal(sum_of_books(data, epoch).records(), epoch)))


VERBS = {
    "check": Verb(check, {}),
    "reveal": Verb(reveal, EPOCH | WORKERS),
    "certify": Verb(certify, EPOCH),
    "epochs": Verb(epochs, WORKERS),
    "book": Verb(book, EPOCH),
    "merge": Verb(merge, EPOCH),
    "openbook": Verb(openbook, EPOCH | WORKERS),
    "expect": Verb(expect, EPOCH | THRESHOLDS | {"seed": (seed, REQUIRED)}),
    "gen": Verb(
        gen,
        WORKERS
        | {
            "number": (number(0, 2**32 - 1), REQUIRED),
            "reports": (number(1, 65_536), REQUIRED),
            "liars": (number(0, 100), REQUIRED),
        },
        reads_input=False,
    ),
}

if __name__ == "__main__":
    main(VERBS)
