"""Books: which frames of level 0 of one epoch were received, and how often.

Written from docs/FORMATS.md, chapters "Books" and "What `book`, `merge` and `openbook` print".
"""

from collections import Counter

from shared import MOST_RECORDS, TOO_MANY, Fault, Reader, Record, Refusal, read_frame

MOST_BYTES = 1_074_549_760


class Book:
    """How often each frame came, and how many other records there were."""

    def __init__(self, epoch):
        self.epoch = epoch
        self.dropped = 0
        self.counts = Counter()

    def total(self):
        """How many records the book counts."""
        return self.dropped + sum(self.counts.values())

    def add(self, other):
        """Adds what another book of the epoch counts."""
        self.dropped += other.dropped
        self.counts.update(other.counts)

    def records(self):
        """The records of the book's frames, in ascending order."""
        return [Record(data) for data in sorted(self.counts) for _ in range(self.counts[data])]


def is_outer_frame(data, epoch):
    """Whether bytes are a frame of an epoch and of level 0."""
    try:
        frame = read_frame(data)
    except Fault:
        return False
    return frame.epoch == epoch and frame.level == 0


def book_of(records, epoch):
    """The book of records."""
    book = Book(epoch)
    for record in records:
        if record.data is not None and is_outer_frame(record.data, epoch):
            book.counts[record.data] += 1
        else:
            book.dropped += 1
    return book


def write_book(book):
    """The bytes of a book."""
    parts = [b"STARBOOK\x01"]
    parts += [number.to_bytes(4, "big") for number in (book.epoch, book.dropped, len(book.counts))]
    for data in sorted(book.counts):
        parts.append(book.counts[data].to_bytes(4, "big"))
        parts.append(len(data).to_bytes(2, "big") + data)
    return b"".join(parts)


def read_book(data, start):
    """The book that begins at start, and the place behind it; else the fault."""
    reader = Reader(data, start)
    if reader.take(8) != b"STARBOOK":
        raise Fault("Magic", 0)
    reader.number_within(1, 1, 1, "Version")
    book = Book(reader.number(4))
    book.dropped = reader.number_within(4, 0, MOST_RECORDS, "Count")
    left = MOST_RECORDS - book.dropped
    last = b""
    for _ in range(reader.number(4)):
        count = reader.number_within(4, 1, left, "Count")
        left -= count
        length = reader.number(2)
        place = reader.place()
        frame = reader.take(length)
        if not is_outer_frame(frame, book.epoch):
            raise Fault("Frame", place)
        if frame <= last:
            raise Fault("Order", place)
        book.counts[frame] = count
        last = frame
    return book, reader.position


def sum_of_books(data, epoch):
    """The sum of the books that stand one behind the other."""
    if len(data) > MOST_BYTES:
        raise TOO_MANY
    result = Book(epoch)
    place = number = 0
    while place < len(data):
        try:
            book, place = read_book(data, place)
        except Fault as fault:
            raise Refusal(10, f"bad book {number}: {fault.kind} {fault.place}") from fault
        if book.epoch != epoch:
            raise Refusal(11, f"book {number}: epoch {book.epoch}")
        result.add(book)
        if result.total() > MOST_RECORDS:
            raise TOO_MANY
        number += 1
    return result
