"""A client of nested STAR: `client.py make` turns a table into the stream of its reports.

Written from docs/FORMATS.md, chapters "The client" and "The table".
"""

import os
import re
import struct

from commands import EPOCH, THRESHOLDS, Verb, main, seed, version
from shared import (
    NO_PARENT,
    TOO_MANY,
    Context,
    Frame,
    Refusal,
    crypt_body,
    keys_of,
    keystream,
    open_box,
    polynomials_of,
    seal_of,
    value_at,
    write_frame,
    write_record,
)

MOST_TABLE_BYTES = 134_217_728
MOST_TABLE_ROWS = 65_536
BYTE_ORDER_MARK = b"\xef\xbb\xbf"
UP_TO_SEPARATOR = re.compile(rb"[^,\r\n]*")


# The table.


def read_quoted(text, place):
    """The bytes behind an opening quote, and the place behind the quote that closes them."""
    held = b""
    while True:
        quote = text.find(b'"', place)
        if quote < 0:
            return held + text[place:], len(text)
        held += text[place:quote]
        place = quote + 1
        if text[place : place + 1] != b'"':
            return held, place
        held += b'"'
        place += 1


def read_cell(text, place):
    """The cell that begins at a place, and the place where it ends."""
    quoted = b""
    if text[place : place + 1] == b'"':
        quoted, place = read_quoted(text, place + 1)
    end = UP_TO_SEPARATOR.match(text, place).end()
    return quoted + text[place:end], end


def read_line(text, place):
    """The cells of the line that begins at a place, and the place where it ends."""
    cells = []
    while True:
        cell, place = read_cell(text, place)
        cells.append(cell)
        if text[place : place + 1] != b",":
            return cells, place
        place += 1


def read_table(text):
    """The records of a table, each a list of cells."""
    if len(text) > MOST_TABLE_BYTES:
        raise TOO_MANY
    records = []
    place = len(BYTE_ORDER_MARK) if text.startswith(BYTE_ORDER_MARK) else 0
    while place < len(text):
        if text[place] in b"\r\n":
            place += 1
        else:
            cells, place = read_line(text, place)
            records.append(cells)
    if len(records) > MOST_TABLE_ROWS:
        raise TOO_MANY
    return records


def bad_column(cells, width, version):
    """The first column at which a record is bad, or None; width counts the thresholds."""
    for column in range(width):
        if column >= len(cells) or not 1 <= len(cells[column]) <= 64:
            return column
    if version == 1:
        return width if len(cells) > width else None
    if len(cells) == width or len(cells[width]) > 255:
        return width
    return width + 1 if len(cells) > width + 1 else None


def read_rows(text, width, version):
    """The values and the extra bytes of each row."""
    records = read_table(text)
    for number, cells in enumerate(records):
        column = bad_column(cells, width, version)
        if column is not None:
            raise Refusal(7, f"bad table: row {number} column {column}")
    return [(cells[:width], b"".join(cells[width:])) for cells in records]


# The report.


def coins_of(seed, number, layers):
    """The point and the nonce of each layer of a client."""
    stream = keystream(seed, struct.pack("<3I", 0, number, 0), 20 * layers)
    coins = []
    for layer in range(layers):
        part = stream[20 * layer : 20 * layer + 20]
        coins.append((1 + int.from_bytes(part[:8], "big") % 2**60, part[8:]))
    return coins


def contexts_of(version, epoch, thresholds, values):
    """The context of each layer."""
    contexts = []
    parent = NO_PARENT
    for level, (threshold, value) in enumerate(zip(thresholds, values)):
        contexts.append(Context(version, parent, epoch, level, threshold, value))
        parent = contexts[-1].check
    return contexts


def sealed(context, frame):
    """The frame with its seal."""
    return frame._replace(seal=seal_of(keys_of(context.version, context.key), frame))


def make_frame(context, x, nonce, plain_body):
    """The frame of one layer."""
    keys = keys_of(context.version, context.key)
    frame = Frame(
        version=context.version,
        level=context.level,
        epoch=context.epoch,
        threshold=context.threshold,
        x=x,
        shares=tuple(value_at(polynomial, x) for polynomial in polynomials_of(context)),
        tag=context.tag,
        check=context.check,
        box=open_box(context.version, context.key, context.value),
        nonce=nonce,
        body=crypt_body(keys, nonce, plain_body),
        seal=b"",
    )
    return sealed(context, frame)


def make_report(contexts, coins, extra):
    """The frame of layer 0, which holds all others."""
    plain_body = b"\x00" + extra
    for context, (x, nonce) in zip(reversed(contexts), reversed(coins)):
        frame = make_frame(context, x, nonce, plain_body)
        plain_body = b"\x01" + write_frame(frame)
    return frame


def report_of(version, epoch, thresholds, seed, number, values, extra=b""):
    """The bytes of the report of a client by its number."""
    contexts = contexts_of(version, epoch, thresholds, values)
    return write_frame(make_report(contexts, coins_of(seed, number, len(values)), extra))


def make(text, epoch, thresholds, seed, version):
    """The stream of the reports of a table; without a seed one is drawn."""
    rows = read_rows(text, len(thresholds), version)
    seed = seed or os.urandom(32)
    return b"".join(
        write_record(report_of(version, epoch, thresholds, seed, number, values, extra))
        for number, (values, extra) in enumerate(rows)
    )


VERBS = {"make": Verb(make, EPOCH | THRESHOLDS | {"seed": (seed, None), "version": (version, 1)})}

if __name__ == "__main__":
    main(VERBS)
