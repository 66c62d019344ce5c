"""Streams for trials. Written from docs/FORMATS.md, "The generator" and "What `gen` prints"."""

import hashlib
import struct

from client import coins_of, contexts_of, make_report, sealed
from reveal import Reveal, last_line, level_lines, lines_of
from shared import P, keystream, read_records, text_of_lines, write_frame, write_record

THRESHOLDS = [20, 10]


def generated_report(draws, seed, number, liars):
    """The report of one client of the generator."""
    nonce = struct.pack("<3I", 0, number, 0)
    w0, w1, w2, w3 = struct.unpack(">4Q", keystream(draws, nonce, 32))
    values = [b"c%d" % min(w0 % 20, w1 % 20), b"t%d" % (w2 % 10)]
    contexts = contexts_of(1, 1, THRESHOLDS, values)
    frame = make_report(contexts, coins_of(seed, number, 2), b"")
    if w3 % 100 < liars:
        first, *others = frame.shares
        frame = sealed(contexts[0], frame._replace(shares=((first + 1) % P, *others)))
    return write_record(write_frame(frame))


def generated_stream(number, reports, liars):
    """The generator's stream."""
    draws = hashlib.sha256(b"STARGENA" + number.to_bytes(4, "big")).digest()
    seed = hashlib.sha256(b"STARGENB" + number.to_bytes(4, "big")).digest()
    return b"".join(generated_report(draws, seed, i, liars) for i in range(reports))


def gen(number, reports, liars, workers):
    """What `gen` prints, whatever the number of workers."""
    found = Reveal(read_records(generated_stream(number, reports, liars)), 1)
    digest = hashlib.sha256(text_of_lines(lines_of(found))).hexdigest()
    return text_of_lines([*level_lines(found), last_line(found), f"text={digest}"])
