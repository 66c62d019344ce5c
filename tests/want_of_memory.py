#!/usr/bin/env python3
"""Refuses each request for memory of a run in turn, and looks at how the run ends.

    want_of_memory.py PROGRAM

A shared library, built here by cc and loaded before the C library, counts the calls of malloc, calloc and realloc and refuses one.
Each run of the table RUNS is repeated with the first call refused, the second, and so on, until a run ends with none refused. Each
must end with the run's output and status 0, or with status 6 and nothing on standard output. The last line counts the runs, and
the status is 1 where one ended otherwise. Which call is the nth depends on the threads where several workers run.
"""
import os
import subprocess
import sys
import tempfile

sys.path.insert(0, os.path.join(os.path.dirname(os.path.abspath(__file__)), "plain"))
from client import report_of
from shared import write_record

SHIM = r"""
#define _GNU_SOURCE
#include <dlfcn.h>
#include <errno.h>
#include <stdatomic.h>
#include <stdlib.h>
#include <string.h>
#include <unistd.h>

static atomic_long calls;
static long refused;
static int told_to;
static void *(*next_malloc)(size_t);
static void *(*next_calloc)(size_t, size_t);
static void *(*next_realloc)(void *, size_t);

/* dlsym may ask for memory before the C library's calls are known. */
static char early[65536];
static size_t early_used;

static int is_early(void *at) { return (char *)at >= early && (char *)at < early + sizeof early; }

static void *from_early(size_t size) {
    size = (size + 15) & ~(size_t)15;
    if (early_used + size > sizeof early) return NULL;
    early_used += size;
    return early + early_used - size;
}

__attribute__((constructor)) static void begin(void) {
    next_malloc = dlsym(RTLD_NEXT, "malloc");
    next_calloc = dlsym(RTLD_NEXT, "calloc");
    next_realloc = dlsym(RTLD_NEXT, "realloc");
    told_to = atoi(getenv("TOLD_TO"));
    refused = atol(getenv("REFUSED_CALL"));
    atomic_store(&calls, 0);
}

/* Whether this call is the one to refuse, which it then says to the script. */
static int is_refused(void) {
    if (atomic_fetch_add(&calls, 1) + 1 != refused) return 0;
    if (write(told_to, "refused", 7) != 7) abort();
    errno = ENOMEM;
    return 1;
}

void *malloc(size_t size) {
    if (!next_malloc) return from_early(size);
    return is_refused() ? NULL : next_malloc(size);
}

void *calloc(size_t count, size_t size) {
    if (!next_calloc) return from_early(count * size);
    return is_refused() ? NULL : next_calloc(count, size);
}

void *realloc(void *old, size_t size) {
    if (is_refused()) return NULL;
    if (!is_early(old)) return next_realloc(old, size);
    void *moved = next_malloc(size);
    if (moved) memcpy(moved, old, size);
    return moved;
}
"""


def red(client, epoch=1):
    """The record of the report of `red` under threshold 2, from a client with a seed of zeros."""
    return write_record(report_of(1, epoch, [2], bytes(32), client, [b"red"]))


SEED = "--seed=" + 64 * "0"

# A run: what it is, its words, its input and its output.
# The book of no record for epoch 1, as docs/FORMATS.md lays it out.
EMPTY_BOOK = b"STARBOOK\x01" + bytes([0, 0, 0, 1]) + bytes(8)

RUNS = [
    ("check on the empty input", ["check"], b"", b"records=0 good=0 refused=0\n"),
    ("check on a report, a long record and a cut one", ["check"], red(0) + write_record(bytes(9000)) + b"abc",
     b"0 good level=0 epoch=1 k=2 box=3 body=1\n1 refused TooLong 8192\n2 refused CutLength 3\nrecords=3 good=1 refused=2\n"),
    ("make on one client", ["make", "--epoch", "1", "--thresholds", "2", SEED], b"red\n", red(0)),
    ("make on the empty table", ["make", "--epoch", "1", "--thresholds", "2", SEED], b"", b""),
    ("reveal on one client's report, three times", ["reveal", "--epoch", "1", "--workers", "1"], 3 * red(0),
     b"level 0 opened=0 few=1 noline=0 badvalue=0\nrecords=3 rows=3 refused=0\n"),
    ("reveal on that and another client's, by one worker", ["reveal", "--epoch", "1", "--workers", "1"], 3 * red(0) + red(1),
     b"open red~2 points=2 agree=2 members=4\nlevel 0 opened=1 few=0 noline=0 badvalue=0\nrecords=4 rows=4 refused=0\n"),
    ("reveal on the same, by four", ["reveal", "--epoch", "1"], 3 * red(0) + red(1),
     b"open red~2 points=2 agree=2 members=4\nlevel 0 opened=1 few=0 noline=0 badvalue=0\nrecords=4 rows=4 refused=0\n"),
    ("gen of one report", ["gen", "--number", "0", "--reports", "1", "--liars", "0"], b"",
     b"level 0 opened=0 few=1 noline=0 badvalue=0\nrecords=1 rows=1 refused=0\n"
     b"text=2b1e13f944338ac91b727831632c537af6f3c085c3f52211c2709542bfecabf3\n"),
    ("selftest", ["selftest"], b"", b"".join(b"vector %d ok\n" % i for i in range(1, 8)) + b"vectors=7 ok=7\n"),
    ("expect on two clients", ["expect", "--epoch", "1", "--thresholds", "2", SEED], b"red\nred\n",
     b"open red~2 points=2 agree=2 members=2\nprefixes=1 clear=yes\n"),
    ("book on the empty input", ["book", "--epoch", "1"], b"", EMPTY_BOOK),
    ("merge on two empty books", ["merge", "--epoch", "1"], 2 * EMPTY_BOOK, EMPTY_BOOK),
    ("openbook on an empty book", ["openbook", "--epoch", "1", "--workers", "1"], EMPTY_BOOK, b"records=0 rows=0 refused=0\n"),
    ("certify on one client's report", ["certify", "--epoch", "1"], red(0), b""),
    ("audit on the empty input", ["audit"], b"", b"certs=0 yes=0\n"),
    ("epochs on the reports of two epochs and a cut record", ["epochs", "--workers", "1"], red(0, 2) + red(0) + red(1) + b"abc",
     b"epoch 1\nopen red~2 points=2 agree=2 members=2\nlevel 0 opened=1 few=0 noline=0 badvalue=0\nrecords=2 rows=2 refused=0\n"
     b"epoch 2\nlevel 0 opened=0 few=1 noline=0 badvalue=0\nrecords=1 rows=1 refused=0\n"
     b"refused 3 CutLength\nrecords=4 epochs=2 refused=1\n"),
]


def built(folder):
    source, library = os.path.join(folder, "shim.c"), os.path.join(folder, "shim.so")
    with open(source, "w") as file:
        file.write(SHIM)
    subprocess.run([os.environ.get("CC", "cc"), "-O1", "-shared", "-fPIC", "-o", library, source, "-ldl"], check=True)
    return library


def run(program, library, words, given, refused):
    """The exit status, the output and the errors of a run, and whether a call was refused in it."""
    near, far = os.pipe()
    environment = dict(os.environ, LD_PRELOAD=library, REFUSED_CALL=str(refused), TOLD_TO=str(far))
    done = subprocess.run([program, *words], input=given, capture_output=True, env=environment, pass_fds=[far], timeout=60)
    os.close(far)
    said = os.read(near, 7)
    os.close(near)
    return (done.returncode, done.stdout, done.stderr), said == b"refused"


def how(ended, wanted):
    """Whether a run ended rightly: with its output, or for want of memory with none."""
    if ended == (0, wanted, b""):
        return "done"
    return "no memory" if ended[:2] == (6, b"") and ended[2] in (b"no memory\n", b"") else "wrong"


def main():
    if len(sys.argv) != 2:
        sys.exit(__doc__)
    program, tried, failed = os.path.abspath(sys.argv[1]), 0, 0
    with tempfile.TemporaryDirectory() as folder:
        library = built(folder)
        for name, words, given, wanted in RUNS:
            counts, refused, more = {"done": 0, "no memory": 0, "wrong": 0}, 0, True
            while more:
                refused += 1
                ended, more = run(program, library, words, given, refused)
                kind = how(ended, wanted) if more or ended[0] == 0 else "wrong"
                counts[kind] += 1
                if kind == "wrong":
                    print("%s, call %d refused: %r" % (name, refused, ended))
            print("%s: %d calls refused in turn, %d runs without memory, %d done" % (name, refused - 1, counts["no memory"], counts["done"]))
            tried += refused
            failed += counts["wrong"]
    if tried == len(RUNS):
        sys.exit("no call was refused: the program takes its memory elsewhere")
    print("%d runs, %d wrong" % (tried, failed))
    sys.exit(1 if failed else 0)


main()
