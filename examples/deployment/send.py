#!/usr/bin/env python3
"""Sends reports from a program: each goes again, with the same bytes, until the collector has answered that it is kept.

    sender = Sender("https://telemetry.example/v1/reports")
    sender.add(report)                  # never sends and never waits
    sender.flush(patience=60)           # in a thread of its own, or when the program has time

As a command it makes a report of each row of a table (CSV, a column for each layer of the configuration, no header) and sends them all:

    send.py --url https://telemetry.example/v1/reports --waiting waiting.stream rows.csv

What isn't kept when its patience ends is in the file of --waiting, a stream of records, and the next call with that file sends it first.
"""
import argparse
import collections
import csv
import http.client
import itertools
import os
import random
import sys
import threading
import time
import urllib.error
import urllib.request

import configuration
import frames
import weeks

BATCH = 100  # reports of a request
MOST = 100_000  # reports that wait; the oldest is dropped for a new one
LATER = 3_600  # seconds until reports of a full epoch are sent again
OUTCOMES = ("new", "known", "full", "refused")


class NotTaken(Exception):
    """The collector can't take reports now. `after` is the number of seconds for which it asked to be left alone."""

    def __init__(self, why, after=0):
        super().__init__(why)
        self.after = after


class Never(Exception):
    """The collector won't ever take this body."""


class _NoRedirect(urllib.request.HTTPRedirectHandler):
    def redirect_request(self, *what):
        return None  # a redirected POST would go on as a GET, without its reports


def counts_of(answer, number):
    """The counts of an answer to so many reports; NotTaken if it isn't the collector's."""
    try:
        counts = {name: int(value) for name, value in (word.split("=") for word in answer.decode("ascii").split())}
    except ValueError:
        counts = {}
    if tuple(counts) != OUTCOMES or min(counts.values()) < 0 or sum(counts.values()) != number:
        raise NotTaken("the answer is not that of a collector")
    return counts


def _seconds(text):
    return min(int(text), LATER) if text and text.isascii() and text.isdigit() else 0


class Sender:
    """Keeps reports until they are kept elsewhere.

    `counts` has what came of those that were sent; `given_up` and `dropped` are numbers of reports that nobody kept.
    """

    def __init__(self, url, most=MOST, timeout=30, opener=None):
        self._url, self._most, self._timeout = url, most, timeout
        self._open = (opener or urllib.request.build_opener(_NoRedirect)).open
        self._waiting, self._lock, self._sending = collections.OrderedDict(), threading.Lock(), threading.Lock()
        self._not_before, self._size, self._good = 0, BATCH, 0
        self.counts, self.given_up, self.dropped = dict.fromkeys(OUTCOMES, 0), 0, 0

    @property
    def waiting(self):
        """The reports that wait, the oldest first."""
        with self._lock:
            return list(self._waiting)

    def add(self, report):
        """Keeps a report for the next flush."""
        with self._lock:
            self._waiting[bytes(report)] = None
            if len(self._waiting) > self._most:
                self._waiting.popitem(last=False)
                self.dropped += 1

    def flush(self, patience=60):
        """Sends what waits, and tries again until nothing waits or so many seconds are over. Whether nothing waits."""
        with self._sending:
            end, pause = time.monotonic() + patience, 0.5
            while self._first(1):
                now = time.monotonic()
                after = self._not_before - now if now < self._not_before else self._send_one()
                if after is None:
                    pause = 0.5
                    continue
                wait = max(random.uniform(1, 2) * after, random.uniform(0.5, 1) * pause)
                if now + wait > end:
                    return False
                time.sleep(wait)
                pause = min(2 * pause, 300)
            return True

    def _send_one(self):
        """Sends one body. None if there is less to send now; otherwise for how many seconds the collector asked to be left alone."""
        some = self._first(self._size)
        try:
            self._settle(some, self._post(some))
            # After a body that won't ever be taken, one good body may be its front half; with a second one there is nothing left to look for.
            self._good += 1
            self._size = self._size if self._good < 2 else BATCH
        except Never:
            self._size, self._good = self._halve(some), 0
        except NotTaken as fault:
            return fault.after
        return None

    def _first(self, size):
        with self._lock:
            return list(itertools.islice(self._waiting, size))

    def _drop(self, some):
        with self._lock:
            for report in some:
                self._waiting.pop(report, None)

    def _settle(self, some, counts):
        """What came of a body. If the epoch is full, nobody knows which of its reports aren't kept, so all go again much later."""
        if counts["full"]:
            self._not_before = time.monotonic() + LATER
            raise NotTaken("the epoch is full", LATER)
        self._drop(some)
        for outcome, number in counts.items():
            self.counts[outcome] += number

    def _halve(self, some):
        """The size of the next body after one that won't ever be taken: smaller, until the report is alone that is the reason and is given up."""
        if len(some) > 1:
            return (len(some) + 1) // 2
        self._drop(some)
        self.given_up += 1
        return BATCH

    def _post(self, some):
        """The counts for a body of these reports."""
        body = b"".join(map(frames.record, some))
        request = urllib.request.Request(self._url, body, {"Content-Type": "application/octet-stream", "User-Agent": "star"})
        try:
            with self._open(request, timeout=self._timeout) as answer:
                return counts_of(answer.read(1_000), len(some))
        except urllib.error.HTTPError as fault:
            with fault:
                if fault.code in (400, 413):
                    raise Never(str(fault)) from fault
                raise NotTaken(str(fault), _seconds(fault.headers.get("Retry-After"))) from fault
        except (OSError, http.client.HTTPException) as fault:
            raise NotTaken(str(fault)) from fault


def client():
    """The Python client: the wheel, or in a clone the package beside."""
    try:
        import star_client
    except ImportError:
        here = os.path.dirname(os.path.abspath(__file__))
        sys.path.append(os.path.join(here, "..", "..", "bindings", "python"))
        import star_client
    return star_client


def reports_of(table, terms, epoch):
    """The reports of the rows of a table, with values in the one normal form. A bad row is named on standard error and passed over."""
    star_client = client()
    made = star_client.Client()
    for row, values in enumerate(csv.reader(table), 1):
        if values:
            try:
                yield made.report([star_client.normalized(value) for value in values], terms.thresholds, epoch, version=terms.version)
            except star_client.ClientError as fault:
                print("row %d: %s" % (row, fault), file=sys.stderr)
                yield None


def keep(path, reports):
    """Writes a stream in the place of a file, whole or not at all."""
    with open(path + ".new", "wb") as file:
        file.writelines(map(frames.record, reports))
        file.flush()
        os.fsync(file.fileno())
    os.replace(path + ".new", path)


def parsed():
    words = argparse.ArgumentParser(description=__doc__, formatter_class=argparse.RawDescriptionHelpFormatter)
    words.add_argument("--url", required=True, help="the collector's address, as https://telemetry.example/v1/reports")
    words.add_argument("--waiting", required=True, help="a file for the reports that aren't kept yet")
    words.add_argument("--patience", type=float, default=60, help="for how many seconds to try")
    words.add_argument("table", nargs="?", help="a file of rows; without it only what waits is sent")
    return words.parse_args()


def main():
    words = parsed()
    sender, bad = Sender(words.url, most=sys.maxsize), 0
    epoch = weeks.epoch_at(time.time())
    terms = configuration.load().of(epoch)
    if terms is None:
        sys.exit("the configuration has no terms for epoch %d yet" % epoch)
    if os.path.exists(words.waiting):
        with open(words.waiting, "rb") as file:
            for report in frames.records_of(file.read()):
                sender.add(report)
    if words.table:
        with open(words.table, encoding="utf-8-sig", newline="") as table:
            for report in reports_of(table, terms, epoch):
                sender.add(report) if report else None
                bad += report is None
    keep(words.waiting, sender.waiting)
    sender.flush(words.patience)
    keep(words.waiting, sender.waiting)
    left = len(sender.waiting)
    print(" ".join("%s=%d" % pair for pair in sender.counts.items()), "given_up=%d bad_rows=%d waiting=%d" % (sender.given_up, bad, left))
    sys.exit(1 if left or bad or sender.given_up else 0)


if __name__ == "__main__":
    main()
