"""The one writer of the store: what waits while it waits for the disk goes into its next transaction together.

What a future of `put` returned for outlives the end of the process at any moment, and a loss of power as far as the disk keeps what it synced.
"""
import contextlib
import fcntl
import os
import queue
import threading
import time
from collections import Counter, defaultdict
from concurrent.futures import Future

import store
import weeks

ROUND = 2_000                       # the most reports of one transaction, but for the last request's
IDLE = 600                          # a file without reports for so many seconds is closed
WAITING = 1_000                     # the most requests that wait
HEARTBEAT = 3_600                   # the lock's file is touched so often, in seconds
SILENCE = 60 * weeks.DAY            # a clock that is so far ahead of the last heartbeat isn't believed


class Busy(Exception):
    """Too many requests wait for the disk."""


class OtherWriter(Exception):
    """Another collector writes to this folder."""


class WrongClock(Exception):
    """The clock is before what is kept, or far ahead of it."""


class _Request:
    """The reports of one request by epoch, its refusals, and what came of each."""

    def __init__(self, reports, refusals):
        self.reports = reports
        self.outcomes = Counter(refusals)
        self.fault = None
        self.done = Future()

    def answer(self):
        """Finishes the future: a fault in any epoch is one of the request."""
        if self.fault:
            self.done.set_exception(self.fault)
        else:
            self.done.set_result(self.outcomes)


def _inserted(base, reports, room):
    """Adds reports while there is room: how many were new, known and without room."""
    if len(reports) <= room:
        before = base.total_changes
        base.executemany("INSERT OR IGNORE INTO reports VALUES (?)", ((frame,) for frame in reports))
        new = base.total_changes - before
        return Counter(new=new, known=len(reports) - new)
    outcomes = Counter()
    for frame in reports:
        if base.execute("SELECT 1 FROM reports WHERE frame = ?", (frame,)).fetchone():
            outcomes["known"] += 1
        elif outcomes["new"] < room:
            base.execute("INSERT INTO reports VALUES (?)", (frame,))
            outcomes["new"] += 1
        else:
            outcomes["full"] += 1
    return outcomes


class Writer:
    """Adds reports to a folder, by one thread. Only one writer at a time has a folder, for as long as its process runs."""

    def __init__(self, folder, configuration, patience=20, clock=time.time, synchronous="FULL"):
        os.makedirs(folder, exist_ok=True)
        self._folder, self._configuration, self._clock, self._synchronous = folder, configuration, clock, synchronous
        self._lock = self._locked(patience)
        store.finish_forgetting(folder)
        self._asked = queue.Queue(maxsize=WAITING)
        self._bases, self._used = {}, {}
        self._newest = max(store.epochs(folder), default=0)
        self._beat = os.fstat(self._lock).st_mtime if os.fstat(self._lock).st_size else None
        threading.Thread(target=self._run, daemon=True, name="writer").start()

    def put(self, reports, refusals, patience=5):
        """A future of what came of each report and refusal, done once all of it is on the disk.

        `reports` are lists by epoch, `refusals` numbers by reason. If the future fails, nothing of the request was acknowledged, and the same
        request can be made again.
        """
        request = _Request(reports, refusals)
        try:
            self._asked.put(request, timeout=patience)
        except queue.Full:
            raise Busy("too many requests wait for the disk") from None
        return request.done

    def refuse_wrong_clock(self, now):
        """Raises WrongClock if this time can't be that of the reports that are kept."""
        taken = self._configuration.taken(now)
        if self._configuration.of(taken[-1]) is None:
            raise WrongClock("the clock is before the configuration's first epoch")
        if taken[-1] < self._newest:
            raise WrongClock(f"the clock is before epoch {self._newest}, which has reports")
        if self._beat is not None and now > self._beat + SILENCE:
            days = (now - self._beat) / weeks.DAY
            raise WrongClock(f"the clock is {days:.0f} days after the last heartbeat; if it is right, touch the lock's file and start again")

    def _locked(self, patience):
        """The lock's file, locked. A predecessor that is about to end is waited for."""
        descriptor = os.open(os.path.join(self._folder, store.LOCK), os.O_RDWR | os.O_CREAT, 0o640)
        end = time.monotonic() + patience
        while True:
            try:
                fcntl.flock(descriptor, fcntl.LOCK_EX | fcntl.LOCK_NB)
                return descriptor
            except BlockingIOError:
                if time.monotonic() > end:
                    os.close(descriptor)
                    raise OtherWriter(f"another collector writes to {self._folder}") from None
                time.sleep(.1)

    def _run(self):
        while True:
            requests = self._waiting()
            try:
                self._write(requests)
                self._heartbeat(requests)
                self._close_idle()
            except Exception as fault:
                for request in requests:
                    request.fault = request.fault or fault
            for request in requests:
                request.answer()

    def _waiting(self):
        """The requests that wait, at least one unless none is made for a minute."""
        requests, size, patience = [], 0, 60
        try:
            while size < ROUND:
                requests.append(self._asked.get(timeout=patience))
                size, patience = size + sum(map(len, requests[-1].reports.values())), 1e-9
        except queue.Empty:
            pass
        return requests

    def _write(self, requests):
        """Puts the requests on the disk: the reports of each epoch, and then what the door counts."""
        by_epoch = defaultdict(list)
        for request in requests:
            for epoch in request.reports:
                by_epoch[epoch].append(request)
        for epoch, some in by_epoch.items():
            self._try(some, epoch, self._write_epoch)
        good = [request for request in requests if not request.fault]
        self._try(good, store.DOOR, self._write_door)

    def _try(self, requests, key, write):
        """Writes to one file in a transaction; a fault is one of these requests, and closes the file."""
        try:
            write(requests, key)
        except Exception as fault:
            self._close(key)
            for request in requests:
                request.fault = fault

    def _write_epoch(self, requests, epoch):
        base = self._base(epoch)
        base.execute("BEGIN IMMEDIATE")
        kept, = base.execute("SELECT kept FROM epoch").fetchone()
        most = self._configuration.of(epoch).most_reports
        added = 0
        found = []
        for request in requests:
            found.append(_inserted(base, request.reports[epoch], most - kept - added))
            added += found[-1]["new"]
        base.execute("UPDATE epoch SET kept = kept + ?", (added,))
        base.execute("COMMIT")
        self._newest = max(self._newest, epoch)
        for request, outcomes in zip(requests, found):
            request.outcomes.update(outcomes)

    def _write_door(self, requests, key):
        total = sum((request.outcomes for request in requests), Counter())
        del total["new"]
        if not total:
            return
        base = self._base(key)
        week = weeks.epoch_at(self._clock())
        base.execute("BEGIN IMMEDIATE")
        base.executemany("INSERT INTO door VALUES (?, ?, ?) ON CONFLICT DO UPDATE SET number = number + excluded.number",
                         [(week, outcome, number) for outcome, number in total.items()])
        base.execute("COMMIT")

    def _heartbeat(self, requests):
        """Notes on the lock's file that this time was believed: with the first request, and then each hour."""
        now = self._clock()
        if bool(requests) if self._beat is None else HEARTBEAT <= now - self._beat <= SILENCE:
            with contextlib.suppress(OSError):
                os.pwrite(self._lock, b"collector\n", 0)
                os.utime(self._lock, (now, now))
                self._beat = now

    def _base(self, key):
        """The connection to a file: an epoch, or the door's counts."""
        if key not in self._bases:
            if key == store.DOOR:
                base = store.open_to_write(os.path.join(self._folder, key), store.DOOR_TABLES, synchronous=self._synchronous)
            else:
                base = self._epoch_base(key)
            self._bases[key] = base
        self._used[key] = time.monotonic()
        return self._bases[key]

    def _epoch_base(self, epoch):
        """The connection to an epoch's file; OtherTerms if its reports were taken under others."""
        terms = self._configuration.of(epoch)
        base = store.open_to_write(store.path_of(self._folder, epoch), store.EPOCH_TABLES, terms, self._synchronous)
        found, = base.execute("SELECT terms FROM epoch").fetchone()
        if found != terms.as_json():
            base.close()
            raise store.OtherTerms(f"the reports of epoch {epoch} were taken under other terms")
        return base

    def _close_idle(self):
        """Closes the files of epochs that aren't taken any more, and those that nothing was added to for a while."""
        taken, now = self._configuration.taken(self._clock()), time.monotonic()
        for key in list(self._bases):
            if self._used[key] + IDLE < now or (key != store.DOOR and key not in taken):
                self._close(key)

    def _close(self, key):
        """Closes a file, which rolls back what wasn't committed."""
        base = self._bases.pop(key, None)
        if base is not None:
            base.close()
