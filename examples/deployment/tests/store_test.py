"""The store alone, with children that are killed: python3 store_test.py. It needs no package."""
import contextlib
import os
import random
import signal
import sqlite3
import subprocess
import sys
import tempfile
import time
import unittest
from collections import Counter

import support
import configuration
import store
import weeks
import writer

EPOCH = 2_900
NOW = weeks.start_of(EPOCH) + weeks.DAY
THIS = os.path.abspath(__file__)


def terms(**changes):
    """A configuration as the writer has it."""
    return configuration.read(support.configured(**changes))


def fake(number, start=0, epoch=EPOCH):
    """Bytes that stand for frames: the store doesn't read them."""
    return [b"%d %d" % (epoch, at) for at in range(start, start + number)]


def put(one, reports, refusals=(), epoch=EPOCH):
    """What came of these reports, as a dict."""
    return dict(+one.put({epoch: reports} if reports else {}, dict(refusals)).result(timeout=20))


class Folder(unittest.TestCase):
    """A test with a folder and a clock of its own."""

    def setUp(self):
        self._folder = tempfile.TemporaryDirectory()
        self.folder, self.now = self._folder.name, NOW
        self.addCleanup(self._folder.cleanup)

    def writer(self, patience=0, **changes):
        """A writer in this folder; its process keeps the lock, so that `freed` has to give it back for another."""
        made = writer.Writer(self.folder, terms(**changes), patience=patience, clock=lambda: self.now)
        self.addCleanup(self.free, made)
        return made

    @staticmethod
    def free(made):
        """Gives the lock back, as the end of a process does."""
        with contextlib.suppress(OSError):
            os.close(made._lock)
        for key in list(made._bases):
            made._close(key)

    def kept(self, epoch=EPOCH):
        """What is kept of an epoch; FileNotFoundError if it was never written to."""
        return list(store.frames(self.folder, epoch))

    def kept_so_far(self):
        """The same, and nothing if a child was killed before its first transaction."""
        with contextlib.suppress(FileNotFoundError):
            yield from store.frames(self.folder, EPOCH)


class Keeping(Folder):
    def test_each_report_once(self):
        one = self.writer()
        self.assertEqual(put(one, fake(3)), {"new": 3})
        self.assertEqual(put(one, fake(4, 1)), {"new": 2, "known": 2})
        self.assertEqual(put(one, [b"x", b"x"]), {"new": 1, "known": 1})
        self.assertEqual(self.kept(), sorted(fake(5) + [b"x"]))
        self.assertEqual(store.count(self.folder, EPOCH), 6)
        self.assertEqual(store.epochs(self.folder), [EPOCH])
        self.assertEqual(store.terms(self.folder, EPOCH), terms().of(EPOCH))

    def test_nothing_there(self):
        self.assertEqual((store.epochs(self.folder + "/none"), store.count(self.folder, 1), store.door(self.folder, 1)), ([], 0, {}))
        self.assertIsNone(store.terms(self.folder, 1))
        with self.assertRaises(FileNotFoundError):
            self.kept()

    def test_a_full_epoch(self):
        one = self.writer(most=10)
        self.assertEqual(put(one, fake(8)), {"new": 8})
        self.assertEqual(put(one, fake(8, 4)), {"known": 4, "new": 2, "full": 2})
        self.assertEqual(put(one, fake(12)), {"known": 10, "full": 2})
        both = one.put({EPOCH: fake(1, 50), EPOCH - 1: fake(3)}, {}).result(timeout=20)
        self.assertEqual(dict(+both), {"full": 1, "new": 3})
        self.assertEqual((len(self.kept()), store.count(self.folder, EPOCH), len(self.kept(EPOCH - 1))), (10, 10, 3))
        self.assertEqual(store.door(self.folder, EPOCH), {"known": 14, "full": 5})

    def test_a_limit_within_one_round(self):
        """Requests that waited for the disk together share the room that is left."""
        one = self.writer(most=10)
        put(one, fake(2))
        lock = sqlite3.connect(store.path_of(self.folder, EPOCH), isolation_level=None)
        lock.execute("BEGIN IMMEDIATE")
        waits = [one.put({EPOCH: fake(4, start)}, {}) for start in range(2, 42, 4)]
        time.sleep(.2)
        lock.execute("ROLLBACK")
        lock.close()
        total = sum((wait.result(timeout=20) for wait in waits), start=Counter())
        self.assertEqual((total["new"], total["full"], len(self.kept())), (8, 32, 10))

    def test_the_door_by_week(self):
        one = self.writer()
        put(one, [], {"no_frame": 3, "other_threshold": 1})
        put(one, fake(1), {"no_frame": 2})
        self.now += weeks.WEEK
        put(one, [], {"no_frame": 1})
        self.assertEqual(store.door(self.folder, EPOCH), {"no_frame": 5, "other_threshold": 1})
        self.assertEqual(store.door(self.folder, EPOCH + 1), {"no_frame": 1})

    def test_a_fault_of_one_epoch(self):
        """A broken file is the fault of the requests that have reports for it, and of no other."""
        with open(store.path_of(self.folder, EPOCH - 1), "wb") as file:
            file.write(b"no database" * 1_000)
        one = self.writer()
        bad, good = one.put({EPOCH - 1: fake(1), EPOCH: fake(1)}, {"no_frame": 1}), one.put({EPOCH: fake(1, 1)}, {})
        with self.assertRaises(sqlite3.DatabaseError):
            bad.result(timeout=20)
        self.assertEqual(dict(+good.result(timeout=20)), {"new": 1})
        self.assertEqual(store.door(self.folder, EPOCH), {})

    def test_terms_bound_to_an_epoch(self):
        one = self.writer()
        put(one, fake(1))
        self.free(one)
        other = self.writer(thresholds=[30, 10])
        with self.assertRaises(store.OtherTerms):
            put(other, fake(1, 1))
        self.free(other)
        later = {**support.TERMS, "from_epoch": EPOCH + 1, "thresholds": [30, 10]}
        third = self.writer(more=[later])
        self.assertEqual(put(third, fake(1, 1)), {"new": 1})
        self.assertEqual(put(third, fake(1), epoch=EPOCH + 1), {"new": 1})
        self.assertEqual([store.terms(self.folder, EPOCH + at).thresholds for at in (0, 1)], [(20, 10), (30, 10)])

    def test_another_format(self):
        base = sqlite3.connect(store.path_of(self.folder, EPOCH))
        base.execute("PRAGMA user_version = 7")
        base.close()
        with self.assertRaises(store.OtherFormat):
            put(self.writer(), fake(1))

    def test_a_file_of_nothing(self):
        """As after a loss of power before the first commit: there is nothing to read, and the writer goes on."""
        open(store.path_of(self.folder, EPOCH), "wb").close()
        self.assertEqual((store.count(self.folder, EPOCH), store.terms(self.folder, EPOCH)), (0, None))
        self.assertEqual(put(self.writer(), fake(2)), {"new": 2})
        self.assertEqual(len(self.kept()), 2)

    def test_one_writer(self):
        self.writer()
        with self.assertRaises(writer.OtherWriter):
            self.writer()

    def test_two_writers_keep_the_limit(self):
        """Even without the lock, since each transaction reads the count anew."""
        first = self.writer(most=10)
        put(first, fake(5))
        os.remove(os.path.join(self.folder, store.LOCK))
        second = self.writer(most=10)
        self.assertEqual(put(second, fake(4, 5)), {"new": 4})
        self.assertEqual(put(first, fake(4, 9)), {"new": 1, "full": 3})
        self.assertEqual((len(self.kept()), store.count(self.folder, EPOCH)), (10, 10))


class Clocks(Folder):
    def test_a_clock_a_year_off(self):
        one = self.writer()
        one.refuse_wrong_clock(self.now)
        one.refuse_wrong_clock(self.now + weeks.WEEK * 52)      # nothing is kept yet, so nothing contradicts it
        put(one, fake(1))
        for years in (-1, 1):
            with self.assertRaises(writer.WrongClock):
                one.refuse_wrong_clock(self.now + years * 52 * weeks.WEEK)
        for days in (-1, 0, 1, 30):
            one.refuse_wrong_clock(self.now + days * weeks.DAY)
        self.free(one)
        again = self.writer()
        for years in (-1, 1):
            with self.assertRaises(writer.WrongClock):
                again.refuse_wrong_clock(self.now + years * 52 * weeks.WEEK)

    def test_before_the_configuration(self):
        with self.assertRaises(writer.WrongClock):
            self.writer().refuse_wrong_clock(3_600)


class Forgetting(Folder):
    def filled(self):
        """A folder as a killed collector leaves it: two epochs, each with a WAL."""
        run_child("fill", self.folder)
        self.assertTrue(os.path.exists(store.path_of(self.folder, EPOCH) + "-wal"))

    def left(self):
        """All files below the folder that belong to the epoch."""
        return [name for _, _, names in os.walk(self.folder) for name in names if name.startswith(f"{EPOCH:010d}")]

    def test_refused_while_taken(self):
        self.filled()
        with self.assertRaises(store.StillTaken):
            store.forget(self.folder, EPOCH, terms().taken(NOW))
        self.assertEqual(len(self.kept()), 30)

    def test_killed_after_each_step(self):
        """Whatever the step, the epoch is whole before the first one and gone after the next call; the other epoch stays."""
        steps = 0
        while run_child("forget", self.folder, str(steps), fill=True) == -signal.SIGKILL:
            if os.path.exists(store.path_of(self.folder, EPOCH)):
                self.assertEqual(len(self.kept()), 30)
            if steps % 2:
                store.forget(self.folder, EPOCH, range(0))
            else:
                self.free(self.writer())                        # the next start of the collector finishes it
                store.forget(self.folder, EPOCH, range(0))
            self.assertEqual((self.left(), len(self.kept(EPOCH + 1))), ([], 30))
            steps += 1
        self.assertGreater(steps, 6)
        self.assertEqual(self.left(), [])
        print(f"store: forgetting killed before each of {steps} calls, and finished", file=sys.stderr)

    def test_a_start_finishes_it(self):
        """From the step on that moved the file, a start of the collector alone deletes all of it."""
        for step in range(3, 8):
            run_child("forget", self.folder, str(step), fill=True)
            if not os.path.exists(store.path_of(self.folder, EPOCH)):
                self.free(self.writer())
                self.assertEqual(self.left(), [])


class Killed(Folder):
    def test_acknowledged_is_kept(self):
        """Twenty children that add reports and print what was acknowledged are killed: all of it is there, once, and the count is right.

        Fifteen are killed after their first answer, and five at a moment that may be before they made the file.
        """
        sure, rng = set(), random.Random(4)
        for at in range(20):
            child = subprocess.Popen([sys.executable, THIS, "child", "add", self.folder, str(at)], stdout=subprocess.PIPE)
            out = child.stdout.readline() if at % 4 else b""
            time.sleep(rng.random() * .15)
            child.kill()
            out += child.communicate()[0]
            sure.update(out[:out.rfind(b"\n") + 1].splitlines())
            kept = list(self.kept_so_far())
            self.assertLessEqual(sure, set(kept))
            self.assertEqual(len(kept), len(set(kept)))
            self.assertEqual(store.count(self.folder, EPOCH), len(kept))
        self.assertGreater(len(sure), 100)
        print(f"store: 20 kills, {len(sure)} acknowledged, 0 lost", file=sys.stderr)


def run_child(*words, fill=False):
    """The status of a child that does what `child` says."""
    if fill:
        run_child("fill", words[1])
    return subprocess.run([sys.executable, THIS, "child", *words], check=False).returncode


def killed_after(steps):
    """Replaces each call that changes the disk by one that kills this process once so many were made."""
    left = [steps]

    def counted(call):
        def step(*words, **named):
            if left[0] == 0:
                os.kill(os.getpid(), signal.SIGKILL)
            left[0] -= 1
            return call(*words, **named)
        return step
    for name in ("rename", "remove", "fsync", "mkdir"):
        setattr(os, name, counted(getattr(os, name)))


def child(what, folder, number="0"):
    """What a child does: it adds until it is killed, or fills two epochs and kills itself, or forgets with a kill on the way."""
    if what == "forget":
        killed_after(int(number))
        store.forget(folder, EPOCH, range(0))
        return
    one = writer.Writer(folder, terms(), patience=20, clock=lambda: NOW)
    if what == "fill":
        one.put({EPOCH: fake(30), EPOCH + 1: fake(30)}, {}).result(timeout=20)
        os.kill(os.getpid(), signal.SIGKILL)
    for start in range(0, 10**6, 7):
        some = [b"%s %d" % (number.encode(), start + at) for at in range(7)]
        one.put({EPOCH: some}, {}).result(timeout=20)
        os.write(1, b"\n".join(some) + b"\n")


if __name__ == "__main__":
    if sys.argv[1:2] == ["child"]:
        child(*sys.argv[2:])
    else:
        unittest.main()
