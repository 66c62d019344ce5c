"""Collector and report as two users: /usr/bin/python3 users_test.py, as root. Skipped for others.

The report's user reads the store by its group while the collector writes, after it was killed and after it closed its files, and changes nothing
there. The collector's user can't write the pages.
"""
import os
import signal
import subprocess
import sys
import tempfile
import unittest

import support
import keep
import store
import store_test
from store_test import EPOCH, NOW, fake

COLLECTOR, REPORT, GROUP = 64_001, 64_002, 64_000               # user and group numbers that needn't have names
THIS = os.path.abspath(__file__)


def run_as(user, *words, **named):
    """Starts this file as a user of the group, with the umask of the units."""
    command = [sys.executable, THIS, "child", *words]
    return subprocess.Popen(command, user=user, group=GROUP, extra_groups=[], umask=0o027, stdout=subprocess.PIPE, **named)


@unittest.skipUnless(os.geteuid() == 0, "only root can be two users")
class Users(unittest.TestCase):
    def setUp(self):
        self._folder = tempfile.TemporaryDirectory()
        self.addCleanup(self._folder.cleanup)
        os.chmod(self._folder.name, 0o755)
        self.store, self.pages = os.path.join(self._folder.name, "store"), os.path.join(self._folder.name, "pages")
        for path, user, mode in ((self.store, COLLECTOR, 0o750), (self.pages, REPORT, 0o755)):
            os.mkdir(path)
            os.chown(path, user, GROUP)
            os.chmod(path, mode)

    def lines(self, user, *words):
        """What a child of this user prints."""
        child = run_as(user, *words)
        out = child.communicate()[0].decode()
        self.assertEqual(child.returncode, 0, out)
        return out.split()

    def read(self):
        """What the report's user sees of the epoch: the count, and the number of reports."""
        return self.lines(REPORT, "read", self.store)

    def test_reads_and_writes(self):
        writer = run_as(COLLECTOR, "write", self.store, stdin=subprocess.PIPE)
        writer.stdout.readline()
        self.assertEqual(self.read(), ["30", "30", "7"])        # while the collector has the file open
        self.assertEqual(self.lines(REPORT, "spoil", self.store), ["PermissionError", "PermissionError", "OperationalError", "PermissionError"])
        writer.send_signal(signal.SIGKILL)
        writer.communicate()
        self.assertTrue(os.path.exists(store.path_of(self.store, EPOCH) + "-wal"))
        self.assertEqual(self.read(), ["30", "30", "7"])        # after it was killed
        self.lines(COLLECTOR, "close", self.store)
        self.assertFalse(os.path.exists(store.path_of(self.store, EPOCH) + "-wal"))
        before = sorted(os.listdir(self.store))
        self.assertEqual(self.read(), ["30", "30", "7"])        # after it closed its files
        self.assertEqual(sorted(os.listdir(self.store)), before)
        self.assertEqual(self.lines(COLLECTOR, "page", self.pages), ["PermissionError"])
        self.assertEqual(self.lines(COLLECTOR, "forget", self.store), ["none"])


def tried(call):
    """The name of the fault of a call; `none` if it has none."""
    try:
        call()
    except Exception as fault:                                  # pylint: disable=broad-except
        return type(fault).__name__
    return "none"


def add(path):
    """Tries to add a report by SQLite."""
    base = store.open_to_write(path, store.EPOCH_TABLES)
    base.execute("INSERT INTO reports VALUES (x'00')")


def child(what, folder):
    """What a child does as its user."""
    if what == "write":
        one = store_test.writer.Writer(folder, store_test.terms(), clock=lambda: NOW)
        one.put({EPOCH: fake(30)}, {"no_frame": 7}).result(timeout=20)
        print("written", flush=True)
        sys.stdin.read()
    elif what == "read":
        print(store.count(folder, EPOCH), len(list(store.frames(folder, EPOCH))), store.door(folder, EPOCH)["no_frame"])
    elif what == "spoil":
        path = store.path_of(folder, EPOCH)
        print(tried(lambda: os.remove(path)), tried(lambda: open(path, "r+b")), tried(lambda: add(path)),
              tried(lambda: store.forget(folder, EPOCH, range(0))))
    elif what == "close":
        for name in keep.names_of(folder):
            with store.opened_to_read(os.path.join(folder, name)) as base:
                base.execute("SELECT 1 FROM sqlite_master").fetchone()
    elif what == "page":
        print(tried(lambda: open(os.path.join(folder, "index.html"), "w", encoding="ascii")))
    elif what == "forget":
        print(tried(lambda: store.forget(folder, EPOCH, range(0))))


if __name__ == "__main__":
    if sys.argv[1:2] == ["child"]:
        child(*sys.argv[2:])
    else:
        unittest.main()
