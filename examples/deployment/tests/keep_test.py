"""Backup under load, restore, forgetting and checking: python3 keep_test.py PROGRAM. It needs no package."""
import os
import subprocess
import sys
import unittest

import support
import configuration
import keep
import store
import store_test
import weeks
from store_test import EPOCH, NOW, Folder, fake, put, terms

PROGRAM = sys.argv.pop() if len(sys.argv) > 1 and os.path.isfile(sys.argv[-1]) else None


def revealed(folder, epoch):
    """What the program reveals of an epoch of a store."""
    stream = support.body_of(store.frames(folder, epoch))
    return subprocess.run([PROGRAM, "reveal", "--epoch", str(epoch)], input=stream, stdout=subprocess.PIPE, check=True).stdout


class Keeping(Folder):
    def setUp(self):
        super().setUp()
        self.store, self.copy, self.other = (os.path.join(self.folder, name) for name in ("store", "copy", "other"))
        self.folder = self.store

    def test_backup_under_load(self):
        """A child adds reports all the while; what was acknowledged before the backup began is in it, and the store goes on."""
        child = subprocess.Popen([sys.executable, store_test.THIS, "child", "add", self.store, "0"], stdout=subprocess.PIPE)
        sure = set()
        for _ in range(400):
            sure.add(child.stdout.readline().rstrip(b"\n"))
        keep.backup(self.store, self.copy)
        child.kill()
        child.communicate()
        self.assertLessEqual(sure, set(store.frames(self.copy, EPOCH)))
        self.assertGreater(store.count(self.store, EPOCH), store.count(self.copy, EPOCH))
        self.assertEqual(keep.check(self.copy, None, NOW), "1 files are whole")
        with self.assertRaises(FileExistsError):
            keep.backup(self.store, self.copy)

    def test_a_plain_copy_loses_what_a_backup_has(self):
        """Why there is a command: the main file alone has nothing of what is in the WAL."""
        store_test.run_child("fill", self.store)
        os.makedirs(self.other)
        with open(store.path_of(self.store, EPOCH), "rb") as file, open(store.path_of(self.other, EPOCH), "wb") as copy:
            copy.write(file.read())
        self.assertEqual(store.count(self.other, EPOCH), 0)
        keep.backup(self.store, self.copy)
        self.assertEqual(store.count(self.copy, EPOCH), 30)

    def test_restore(self):
        one = self.writer()
        put(one, fake(20), {"no_frame": 4})
        put(one, fake(5), epoch=EPOCH + 1)
        keep.backup(self.store, self.copy)
        put(one, fake(20, 10), {"no_frame": 1})
        with self.assertRaises(keep.Refused):
            keep.restore(self.store, self.copy)                 # while a collector runs
        self.free(one)
        for folder, number, door in ((self.other, 20, 4), (self.other, 20, 4), (self.store, 30, 5)):
            keep.restore(folder, self.copy)
            self.assertEqual((len(list(store.frames(folder, EPOCH))), store.count(folder, EPOCH)), (number, number))
            self.assertEqual((store.count(folder, EPOCH + 1), store.terms(folder, EPOCH)), (5, terms().of(EPOCH)))
            self.assertEqual(store.door(folder, EPOCH)["no_frame"], door)
            self.assertTrue(keep.check(folder, None, NOW).endswith("files are whole"))

    def test_the_text_of_a_restored_store(self):
        """On another machine, or by a newer program, the same text."""
        if not PROGRAM:
            self.skipTest("no program was named")
        one = self.writer()
        put(one, support.reports(500, EPOCH, spread=5))
        self.free(one)
        keep.backup(self.store, self.copy)
        keep.restore(self.other, self.copy)
        self.assertIn(b"open country%200~20/city%20", revealed(self.store, EPOCH))
        self.assertEqual(revealed(self.store, EPOCH), revealed(self.other, EPOCH))

    def test_other_terms_are_refused(self):
        one = self.writer()
        put(one, fake(3))
        self.free(one)
        keep.backup(self.store, self.copy)
        other = store_test.writer.Writer(self.other, terms(thresholds=[30, 10]), clock=lambda: NOW)
        put(other, fake(2))
        self.free(other)
        with self.assertRaises(keep.Refused):
            keep.restore(self.other, self.copy)
        self.assertEqual(store.count(self.other, EPOCH), 2)

    def test_forget(self):
        """Only closed epochs whose text is there."""
        one = self.writer()
        for epoch in (EPOCH - 2, EPOCH - 1, EPOCH):
            put(one, fake(3, epoch=epoch), epoch=epoch)
        os.makedirs(self.other)
        for epoch in (EPOCH - 2, EPOCH):
            with open(os.path.join(self.other, f"{epoch}.txt"), "w", encoding="ascii") as file:
                file.write("records=3 rows=3 refused=0\n")
        self.assertEqual(keep.forget(self.store, self.other, terms(), NOW), f"forgotten: {EPOCH - 2}")
        self.assertEqual(store.epochs(self.store), [EPOCH - 1, EPOCH])
        self.assertEqual(keep.forget(self.store, self.other, terms(), NOW), "forgotten: none")
        self.assertEqual(put(one, fake(1, 9)), {"new": 1})
        self.assertEqual(keep.forget(self.store, self.other, terms(), NOW + weeks.WEEK + weeks.DAY), f"forgotten: {EPOCH}")

    def test_check_names_a_broken_file(self):
        one = self.writer()
        put(one, fake(300))
        self.free(one)
        with open(store.path_of(self.store, EPOCH), "r+b") as file:
            file.seek(8_192)
            file.write(os.urandom(4_096))
        with self.assertRaises(keep.Refused) as fault:
            keep.check(self.store, None, NOW)
        self.assertIn(f"{EPOCH:010d}.sqlite", str(fault.exception))

    def test_check_of_a_configuration(self):
        os.makedirs(self.store)
        path = os.path.join(self.store, "new.json")
        with open(configuration.path(), encoding="utf-8") as file:
            text = file.read()
        for new, good in ((text, True), (text.replace("[20, 10]", "[30, 10]"), False)):
            with open(path, "w", encoding="utf-8") as file:
                file.write(new)
            if good:
                self.assertIn("may take the place", keep.check(self.store, path, NOW))
            else:
                with self.assertRaises(configuration.ConfigurationFault):
                    keep.check(self.store, path, NOW)


if __name__ == "__main__":
    unittest.main()
