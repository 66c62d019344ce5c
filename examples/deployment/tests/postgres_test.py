"""The store of postgres/schema.sql, in a server of its own: /usr/bin/python3 postgres_test.py. Skipped if PostgreSQL or psycopg2 isn't installed.

Four processes add overlapping reports at once, a limit holds for all together, the server is killed under load, and an epoch is forgotten.
"""
import glob
import multiprocessing
import os
import pwd
import subprocess
import sys
import tempfile
import time
import unittest

import support

try:
    import psycopg2
except ImportError:
    psycopg2 = None

PROGRAMS = sorted(glob.glob("/usr/lib/postgresql/*/bin"))
EPOCH = 2_900
TERMS = '{"thresholds": [20, 10]}'


def connected(folder):
    """A connection to the server of a folder."""
    return psycopg2.connect(host=folder, dbname="postgres", user="star")


def put(base, frames, epoch=EPOCH):
    """New, known and without room, in a transaction of its own."""
    with base, base.cursor() as cursor:
        cursor.execute("SELECT new, known, no_room FROM star_put(%s, %s)", (epoch, [psycopg2.Binary(frame) for frame in frames]))
        return cursor.fetchone()


def add(folder, frames, pipe):
    """A collector: adds ten reports at a time, and writes those that were acknowledged, until the server is gone."""
    try:
        base = connected(folder)
        for at in range(0, len(frames), 10):
            counts = put(base, frames[at:at + 10])
            pipe.send((frames[at:at + 10], counts))
    except psycopg2.Error:
        pass
    pipe.close()


@unittest.skipUnless(psycopg2 and PROGRAMS, "PostgreSQL or psycopg2 isn't installed")
class Postgres(unittest.TestCase):
    def setUp(self):
        self._folder = tempfile.TemporaryDirectory()
        self.addCleanup(self._folder.cleanup)
        self.folder, self.data = self._folder.name, os.path.join(self._folder.name, "data")
        os.mkdir(self.data)
        self.user = ()
        if os.geteuid() == 0:                                   # the server doesn't run as root
            owner = pwd.getpwnam("postgres")
            for path in (self.folder, self.data):
                os.chown(path, owner.pw_uid, owner.pw_gid)
            self.user = ("runuser", "-u", "postgres", "--")
        self.program("initdb", "-D", self.data, "-U", "star", "-A", "trust", "-N")
        self.start()
        with open(os.path.join(support.DEPLOYMENT, "postgres/schema.sql"), encoding="utf-8") as file, connected(self.folder) as base:
            base.cursor().execute(file.read())
        base.close()

    def program(self, name, *words):
        """Runs a program of PostgreSQL."""
        subprocess.run([*self.user, os.path.join(PROGRAMS[-1], name), *words], check=True, stdout=subprocess.DEVNULL, cwd="/")

    def start(self):
        """Starts the server on a socket in the folder alone."""
        options = f"-c listen_addresses='' -k {self.folder}"
        self.program("pg_ctl", "-D", self.data, "-w", "-l", os.path.join(self.folder, "log"), "-o", options, "start")
        self.addCleanup(self.stop)

    def stop(self, mode="immediate"):
        """Stops the server at once, without writing anything down first."""
        if os.path.exists(os.path.join(self.data, "postmaster.pid")):
            self.program("pg_ctl", "-D", self.data, "-m", mode, "stop")

    def epoch(self, base, epoch=EPOCH, terms=TERMS, most=131_072):
        with base, base.cursor() as cursor:
            cursor.execute("SELECT star_epoch(%s, %s, %s)", (epoch, terms, most))

    def kept(self, base, epoch=EPOCH):
        """The frames of an epoch, and its count."""
        with base, base.cursor() as cursor:
            cursor.execute("SELECT frame FROM reports WHERE epoch = %s ORDER BY frame", (epoch,))
            frames = [bytes(frame) for frame, in cursor]
            cursor.execute("SELECT kept FROM epochs WHERE epoch = %s", (epoch,))
            return frames, cursor.fetchone()

    def test_one_epoch(self):
        base, data = connected(self.folder), support.reports(20, EPOCH)
        self.epoch(base, most=10)
        self.epoch(base, most=10)
        with self.assertRaises(psycopg2.Error):
            self.epoch(base, terms="others")
        self.assertEqual(put(base, data[:8]), (8, 0, 0))
        self.assertEqual(put(base, data[4:12]), (2, 4, 2))
        self.assertEqual(put(base, [data[0], data[0]]), (0, 2, 0))
        self.assertEqual(self.kept(base), (sorted(data[:10]), (10,)))
        self.epoch(base, EPOCH + 1)
        self.assertEqual(put(base, [b"x" * 8_192], EPOCH + 1), (1, 0, 0))
        with base, base.cursor() as cursor:
            cursor.execute("SELECT star_forget(%s)", (EPOCH,))
        self.assertEqual(self.kept(base), ([], None))
        self.assertEqual(self.kept(base, EPOCH + 1)[1], (1,))
        base.close()

    def test_four_collectors_and_a_killed_server(self):
        base, data = connected(self.folder), support.reports(6_000, EPOCH)
        self.epoch(base)
        base.close()
        pipes, processes = [], []
        for number in range(4):                                 # neighbours have half of their reports in common
            mine, theirs = multiprocessing.Pipe(duplex=False)
            processes.append(multiprocessing.Process(target=add, args=(self.folder, data[1_000 * number:1_000 * number + 3_000], theirs)))
            processes[-1].start()
            theirs.close()
            pipes.append(mine)
        time.sleep(1.5)
        self.stop()
        sure, new = set(), 0
        for pipe, process in zip(pipes, processes):
            while True:
                try:
                    frames, counts = pipe.recv()
                except EOFError:
                    break
                sure.update(frames)
                new += counts[0]
            process.join()
        self.start()
        base = connected(self.folder)
        frames, count = self.kept(base)
        base.close()
        self.assertLessEqual(sure, set(frames))
        self.assertEqual((len(frames), (len(frames),)), (len(set(frames)), count))
        self.assertLessEqual(new, len(frames))
        self.assertGreater(len(sure), 100)
        print(f"postgres: the server killed under four collectors, {len(sure)} acknowledged, 0 lost, {len(frames)} kept, none twice", file=sys.stderr)

    def test_a_limit_for_all(self):
        base, data = connected(self.folder), support.reports(2_000, EPOCH)
        self.epoch(base, most=777)
        pipes, processes = [], []
        for number in range(4):
            mine, theirs = multiprocessing.Pipe(duplex=False)
            processes.append(multiprocessing.Process(target=add, args=(self.folder, data[500 * number:500 * number + 500], theirs)))
            processes[-1].start()
            theirs.close()
            pipes.append(mine)
        new = 0
        for pipe, process in zip(pipes, processes):
            try:
                while True:
                    new += pipe.recv()[1][0]
            except EOFError:
                process.join()
        frames, count = self.kept(base)
        base.close()
        self.assertEqual((new, len(frames), count), (777, 777, (777,)))


if __name__ == "__main__":
    unittest.main()
