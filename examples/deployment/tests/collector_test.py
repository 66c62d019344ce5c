"""The collector under gunicorn on loopback: /usr/bin/python3 collector_test.py. It needs gunicorn and python3-prometheus-client, and takes a minute.

Bad input, full files, a locked and a broken database, a wrong clock, a full epoch, two collectors, and what each of these writes to the log.
"""
import http.client
import os
import signal
import socket
import sqlite3
import threading
import time
import unittest

import support
import collector
import frames
import metrics
import store
import writer
from support import Collector, body_of, configured

PORT = 18_093
EPOCH = support.epoch_now()
DATA = support.reports(3_000)


def kept(one):
    """How many reports of this week the store has."""
    return len(list(store.frames(one.store, EPOCH)))


class BadInput(unittest.TestCase):
    @classmethod
    def setUpClass(cls):
        cls.one = Collector(PORT).start()
        cls.addClassCleanup(cls.one.__exit__)

    def expect(self, some, wanted, number=None):
        self.assertEqual(self.one.post(some), (200, wanted))
        if number is not None:
            self.assertEqual(kept(self.one), number)

    def test_answers(self):
        self.expect(DATA[:1], "new=1 known=0 full=0 refused=0", 1)
        self.expect(DATA[:1], "new=0 known=1 full=0 refused=0", 1)
        self.expect([DATA[1], DATA[1]], "new=1 known=1 full=0 refused=0", 2)
        self.expect([], "new=0 known=0 full=0 refused=0")
        self.expect([bytes(8_192)], "new=0 known=0 full=0 refused=1", 2)
        self.expect([DATA[3], b"", b"ST", DATA[4][:-1], DATA[4] + b"x", DATA[5]], "new=2 known=0 full=0 refused=4", 4)
        self.expect(support.reports(2, EPOCH - 2) + support.reports(2, EPOCH + 2), "new=0 known=0 full=0 refused=4", 4)
        self.expect(support.reports(2, thresholds=[2, 2]) + support.reports(3, version=2), "new=0 known=0 full=0 refused=5", 4)
        self.assertEqual(store.door(self.one.store, EPOCH), {"known": 2, "no_frame": 5, "other_epoch": 4, "other_threshold": 2, "other_version": 3})
        self.assertEqual(self.one.metric('star_reports_total{outcome="other_threshold"}'), 2)
        self.assertEqual(self.one.metric(f'star_epoch_reports{{epoch="{EPOCH}"}}'), 4)
        self.assertEqual(self.one.metric(f'star_epoch_limit{{epoch="{EPOCH}"}}'), 131_072)

    def test_bodies_that_keep_nothing(self):
        before = len(list(store.frames(self.one.store, EPOCH))) if EPOCH in store.epochs(self.one.store) else 0
        record = frames.record(DATA[2])
        for body, wanted in ((os.urandom(3_000), 400), (record[:-1], 400), (record + b"\0\0", 400), ((8_193).to_bytes(4, "big") + bytes(8_193), 400),
                             (bytes(393_217), 413), (body_of(DATA[100:201]), 413)):
            self.assertEqual(self.one.ask("POST", body=body)[0], wanted)
        for length in ("10000000000", "9" * 300):
            self.assertEqual(self.one.ask("POST", headers={"Content-Length": length})[0], 413)
        self.assertEqual(self.one.ask("POST", body=iter([record]), headers={"Transfer-Encoding": "chunked"})[0], 411)
        self.assertIn(self.raw(b"POST /v1/reports HTTP/1.1\r\nHost: x\r\nContent-Length: +5\r\n\r\nabcde"), (400, 411))
        self.assertEqual(self.one.ask("GET")[0], 405)
        self.assertEqual(self.one.ask("POST", "/v1/../etc/passwd", b"x")[0], 404)
        self.assertEqual(self.raw(b"POST /v1/reports HTTP/1.1\r\nHost: x\r\nContent-Length: 1000\r\n\r\n" + record, shut=True), 400)
        after = kept(self.one) if EPOCH in store.epochs(self.one.store) else 0
        self.assertEqual(after, before)

    def test_bytes_of_no_protocol(self):
        for _ in range(300):
            with socket.create_connection(("127.0.0.1", PORT)) as connection:
                connection.sendall(os.urandom(200))
        self.assertEqual(self.one.post(DATA[7:8])[0], 200)

    @staticmethod
    def raw(some, shut=False):
        """The status of the answer to these bytes."""
        with socket.create_connection(("127.0.0.1", PORT), timeout=10) as connection:
            connection.sendall(some)
            if shut:
                connection.shutdown(socket.SHUT_WR)
            return int(connection.recv(100).split()[1])


class Faults(unittest.TestCase):
    def complained(self, one, name, records=()):
        """One line that names the cause, and nothing of a report or an address in the log."""
        lines = [line for line in one.lines().splitlines() if "not kept" in line]
        self.assertEqual(len([line for line in lines if f"not kept: {name}:" in line]), 1, lines)
        self.assertGreaterEqual(one.metric(f'star_not_kept_total{{why="{name}"}}'), 1)
        log = one.lines()
        self.assertNotIn("127.0.0.2", log)
        for record in records:
            for part in (record[42:58], record[-32:]):
                self.assertNotIn(part.hex(), log)
                self.assertNotIn(repr(part)[2:-1], log)

    def test_a_locked_database(self):
        with Collector(PORT) as one:
            one.post(DATA[:100])
            lock = sqlite3.connect(store.path_of(one.store, EPOCH), isolation_level=None)
            lock.execute("BEGIN IMMEDIATE")
            start = time.monotonic()
            status, text, headers = one.ask("POST", body=body_of(DATA[100:101]))
            self.assertEqual((status, text, headers["Retry-After"]), (503, "not kept: locked", "60"))
            self.assertTrue(4 < time.monotonic() - start < 15)
            self.complained(one, "locked", DATA[100:101])
            lock.execute("ROLLBACK")
            lock.close()
            self.assertEqual(one.post(DATA[100:101]), (200, "new=1 known=0 full=0 refused=0"))
            self.assertEqual(kept(one), 101)

    def test_full_files(self):
        """No file may grow beyond 1.5 MB, so that a write fails as on a full disk."""
        with Collector(PORT, file_limit=1_500_000, text=configured(more=[])) as one:
            got, sure = {}, set()
            data = support.reports(12_000)
            for at in range(0, len(data), 100):
                status, _ = one.post(data[at:at + 100])
                got[status] = got.get(status, 0) + 1
                if status == 200:
                    sure.update(data[at:at + 100])
            self.assertEqual(set(got), {200, 503})
            self.assertEqual(one.metric("star_clock_wrong"), 0)                # metrics are still there
            there = set(store.frames(one.store, EPOCH))
            self.assertLessEqual(sure, there)
            self.assertEqual(store.count(one.store, EPOCH), len(there))
            self.complained(one, "disk" if 'not kept: disk:' in one.lines() else "no_space", data[-100:])
            print(f"full files: {got}, acknowledged {len(sure)}, kept {len(there)}")

    def test_a_broken_file(self):
        with Collector(PORT) as one:
            os.makedirs(one.store, exist_ok=True)
            with open(store.path_of(one.store, EPOCH), "wb") as file:
                file.write(os.urandom(20_000))
            self.assertEqual([one.post(DATA[:1]) for _ in range(3)], [(503, "not kept: broken")] * 3)
            self.complained(one, "broken", DATA[:1])

    def test_a_folder_in_its_place(self):
        with Collector(PORT) as one:
            os.mkdir(store.path_of(one.store, EPOCH))
            self.assertEqual(one.post(DATA[:1]), (503, "not kept: not_writable"))
            self.complained(one, "not_writable", DATA[:1])
            os.rmdir(store.path_of(one.store, EPOCH))
            self.assertEqual(one.post(DATA[:1])[0], 200)

    def test_other_terms(self):
        with Collector(PORT) as one:
            one.post(DATA[:10])
            one.stop()
            one.configure(configured(layers=["land", "town"]))
            one.start()
            self.assertEqual(one.post(DATA[:1]), (503, "not kept: terms"))
            self.complained(one, "terms", DATA[:1])

    def test_a_broken_configuration(self):
        with Collector(PORT) as one:
            one.stop()
            one.configure('{"terms": 3}')
            one.start(wait=False)
            self.assertNotEqual(one.run.wait(timeout=30), 0)
            self.assertIn("collector: configuration.terms: a list of 1 to 10000 items", one.lines())

    def test_a_full_epoch(self):
        with Collector(PORT, text=configured(most=250)) as one:
            texts = [one.post(DATA[at:at + 100])[1] for at in range(0, 400, 100)]
            self.assertEqual(texts[:2], ["new=100 known=0 full=0 refused=0"] * 2)
            self.assertEqual(texts[2:], ["new=50 known=0 full=50 refused=0", "new=0 known=0 full=100 refused=0"])
            self.assertEqual(one.post(DATA[:100]), (200, "new=0 known=100 full=0 refused=0"))
            self.assertEqual(kept(one), 250)
            self.assertEqual(store.door(one.store, EPOCH), {"full": 150, "known": 100})

    def test_a_clock_a_year_off(self):
        """Neither a year behind nor a year ahead does the collector say anything for good of a report."""
        with Collector(PORT) as one:
            one.post(DATA[:10])
            for years in (-1, 1):
                one.kill()
                one.__dict__.update(_factory="clocks:application()", _path=[support.HERE], _env={"STAR_TEST_YEARS": str(years)})
                one.start()
                self.assertEqual(one.post(DATA[10:20]), (503, "not kept: clock"))
                self.assertEqual(one.metric("star_clock_wrong"), 1)
            self.complained_clock(one)

    def complained_clock(self, one):
        self.assertIn("not kept: clock: WrongClock : the clock is before epoch", one.lines())
        self.assertIn("not kept: clock: WrongClock : the clock is 364 days after the last heartbeat", one.lines())


class Names(unittest.TestCase):
    def test_each_fault_has_its_name(self):
        """And every name is one of the metric's labels, made at the start."""
        for fault, name in ((writer.Busy("x"), "busy"), (writer.WrongClock("x"), "clock"), (store.OtherTerms("x"), "terms"), (TimeoutError(), "late"),
                            (store.OtherFormat("x"), "format"), (OSError("x"), "disk"), (PermissionError("x"), "disk"), (ValueError("x"), "other"),
                            (sqlite3.OperationalError("x"), "other")):
            self.assertEqual(collector.why(fault), name)
            self.assertIn(name, metrics.WHYS)
        self.assertLessEqual({*collector.SQLITE_WHYS.values(), *collector.FAULT_WHYS.values()}, set(metrics.WHYS))

    def test_one_line_a_minute_of_each_kind(self):
        now, lines = [0], []
        one = collector.Complaints(clock=lambda: now[0], say=lambda form, *words: lines.append((words[0], now[0])))
        for now[0] in range(0, 125, 5):
            one.say("locked", ValueError("x"))
            one.say("late", ValueError("x"))
        self.assertEqual(lines, [(kind, at) for at in (0, 60, 120) for kind in ("locked", "late")])


class Reports(unittest.TestCase):
    def test_overdue_reports_show(self):
        """A closed epoch with reports is overdue until its text is there; a preview or another file is no text."""
        with Collector(PORT) as one:
            one.post(DATA[:1])
            closed = EPOCH - 3
            store.open_to_write(store.path_of(one.store, closed), store.EPOCH_TABLES, support.configuration.read(configured()).of(closed)).close()
            self.assertEqual([one.metric(name) for name in ("star_reports_overdue", "star_report_last_epoch")], [1, 0])
            for name in (f"{closed}.txt.new", "preview.txt", f"{closed}.html"):
                open(os.path.join(one.pages, name), "wb").close()
            self.assertEqual(one.metric("star_reports_overdue"), 1)
            open(os.path.join(one.pages, f"{closed}.txt"), "wb").close()
            self.assertEqual([one.metric(name) for name in ("star_reports_overdue", "star_report_last_epoch")], [0, closed])
            self.assertLess(abs(one.metric("star_report_time_seconds") - time.time()), 60)
            one.stop()
            one.start()
            self.assertEqual(one.metric(f'star_epoch_reports{{epoch="{EPOCH}"}}'), 1)     # before any report since the start


class Writers(unittest.TestCase):
    def test_a_second_collector_ends(self):
        with Collector(PORT) as one:
            other = Collector(PORT + 1, folder=one.work).start(wait=False)
            self.addCleanup(other.kill)
            self.assertNotEqual(other.run.wait(timeout=60), 0)
            self.assertIn("another collector writes to", one.lines())
            self.assertEqual(one.post(DATA[:10])[0], 200)

    def test_a_killed_worker(self):
        """gunicorn starts another one, which finds the lock free, and nothing that was acknowledged is lost."""
        with Collector(PORT) as one:
            one.post(DATA[:50])
            with open(f"/proc/{one.run.pid}/task/{one.run.pid}/children", encoding="ascii") as file:
                worker, = map(int, file.read().split())
            os.kill(worker, signal.SIGKILL)
            for _ in range(100):
                try:
                    self.assertEqual(one.post(DATA[40:60]), (200, "new=10 known=10 full=0 refused=0"))
                    break
                except (OSError, http.client.HTTPException):
                    time.sleep(.1)
            self.assertEqual(kept(one), 60)

    def test_hup_at_the_limit(self):
        """A new worker starts while the old one still answers, with room for ten more reports: the limit holds, and nothing is lost."""
        with Collector(PORT, text=configured(most=1_000)) as one:
            for at in range(0, 990, 90):
                one.post(DATA[at:at + 90])
            counts, faults = [], []

            def client(number):
                for at in range(1_000 + 300 * number, 1_300 + 300 * number, 3):
                    try:
                        counts.append(one.post(DATA[at:at + 3]))
                    except OSError as fault:
                        faults.append(fault)
            clients = [threading.Thread(target=client, args=(number,)) for number in range(4)]
            for thread in clients:
                thread.start()
            time.sleep(.2)
            os.kill(one.run.pid, signal.SIGHUP)
            for thread in clients:
                thread.join()
            time.sleep(2)
            one.wait()
            self.assertEqual(one.post(DATA[:90]), (200, "new=0 known=90 full=0 refused=0"))
            new = sum(int(text.split()[0][4:]) for status, text in counts if status == 200)
            self.assertEqual(kept(one), 1_000)
            self.assertLessEqual(new, 10)
            print(f"HUP: {len(counts)} answers, {len(faults)} cut, kept {kept(one)} of at most 1000")

    def test_a_stop_keeps_what_was_acknowledged(self):
        with Collector(PORT) as one:
            one.post(DATA[:50])
            one.stop()
            self.assertEqual(kept(one), 50)


class Bursts(unittest.TestCase):
    def test_a_burst(self):
        """Two hundred clients at once: each gets 200, or 503, and what was acknowledged is kept."""
        with Collector(PORT, threads=32) as one:
            answers = []

            def client(at):
                answers.append((at, one.post(DATA[at:at + 10])[0]))
            clients = [threading.Thread(target=client, args=(10 * number,)) for number in range(200)]
            for thread in clients:
                thread.start()
            for thread in clients:
                thread.join()
            sure = {frame for at, status in answers if status == 200 for frame in DATA[at:at + 10]}
            self.assertLessEqual({status for _, status in answers}, {200, 503})
            self.assertLessEqual(sure, set(store.frames(one.store, EPOCH)))
            self.assertGreater(len(sure), 0)
            print(f"burst: 200 requests at once, {len(sure)} reports acknowledged, all kept")


if __name__ == "__main__":
    unittest.main()
