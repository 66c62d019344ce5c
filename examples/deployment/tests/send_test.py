#!/usr/bin/python3
"""Senders before a collector that fails: send_test.py [--kills]

A server answers with everything that a collector or what is before it may answer; no report is lost, none of another body is given up, and `add`
never waits. With --kills the real collector (Debian's gunicorn and python3-prometheus-client) is killed 20 times under load by `kill -9`.
"""
import http.server
import os
import random
import signal
import socket
import subprocess
import sys
import tempfile
import threading
import time
import urllib.request

HERE = os.path.dirname(os.path.abspath(__file__))
CODE = os.path.dirname(HERE)
sys.path.insert(0, CODE)
import configuration  # noqa: E402
import frames  # noqa: E402
import send  # noqa: E402
import store  # noqa: E402
import weeks  # noqa: E402

FOREIGN = [
    (200, b"<html>captive portal</html>", {}),
    (200, b"", {}),
    (200, b"new=1 known=0 full=0 refused=0\n", {}),
    (200, b"new=-1 known=3 full=0 refused=0\n", {}),
    (204, b"", {}),
    (301, b"", {"Location": "/elsewhere"}),
    (302, b"", {"Location": "/elsewhere"}),
    (401, b"", {}),
    (403, b"", {}),
    (404, b"", {}),
    (405, b"", {}),
    (408, b"", {}),
    (429, b"", {}),
    (500, b"", {}),
    (502, b"", {}),
    (503, b"not kept: disk\n", {}),
    (504, b"", {}),
    (None, b"", {}),
    ("cut", b"", {}),
]


class Scripted(http.server.BaseHTTPRequestHandler):
    """Answers the first requests by the script, and the others as a collector does; a report of `poison` is never taken."""

    protocol_version = "HTTP/1.1"
    script, kept, poison, bodies, gets = [], {}, b"poison", [], 0

    def do_POST(self):
        body = self.rfile.read(int(self.headers["Content-Length"]))
        reports = frames.records_of(body)
        type(self).bodies.append(len(reports))
        if self.script:
            return self.say(*self.script.pop(0))
        if self.poison in reports:
            return self.say(400, b"no stream\n", {})
        new = [report for report in reports if report not in self.kept]
        self.kept.update(dict.fromkeys(reports))
        return self.say(200, b"new=%d known=%d full=0 refused=0\n" % (len(new), len(reports) - len(new)), {})

    def do_GET(self):
        type(self).gets += 1
        self.say(200, b"new=100 known=0 full=0 refused=0\n", {})

    def say(self, status, text, headers):
        if status in (None, "cut"):
            if status:
                self.wfile.write(b"HTTP/1.1 200 OK\r\nContent-Length: 99\r\n\r\nnew=")
            self.close_connection = True
            return self.connection.shutdown(socket.SHUT_RDWR)
        self.send_response(status)
        for name, value in {"Content-Length": str(len(text)), **headers}.items():
            self.send_header(name, value)
        self.end_headers()
        self.wfile.write(text)

    def log_message(self, *words):
        pass


def served(script):
    Scripted.script, Scripted.kept, Scripted.bodies = list(script), {}, []
    server = http.server.ThreadingHTTPServer(("127.0.0.1", 0), Scripted)
    threading.Thread(target=server.serve_forever, args=(0.02,), daemon=True).start()
    return server, "http://127.0.0.1:%d/v1/reports" % server.server_port


def patient(sender, seconds):
    """Flushes until nothing waits, with pauses that a test can wait for."""
    send.time.sleep, slept = lambda seconds: slept.append(seconds), []
    try:
        return sender.flush(seconds), slept
    finally:
        send.time.sleep = SLEEP


SLEEP = time.sleep


def check_answers():
    """Through each foreign answer everything waits, and goes afterwards."""
    for answer in FOREIGN:
        server, url = served([answer] * 3)
        sender = send.Sender(url, timeout=5)
        for i in range(250):
            sender.add(b"report %d" % i)
        done, slept = patient(sender, 1e6)
        assert done and len(Scripted.kept) == 250 and sender.given_up == sender.dropped == 0 and len(slept) == 3, (answer, slept)
        assert sum(sender.counts.values()) == 250 and not sender.waiting and Scripted.gets == 0  # a redirected report would become a GET
        server.shutdown()
    server, url = served([(503, b"", {"Retry-After": "7"}), (429, b"", {"Retry-After": "1e9"})])
    sender = send.Sender(url)
    sender.add(b"one")
    done, slept = patient(sender, 1e6)
    assert done and 7 <= slept[0] <= 14 and slept[1] < 2, slept
    server.shutdown()


def check_never():
    """One report that is never taken is given up alone, and those around it arrive."""
    server, url = served([])
    sender = send.Sender(url)
    for i in range(450):
        sender.add(Scripted.poison if i == 137 else b"report %d" % i)
    done, slept = patient(sender, 1e6)
    assert (
        done and sender.given_up == 1 and len(Scripted.kept) == 449 and not slept and max(Scripted.bodies) == 100 and len(Scripted.bodies) < 25
    ), Scripted.bodies
    server.shutdown()


def check_full():
    """Reports of a full epoch wait, and go again an hour later."""
    server, url = served([(200, b"new=1 known=0 full=1 refused=0\n", {})])
    sender = send.Sender(url)
    sender.add(b"a")
    sender.add(b"b")
    assert not sender.flush(1) and sender.waiting == [b"a", b"b"] and not sender.flush(1) and len(Scripted.bodies) == 1
    sender._not_before = 0
    assert sender.flush(1) and sum(sender.counts.values()) == 2
    server.shutdown()


def check_add():
    """`add` waits for nothing while a flush hangs, and the oldest is dropped at the bound, counted."""
    with socket.create_server(("127.0.0.1", 0)) as silent:
        sender = send.Sender("http://127.0.0.1:%d/" % silent.getsockname()[1], most=1_000, timeout=2)
        sender.add(b"first")
        flush = threading.Thread(target=sender.flush, args=(1,), daemon=True)
        flush.start()
        time.sleep(0.2)
        start = time.monotonic()
        for i in range(1_500):
            sender.add(b"report %d" % i)
        assert time.monotonic() - start < 1 and flush.is_alive() and len(sender.waiting) == 1_000 and sender.dropped == 501
        flush.join()


def check_pauses():
    """The pauses of many senders after the same fault are spread, and grow."""
    pauses = []
    for _ in range(200):
        sender = send.Sender("http://127.0.0.1:1/")
        sender.add(b"x")
        pauses.append(patient(sender, 20)[1])
    firsts, lasts = sorted(one[0] for one in pauses), [one[-1] for one in pauses]
    assert 0.25 <= firsts[0] < firsts[100] - 0.05 < firsts[-1] - 0.1 <= 0.5 and min(lasts) > 8 * max(firsts), (firsts, lasts)


def check_command():
    """A table's rows as reports, twice: what isn't kept is in the file, bad rows are named, and values have their normal form."""
    with tempfile.TemporaryDirectory() as folder:
        waiting, table = os.path.join(folder, "waiting"), os.path.join(folder, "rows.csv")
        with open(table, "w", encoding="utf-8") as file:
            file.write("\ufeffDE,Berlin\n  DE ,\"Frank,furt\"\nFR\n%s,x\n\nFR,Paris\n" % ("é" * 33))
        words = [sys.executable, os.path.join(CODE, "send.py"), "--waiting", waiting, "--patience", "1", "--url"]
        away = subprocess.run(words + ["http://127.0.0.1:1/", table], stdout=subprocess.PIPE, stderr=subprocess.PIPE, text=True)
        assert (
            away.returncode == 1
            and "waiting=3" in away.stdout
            and "bad_rows=2" in away.stdout
            and "row 3: " in away.stderr
            and "row 4: " in away.stderr
        ), away
        server, url = served([])
        again = subprocess.run(words + [url], stdout=subprocess.PIPE, text=True)
        assert again.returncode == 0 and "new=3" in again.stdout and "waiting=0" in again.stdout and os.path.getsize(waiting) == 0, again
        epoch, terms = weeks.epoch_at(time.time()), configuration.load().of(weeks.epoch_at(time.time()))
        assert all((frame := frames.read(report)).epoch == epoch and frame.threshold == terms.thresholds[0] for report in Scripted.kept)
        assert sorted(frames.read(report).box for report in Scripted.kept) == [2, 2, 2]
        server.shutdown()


def collector(folder, port):
    """The real collector, once it answers."""
    surroundings = dict(os.environ, STAR_STORE=folder, STAR_CONFIGURATION=os.path.join(CODE, "configuration.json"))
    child = subprocess.Popen(
        [
            "/usr/bin/gunicorn",
            "--worker-class",
            "gthread",
            "--workers",
            "1",
            "--threads",
            "8",
            "--bind",
            "127.0.0.1:%d" % port,
            "--log-level",
            "critical",
            "collector:application()",
        ],
        cwd=CODE,
        env=surroundings,
        start_new_session=True,
    )
    for _ in range(200):
        try:
            urllib.request.urlopen("http://127.0.0.1:%d/metrics" % port, timeout=5).close()
            return child
        except OSError:
            time.sleep(0.05)
    raise SystemExit("the collector doesn't start")


def check_kills(kills=20):
    """Under kills of the real collector each report arrives and is kept once; one report that gets 400 is given up alone."""
    with tempfile.TemporaryDirectory() as folder, socket.create_server(("127.0.0.1", 0)) as free:
        port = free.getsockname()[1]
        free.close()
        made, epoch = send.client().Client(), weeks.epoch_at(time.time())
        terms = configuration.load(os.path.join(CODE, "configuration.json")).of(epoch)
        reports = [made.report(["Germany", "Berlin %d" % (i % 50)], terms.thresholds, epoch) for i in range(4_000)]
        sender, child = send.Sender("http://127.0.0.1:%d/v1/reports" % port), collector(folder, port)
        slowest, stop = 0, threading.Event()
        flush = threading.Thread(target=lambda: [sender.flush(5) for _ in iter(lambda: stop.is_set() and not sender.waiting, True)], daemon=True)
        flush.start()
        for kill in range(kills):
            for report in reports[kill * 200 : (kill + 1) * 200] + [b"x" * 9_000] * (kill == 3):
                start = time.monotonic()
                sender.add(report)
                slowest = max(slowest, time.monotonic() - start)
            time.sleep(random.uniform(0, 0.3))
            os.killpg(child.pid, signal.SIGKILL)
            child.wait()
            child = collector(folder, port)
        stop.set()
        flush.join(timeout=120)
        os.killpg(child.pid, signal.SIGTERM)
        child.wait()
        kept = list(store.frames(folder, epoch))
        assert kept == sorted(reports) and sender.given_up == 1 and not sender.waiting and slowest < 0.5, (
            len(kept),
            sender.given_up,
            sender.counts,
            slowest,
        )
        print("     %d kills, 4,000 reports kept once each, 1 given up, the slowest add %.1f ms, %s" % (kills, 1e3 * slowest, sender.counts))


def main():
    checks = [check_answers, check_never, check_full, check_add, check_pauses, check_command] + [check_kills] * ("--kills" in sys.argv)
    for check in checks:
        start = time.monotonic()
        check()
        print("ok   %-20s %.1f s" % (check.__name__, time.monotonic() - start), flush=True)


if __name__ == "__main__":
    main()
