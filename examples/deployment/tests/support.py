"""What the tests share: reports by the client of bindings/python, a configuration, and a collector under gunicorn."""
import contextlib
import http.client
import json
import os
import resource
import signal
import subprocess
import sys
import tempfile
import time

HERE = os.path.dirname(os.path.abspath(__file__))
DEPLOYMENT = os.path.dirname(HERE)
ROOT = os.path.dirname(os.path.dirname(DEPLOYMENT))
LIBRARY = os.path.join(ROOT, "bindings/c/lib/x86_64-linux/libstar_client.so")
sys.path[:0] = [DEPLOYMENT, os.path.join(ROOT, "bindings/python")]

import configuration  # noqa: E402
import frames  # noqa: E402
import weeks  # noqa: E402
from star_client import Client  # noqa: E402

THRESHOLDS = [20, 10]
TERMS = {"from_epoch": 2_000, "version": 1, "layers": ["country", "city"], "thresholds": THRESHOLDS}


def epoch_now():
    """The epoch of now."""
    return weeks.epoch_at(time.time())


def configured(most=131_072, more=(), **changes):
    """A configuration with one entry, and more after it."""
    entries = [{**TERMS, "most_reports": most, **changes}, *more]
    return json.dumps({"early_seconds": 3_600, "late_seconds": 172_800, "terms": entries})


def reports(number, epoch=None, thresholds=THRESHOLDS, version=1, spread=50):
    """So many reports of two layers, each with its own seed."""
    client = Client(LIBRARY)
    rows = [[f"country {i % 7}", f"city {i % spread}"][:len(thresholds)] for i in range(number)]
    stream = client.records(rows, thresholds, epoch_now() if epoch is None else epoch, version=version)
    return frames.records_of(bytes(stream))


def body_of(some):
    """The body of a request with these reports."""
    return b"".join(map(frames.record, some))


class Collector:
    """A collector under gunicorn on loopback, in a folder of its own unless one is given; ended with its folder."""

    def __init__(self, port, threads=8, text=None, folder=None, file_limit=None, factory="collector:application()", path=(), before=(), env=()):
        self._own = None if folder else tempfile.TemporaryDirectory()
        self.work = folder or self._own.name
        self.port, self.store, self.pages = port, os.path.join(self.work, "store"), os.path.join(self.work, "pages")
        self.log = os.path.join(self.work, "log")
        self.configuration = os.path.join(self.work, "configuration.json")
        self._threads, self._file_limit, self._factory = threads, file_limit, factory
        self._path, self._before, self._env = path, before, dict(env)
        os.makedirs(self.pages, exist_ok=True)
        if text or not os.path.exists(self.configuration):
            self.configure(text or configured())
        self.run = None

    def configure(self, text):
        """Puts a configuration in the place of the collector's, for its next start."""
        with open(self.configuration, "w", encoding="utf-8") as file:
            file.write(text)

    def _limits(self):
        if self._file_limit:
            signal.signal(signal.SIGXFSZ, signal.SIG_IGN)
            resource.setrlimit(resource.RLIMIT_FSIZE, (self._file_limit, self._file_limit))

    def start(self, wait=True):
        """Starts the collector in a process group of its own."""
        env = {**os.environ, "STAR_STORE": self.store, "STAR_PAGES": self.pages, "STAR_CONFIGURATION": self.configuration,
               "PYTHONDONTWRITEBYTECODE": "1", "PYTHONPATH": os.pathsep.join([DEPLOYMENT, *self._path]), **self._env}
        command = [*self._before, "/usr/bin/gunicorn", "--worker-class", "gthread", "--workers", "1", "--threads", str(self._threads),
                   "--graceful-timeout", "15", "--bind", f"127.0.0.1:{self.port}", "--log-level", "warning", self._factory]
        with open(self.log, "ab") as log:
            self.run = subprocess.Popen(command, cwd=DEPLOYMENT, env=env, stdout=log, stderr=log, start_new_session=True, preexec_fn=self._limits)
        if wait:
            self.wait()
        return self

    def wait(self):
        """Waits until it answers."""
        for _ in range(600):
            try:
                self.ask("GET", "/metrics")
                return
            except OSError:
                if self.run.poll() is not None:
                    break
                time.sleep(.05)
        raise RuntimeError("the collector doesn't start: " + self.lines())

    def kill(self):
        """Ends the group that was started here, without notice."""
        with contextlib.suppress(ProcessLookupError):
            os.killpg(self.run.pid, signal.SIGKILL)
        self.run.wait()

    def stop(self):
        """Ends the collector as a service manager does."""
        self.run.terminate()
        self.run.wait(timeout=60)

    def __enter__(self):
        return self.start()

    def __exit__(self, *_):
        self.kill()
        if self._own:
            self._own.cleanup()

    def ask(self, method, path="/v1/reports", body=None, headers=(), timeout=60):
        """Status, text and headers of an answer."""
        connection = http.client.HTTPConnection("127.0.0.1", self.port, timeout=timeout)
        try:
            connection.request(method, path, body, dict(headers))
            answer = connection.getresponse()
            return answer.status, answer.read().decode().strip(), dict(answer.getheaders())
        finally:
            connection.close()

    def post(self, some, **words):
        """Status and text of the answer to these reports."""
        return self.ask("POST", body=body_of(some), **words)[:2]

    def lines(self):
        """What it logged."""
        with open(self.log, encoding="utf-8", errors="replace") as file:
            return file.read()

    def metric(self, name):
        """The value of a metric, by its name with labels."""
        for line in self.ask("GET", "/metrics")[1].splitlines():
            if line.startswith(name + " "):
                return float(line.split()[-1])
        return None
