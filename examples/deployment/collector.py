"""The collector as a WSGI application: gunicorn --worker-class gthread --workers 1 --threads 32 'collector:application()'

One process, since it has the one writer. It answers 200 once everything that the answer says is on the disk.
"""
import logging
import os
import sqlite3
import sys
import threading
import time
from concurrent.futures import TimeoutError as Late

import configuration
import frames
import intake
import metrics
import store
import writer
from prometheus_client import make_wsgi_app

PHRASES = {200: "200 OK", 400: "400 Bad Request", 404: "404 Not Found", 405: "405 Method Not Allowed", 411: "411 Length Required",
           413: "413 Content Too Large", 503: "503 Service Unavailable"}
RETRY_AFTER = "60"                  # seconds, with each 503
COMMIT_PATIENCE = 20                # seconds
WORKER_BOOT_ERROR = 3               # with any other status, gunicorn would start the worker again and again
SQLITE_WHYS = {"SQLITE_BUSY": "locked", "SQLITE_LOCKED": "locked", "SQLITE_FULL": "no_space", "SQLITE_CORRUPT": "broken", "SQLITE_NOTADB": "broken",
               "SQLITE_IOERR": "disk", "SQLITE_READONLY": "not_writable", "SQLITE_CANTOPEN": "not_writable", "SQLITE_PERM": "not_writable"}
FAULT_WHYS = {writer.Busy: "busy", writer.WrongClock: "clock", store.OtherTerms: "terms", store.OtherFormat: "format", Late: "late",
              OSError: "disk"}


def why(fault):
    """The name of a fault that kept reports out of the store."""
    if isinstance(fault, sqlite3.Error):
        name = getattr(fault, "sqlite_errorname", "")
        return next((word for start, word in SQLITE_WHYS.items() if name.startswith(start)), "other")
    return next((word for kind, word in FAULT_WHYS.items() if isinstance(fault, kind)), "other")


class Complaints:
    """Lines of the log, at most one a minute of each kind. None has an address or a byte of a report."""

    def __init__(self, clock=time.monotonic, say=logging.getLogger("star").error):
        self._clock, self._say, self._last, self._lock = clock, say, {}, threading.Lock()

    def say(self, kind, fault):
        """Writes a line, unless one of this kind was written within the minute."""
        now = self._clock()
        with self._lock:
            if now - self._last.get(kind, -60) < 60:
                return
            self._last[kind] = now
        self._say("reports not kept: %s: %s %s: %s", kind, type(fault).__name__, getattr(fault, "sqlite_errorname", ""), fault)


class Collector:
    """Answers requests, by a writer and a configuration."""

    def __init__(self, folder, terms, clock=time.time, **writing):
        self._configuration, self._clock, self._complaints = terms, clock, Complaints()
        self._writer = writer.Writer(folder, terms, clock=clock, **writing)

    def clock_fault(self, now):
        """Why this time isn't believed; None if it is."""
        try:
            self._writer.refuse_wrong_clock(now)
        except writer.WrongClock as fault:
            return fault
        return None

    def reports(self, environ):
        """The status and the text of the answer to one request with reports."""
        if environ["REQUEST_METHOD"] != "POST":
            return 405, "POST a stream of records\n"
        length = environ.get("CONTENT_LENGTH") or ""
        if not (length.isascii() and length.isdigit()):
            return 411, "the length is wanted\n"
        if len(length) > 10 or int(length) > intake.MAX_BODY:
            return 413, f"at most {intake.MAX_BODY} bytes\n"
        body = environ["wsgi.input"].read(int(length))
        if len(body) != int(length):
            return 400, "the body is cut\n"
        try:
            return self._kept(body)
        except intake.TooMany as fault:
            return 413, f"{fault}\n"
        except frames.NoStream as fault:
            return 400, f"{fault}\n"

    def _kept(self, body):
        """The answer to a whole body; 503 if its reports can't be kept now."""
        try:
            now = self._clock()
            self._writer.refuse_wrong_clock(now)
            reports, refusals = intake.judged(body, self._configuration, now)
            with metrics.COMMIT.time():
                outcomes = self._writer.put(reports, refusals).result(timeout=COMMIT_PATIENCE)
        except (intake.TooMany, frames.NoStream):
            raise
        except Exception as fault:
            return self._not_kept(fault)
        for outcome, number in outcomes.items():
            metrics.REPORTS.labels(outcome).inc(number)
        refused = sum(outcomes[reason] for reason in store.REFUSALS)
        return 200, f"new={outcomes['new']} known={outcomes['known']} full={outcomes['full']} refused={refused}\n"

    def _not_kept(self, fault):
        name = why(fault)
        metrics.NOT_KEPT.labels(name).inc()
        self._complaints.say(name, fault)
        return 503, f"not kept: {name}\n"


class Application:
    """The WSGI application: reports, and metrics."""

    def __init__(self, collector):
        self._collector, self._metrics = collector, make_wsgi_app()

    def __call__(self, environ, start_response):
        path = environ["PATH_INFO"]
        if path == "/metrics":
            return self._metrics(environ, start_response)
        status, text = self._collector.reports(environ) if path == "/v1/reports" else (404, "nothing here\n")
        metrics.REQUESTS.labels(str(status)).inc()
        headers = [("Content-Type", "text/plain; charset=utf-8"), ("Content-Length", str(len(text))), ("Cache-Control", "no-store")]
        if status == 503:
            headers.append(("Retry-After", RETRY_AFTER))
        start_response(PHRASES[status], headers)
        return [text.encode()]


def application(clock=time.time, **writing):
    """The application for the folders and the file that the environment names; ends gunicorn with a message if it can't start."""
    folder = os.environ.get("STAR_STORE", "store")
    try:
        terms = configuration.load()
        collector = Collector(folder, terms, clock, **writing)
    except (configuration.ConfigurationFault, writer.OtherWriter, OSError) as fault:
        print(f"collector: {fault}", file=sys.stderr, flush=True)
        sys.exit(WORKER_BOOT_ERROR)
    metrics.StoreState(folder, os.environ.get("STAR_PAGES"), terms, collector.clock_fault, clock)
    return Application(collector)
