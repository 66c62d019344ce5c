"""What the collector counts, for Prometheus: on its own loopback port, which nginx doesn't pass on."""
import os
import sqlite3
import time

import store
from prometheus_client import Counter, Histogram, REGISTRY
from prometheus_client.core import GaugeMetricFamily

OUTCOMES = ("new", "known", "full", *store.REFUSALS)
STATUSES = (200, 400, 404, 405, 411, 413, 503)
WHYS = ("busy", "locked", "no_space", "broken", "disk", "not_writable", "clock", "terms", "format", "late", "other")

REPORTS = Counter("star_reports", "Records by what came of them.", ["outcome"])
REQUESTS = Counter("star_requests", "Requests with reports, by status.", ["status"])
NOT_KEPT = Counter("star_not_kept", "Requests that were answered with 503, by why.", ["why"])
COMMIT = Histogram("star_store_seconds", "From a whole body to its reports on the disk.",
                   buckets=(.001, .0025, .005, .01, .025, .05, .1, .25, .5, 1, 2.5, 5))
for _counter, _labels in ((REPORTS, OUTCOMES), (REQUESTS, STATUSES), (NOT_KEPT, WHYS)):
    for _label in _labels:
        _counter.labels(str(_label))    # so that each is 0 before the first, and an increase shows


def _gauge(name, about, value):
    """A gauge of one value."""
    gauge = GaugeMetricFamily(name, about)
    gauge.add_metric([], value)
    return gauge


def finished(pages):
    """The epochs that have a text in the folder of pages, and the time of the newest text."""
    found, newest = [], 0
    with os.scandir(pages) as entries:
        for entry in entries:
            name, _, end = entry.name.partition(".")
            if end == "txt" and name.isdecimal():
                found.append(int(name))
                newest = max(newest, entry.stat().st_mtime)
    return found, newest


class StoreState:
    """Gauges that are read from the folders at each scrape, so that they don't go when the collector is idle."""

    def __init__(self, folder, pages, configuration, clock_fault, clock=time.time):
        self._folder, self._pages, self._configuration = folder, pages, configuration
        self._clock_fault, self._clock = clock_fault, clock
        REGISTRY.register(self)

    def describe(self):
        """Nothing is promised before the first scrape."""
        return []

    def collect(self):
        """The gauges of now."""
        now = self._clock()
        yield from self._epochs(now)
        yield _gauge("star_clock_wrong", "1 if the clock isn't believed.", int(self._clock_fault(now) is not None))
        disk = os.statvfs(self._folder)
        yield _gauge("star_disk_free_ratio", "The free part of the store's file system.", disk.f_bavail / disk.f_blocks)
        if self._pages and os.path.isdir(self._pages):
            yield from self._reports(now)

    def _epochs(self, now):
        kept = GaugeMetricFamily("star_epoch_reports", "Reports kept of an epoch that is taken.", labels=["epoch"])
        most = GaugeMetricFamily("star_epoch_limit", "The most reports that it may have.", labels=["epoch"])
        unreadable = 0
        for epoch in filter(self._configuration.of, self._configuration.taken(now)):
            try:
                kept.add_metric([str(epoch)], store.count(self._folder, epoch))
            except (sqlite3.Error, store.OtherFormat):
                unreadable += 1
            most.add_metric([str(epoch)], self._configuration.of(epoch).most_reports)
        yield kept
        yield most
        yield _gauge("star_epochs_unreadable", "Epochs that are taken and whose file can't be read.", unreadable)

    def _reports(self, now):
        done, newest = finished(self._pages)
        waiting = [epoch for epoch in store.epochs(self._folder) if self._configuration.is_closed(epoch, now) and epoch not in done]
        yield _gauge("star_report_last_epoch", "The newest epoch that has a finished text.", max(done, default=0))
        yield _gauge("star_report_time_seconds", "When the newest text was written.", newest)
        yield _gauge("star_reports_overdue", "Closed epochs with reports and without a text.", len(waiting))
