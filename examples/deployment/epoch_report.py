#!/usr/bin/env python3
"""Opens the reports of weeks that are over, and makes their pages.

Without options it opens each closed epoch that has reports in the store and no finished text, the oldest first, and makes the pages that are missing.
It can be run again at any time: a text is checked whole before it takes its place, and one with fewer reports never takes the place of one with more.
An epoch that fails is named, the others are made, and the status is 1.
"""
import argparse
import os
import sqlite3
import subprocess
import sys
import time

import configuration
import frames
import star_text
import store
from page_folder import PREVIEW, PageFolder, WorseText

STATUSES = {5: "too many records for one run", 6: "no memory"}


class NotOpened(Exception):
    """The reports of an epoch couldn't be opened; the message says why."""


def feed(child, reports):
    """Writes reports to the program one by one; how many there were."""
    number = 0
    try:
        with child.stdin:
            for number, frame in enumerate(reports, 1):
                child.stdin.write(frames.record(frame))
    except BrokenPipeError:
        pass  # it ended before it had read all, and its status says why
    return number


def open_reports(program, kept, epoch, path):
    """Has the program write the text of an epoch to a file."""
    with open(path, "wb") as text:
        try:
            child = subprocess.Popen([program, "reveal", "--epoch", str(epoch)], stdin=subprocess.PIPE, stdout=text)
        except OSError as fault:
            raise NotOpened("%s can't be started: %s" % (program, fault)) from fault
        try:
            number = feed(child, store.frames(kept, epoch))
        except BaseException:
            child.kill()
            raise
        finally:
            status = child.wait()
    if status:
        raise NotOpened("%s ended with %d%s" % (program, status, ": " + STATUSES[status] if status in STATUSES else ""))
    return number


class Report:
    """What one call of the command does."""

    def __init__(self, kept, folder, program, terms, now):
        self.kept, self.folder, self.program, self.terms, self.now = kept, folder, program, terms, now
        self.faults = 0

    def due(self):
        """The closed epochs whose text is missing, or has fewer records than the store by now."""
        for epoch in store.epochs(self.kept):
            if self.terms.is_closed(epoch, self.now):
                counts = self.folder.counts(epoch)
                if counts is None or counts.records < store.count(self.kept, epoch):
                    yield epoch

    def open(self, epoch, name, fewer=False):
        """The text of an epoch, checked, in its place."""
        number = open_reports(self.program, self.kept, epoch, self.folder.new(name, "txt"))
        counts = self.folder.take_text(name, number, fewer)
        print("epoch %d: %d reports, %d records refused" % (epoch, counts.rows, counts.refused), flush=True)

    def page(self, epoch, name):
        """The page of a text, with what the store knows and else with what the page before it knew."""
        before = self.folder.kept(name)
        terms = store.terms(self.kept, epoch) or self.terms.of(epoch)
        terms = before.get("terms") if terms is None else {key: getattr(terms, key) for key in ("layers", "thresholds", "version", "most_reports")}
        door = store.door(self.kept, epoch) or before.get("door") or ({} if os.path.isdir(self.kept) else None)
        self.folder.make_page(name, epoch, terms, door)

    def pages(self, all_anew=False):
        """The pages that are missing or of another text, and that of all weeks."""
        unreadable = []
        for epoch in self.folder.epochs():
            if all_anew or not self.folder.kept(epoch)["fresh"]:
                try:
                    self.page(epoch, epoch)
                except star_text.NotTheText as fault:
                    unreadable.append(("%d.txt" % epoch, str(fault)))
                    self.complain(epoch, fault)
        self.folder.drop_preview()
        self.folder.make_index(unreadable)

    def complain(self, epoch, fault):
        self.faults += 1
        print("epoch %d: %s" % (epoch, fault), file=sys.stderr, flush=True)

    def attempt(self, epoch, name, fewer=False):
        """Opens an epoch; a fault is named, and the next can be tried."""
        try:
            self.open(epoch, name, fewer)
        except (NotOpened, WorseText, star_text.NotTheText, OSError, sqlite3.Error) as fault:
            self.complain(epoch, fault)

    def preview(self, epoch):
        """The page of an epoch whose reports are still taken."""
        self.attempt(epoch, PREVIEW, fewer=True)
        if not self.faults:
            self.page(epoch, PREVIEW)

    def forget(self, epoch):
        """Deletes the reports of a closed epoch whose text has them all."""
        counts = self.folder.counts(epoch)
        if counts is None or counts.records < store.count(self.kept, epoch):
            self.complain(epoch, "its reports are kept, since there is no text that has them all")
        else:
            store.forget(self.kept, epoch, self.terms.taken(self.now))


def parsed():
    words = argparse.ArgumentParser(description=__doc__, formatter_class=argparse.RawDescriptionHelpFormatter)
    words.add_argument("--epoch", type=int, help="open this closed epoch, even if it has a text")
    words.add_argument("--fewer", action="store_true", help="with --epoch: also if the new text has fewer reports than the old one")
    words.add_argument("--forget", action="store_true", help="with --epoch: delete its reports once the text has them all")
    words.add_argument("--preview", action="store_true", help="open the week that isn't over, as preview.html; no text and no page of a week changes")
    words.add_argument("--pages", action="store_true", help="make all pages anew from the texts, and open nothing")
    return words.parse_args()


def run(report, words):
    """Does what the words say, under the lock of the folder."""
    report.folder.drop_new()
    if words.preview:
        report.preview(report.terms.taken(report.now)[-1] if words.epoch is None else words.epoch)
    elif words.epoch is not None:
        if not report.terms.is_closed(words.epoch, report.now):
            sys.exit("epoch %d isn't closed: its reports are still taken, or it hasn't begun" % words.epoch)
        if words.epoch not in store.epochs(report.kept):
            sys.exit("the store has no reports of epoch %d; what was made of them stays" % words.epoch)
        report.attempt(words.epoch, words.epoch, words.fewer)
    elif not words.pages:
        for epoch in list(report.due()):
            report.attempt(epoch, epoch)
    report.pages(words.pages)
    if words.forget and words.epoch is not None and not report.faults:
        report.forget(words.epoch)


def main():
    words = parsed()
    folder = PageFolder(os.environ.get("STAR_PAGES", "pages"))
    with folder.locked():
        report = Report(os.environ.get("STAR_STORE", "store"), folder, os.environ.get("STAR_TOOL", "star_tool"), configuration.load(), time.time())
        run(report, words)
    sys.exit(1 if report.faults else 0)


if __name__ == "__main__":
    main()
