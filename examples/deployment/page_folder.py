"""The folder of texts and pages: E.txt is the text of epoch E, E.html its page, E.json what the page of all weeks needs; `preview` in place of E for
a week that isn't over. Files change as a whole or not at all, and only under the folder's lock."""
import contextlib
import datetime
import fcntl
import json
import os

import epoch_summary
import page
import star_text
import weeks

PREVIEW = "preview"


class WorseText(Exception):
    """A text has fewer reports than the one whose place it would take, or other records than were opened."""


def _settle(path):
    """Puts what was written to a file or a folder's list of names into the disk."""
    handle = os.open(path, os.O_RDONLY)
    try:
        os.fsync(handle)
    finally:
        os.close(handle)


class PageFolder:
    def __init__(self, path):
        self.path = path
        os.makedirs(path, exist_ok=True)

    def at(self, name, kind):
        return os.path.join(self.path, "%s.%s" % (name, kind))

    @contextlib.contextmanager
    def locked(self):
        """Waits until no other process changes the folder."""
        with open(os.path.join(self.path, ".lock"), "w") as lock:
            fcntl.flock(lock, fcntl.LOCK_EX)
            yield

    def new(self, name, kind):
        """The path of a file that `take` puts in its place."""
        return self.at(name, kind) + ".new"

    def take(self, name, kind):
        """Puts a new file into the place of its old one."""
        _settle(self.new(name, kind))
        os.replace(self.new(name, kind), self.at(name, kind))
        _settle(self.path)

    def write(self, name, kind, text):
        with open(self.new(name, kind), "w", encoding="utf-8") as file:
            file.write(text)
        self.take(name, kind)

    def drop_new(self):
        """Removes what a run left that didn't end."""
        for entry in os.listdir(self.path):
            if entry.endswith(".new"):
                os.remove(os.path.join(self.path, entry))

    def epochs(self):
        """The epochs that have a text, in ascending order."""
        return sorted(
            int(name) for name, dot, kind in (entry.partition(".") for entry in os.listdir(self.path)) if kind == "txt" and name.isdecimal()
        )

    def take_text(self, name, records, fewer=False):
        """Checks a new text, and takes it; its counts.

        WorseText if it has other records than so many, or the old one more reports; NotTheText if it isn't a text.
        """
        with open(self.new(name, "txt"), "rb") as file:
            for counts in star_text.lines(file):
                pass
        if counts.records != records:
            raise WorseText("the text has %d records, and the store %d" % (counts.records, records))
        old = self.counts(name)
        if old is not None and old.rows > counts.rows and not fewer:
            raise WorseText("the text that is there has %d reports, and the new one %d" % (old.rows, counts.rows))
        self.take(name, "txt")
        return counts

    def counts(self, name):
        """The last line of a text; None if there is no text, or none that can be read."""
        try:
            with open(self.at(name, "txt"), "rb") as file:
                file.seek(max(0, os.path.getsize(file.name) - 200))
                last = file.read().rpartition(b"\n")[0].rpartition(b"\n")[2]
            return star_text.Counts(*map(int, star_text.COUNTS.fullmatch(last).groups()))
        except (FileNotFoundError, AttributeError):
            return None

    def mark(self, name):
        """What tells one text in the file from another."""
        found = os.stat(self.at(name, "txt"))
        return [found.st_size, found.st_mtime_ns]

    def make_page(self, name, epoch, terms, door):
        """The page of a text and its E.json, the page first. `terms` is None or has layers, thresholds, version and most_reports."""
        plan = terms and epoch_summary.Plan(tuple(terms["thresholds"]), terms["version"])
        mark = self.mark(name)
        summary = epoch_summary.of_file(self.at(name, "txt"), plan)
        about = self._about(name, epoch, terms, door)
        self.write(name, "html", page.epoch_page(summary, about))
        self.write(
            name, "json", json.dumps({"text": mark, "epoch": epoch, "terms": terms, "door": door, "week": _plain(page.week_of(summary, about))})
        )

    def _about(self, name, epoch, terms, door):
        made = datetime.datetime.fromtimestamp(os.path.getmtime(self.at(name, "txt")), datetime.timezone.utc)
        about = page.About(epoch, weeks.name_of(epoch), made.strftime("%Y-%m-%d %H:%M UTC"), name != PREVIEW, door=door, text_name="%s.txt" % name)
        if terms:
            about.names, about.limit = tuple(terms["layers"]), terms["most_reports"]
        return about

    def kept(self, name):
        """E.json, if it is of the text that is there; otherwise what of it is still true, which may be nothing."""
        try:
            with open(self.at(name, "json"), encoding="utf-8") as file:
                found = json.load(file)
            found["fresh"] = (
                found["text"] == self.mark(name) and os.path.exists(self.at(name, "html")) and {"epoch", "week", "terms", "door"} <= set(found)
            )
            return found
        except (OSError, ValueError, KeyError, TypeError):
            return {"fresh": False, "terms": None, "door": None}

    def week(self, name):
        """A week for the page of all weeks."""
        found = self.kept(name)
        about = self._about(name, found["epoch"], found["terms"], found["door"])
        first = [(star_text.Step(bytes.fromhex(value), threshold, version), members) for value, threshold, version, members in found["week"]["first"]]
        return page.Week(about, first=first, **{key: found["week"][key] for key in ("rows", "records", "opened", "few", "refused")})

    def make_index(self, unreadable):
        """The page of all weeks; `unreadable` has names of texts with what is wrong."""
        bad = {name for name, _ in unreadable}
        found = [self.week(str(epoch)) for epoch in self.epochs() if "%d.txt" % epoch not in bad]
        preview = self.week(PREVIEW) if self.kept(PREVIEW)["fresh"] else None
        self.write("index", "html", page.index_page(found, unreadable, preview))

    def drop_preview(self):
        """Removes a preview whose epoch has its text by now."""
        if self.kept(PREVIEW).get("epoch") in self.epochs():
            for kind in ("json", "html", "txt"):
                with contextlib.suppress(FileNotFoundError):
                    os.remove(self.at(PREVIEW, kind))


def _plain(week):
    """A week as JSON has it."""
    first = [[step.value.hex(), step.threshold, step.version, members] for step, members in week.first]
    return {"rows": week.rows, "records": week.records, "opened": week.opened, "few": week.few, "refused": week.refused, "first": first}
