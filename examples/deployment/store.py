"""Kept reports: a SQLite file for each epoch, in which each report is its own key, and one file for what the door counted.

A client makes each report once, so the same bytes again are a retry and are kept once. In the order of the key no order of arrival can be seen,
and no row has a time. Forgetting an epoch is deleting its file. This module opens, reads and forgets; `writer` alone adds.
"""
import contextlib
import os
import sqlite3
import urllib.parse

import configuration

FORMAT = 1                          # the number of this layout, in user_version
END = ".sqlite"
DOOR = "door" + END
FORGOTTEN = "forgotten"
LOCK = "lock"
REFUSALS = ("no_frame", "other_level", "other_epoch", "other_version", "other_threshold", "other_layers")
EPOCH_TABLES = """
    CREATE TABLE reports (frame BLOB PRIMARY KEY) WITHOUT ROWID;
    CREATE TABLE epoch (terms TEXT NOT NULL, kept INTEGER NOT NULL);
"""
DOOR_TABLES = "CREATE TABLE door (week INTEGER, outcome TEXT, number INTEGER NOT NULL, PRIMARY KEY (week, outcome)) WITHOUT ROWID;"


class StillTaken(Exception):
    """Reports of this epoch are still taken, so it can't be forgotten."""


class OtherFormat(Exception):
    """The file is of another version of this deployment."""


class OtherTerms(Exception):
    """The epoch's reports were taken under other terms than the configuration has now."""


def path_of(folder, epoch):
    """The file of an epoch."""
    return os.path.join(folder, f"{epoch:010d}{END}")


def sync_folder(folder):
    """Puts the names in a folder on the disk."""
    descriptor = os.open(folder, os.O_RDONLY | os.O_DIRECTORY)
    try:
        os.fsync(descriptor)
    finally:
        os.close(descriptor)


def _refuse_other_format(base, path):
    found, = base.execute("PRAGMA user_version").fetchone()
    if found != FORMAT:
        raise OtherFormat(f"{os.path.basename(path)} has format {found}, and this program writes {FORMAT}")


def _is_empty(base):
    """Whether the file has no tables yet, as after a loss of power at its first moment."""
    return base.execute("PRAGMA user_version").fetchone() == (0,) and not base.execute("SELECT 1 FROM sqlite_master").fetchone()


def _make(base, tables, terms):
    """Makes the tables in one transaction, unless they are there."""
    base.execute("BEGIN IMMEDIATE")
    if _is_empty(base):
        for statement in filter(str.strip, tables.split(";")):
            base.execute(statement)
        if terms is not None:
            base.execute("INSERT INTO epoch VALUES (?, 0)", (terms.as_json(),))
        base.execute(f"PRAGMA user_version = {FORMAT}")
    base.execute("COMMIT")


def open_to_write(path, tables, terms=None, synchronous="FULL"):
    """A connection by which each commit is on the disk before it returns; the file is made if it isn't there."""
    base = sqlite3.connect(path, isolation_level=None, timeout=5, check_same_thread=False)
    try:
        base.execute("PRAGMA journal_mode = WAL")
        base.execute(f"PRAGMA synchronous = {synchronous}")
        _make(base, tables, terms)
        _refuse_other_format(base, path)
        sync_folder(os.path.dirname(path))
        return base
    except BaseException:
        base.close()
        raise


@contextlib.contextmanager
def opened_to_read(path):
    """A connection that changes no report. FileNotFoundError if there is no file.

    A reader that can't write to the folder can't make the files that WAL needs either. After the collector closed the file of a closed epoch there
    is no WAL, and nothing changes the file any more.
    """
    if not os.path.exists(path):
        raise FileNotFoundError(path)
    if os.access(os.path.dirname(path) or ".", os.W_OK):
        mode = "mode=rw"
    elif os.path.exists(path + "-wal"):
        mode = "mode=ro"
    else:
        mode = "mode=ro&immutable=1"
    base = sqlite3.connect(f"file:{urllib.parse.quote(path)}?{mode}", uri=True, timeout=30)
    try:
        base.execute("PRAGMA query_only = 1")
        if _is_empty(base):
            raise FileNotFoundError(path)
        _refuse_other_format(base, path)
        yield base
    finally:
        base.close()


def epochs(folder):
    """The epochs that have a file, ascending."""
    names = os.listdir(folder) if os.path.isdir(folder) else []
    return sorted(int(name[:-len(END)]) for name in names if name.endswith(END) and name[:-len(END)].isdecimal())


def frames(folder, epoch):
    """The reports of an epoch, in ascending order, one at a time."""
    with opened_to_read(path_of(folder, epoch)) as base:
        for frame, in base.execute("SELECT frame FROM reports ORDER BY frame"):
            yield frame


def _epoch_row(folder, epoch, column):
    try:
        with opened_to_read(path_of(folder, epoch)) as base:
            return base.execute(f"SELECT {column} FROM epoch").fetchone()[0]
    except FileNotFoundError:
        return None


def count(folder, epoch):
    """How many reports an epoch has; 0 if it has no file."""
    return _epoch_row(folder, epoch, "kept") or 0


def terms(folder, epoch):
    """The terms under which the reports of an epoch were taken; None if it has no file."""
    text = _epoch_row(folder, epoch, "terms")
    return None if text is None else configuration.Terms.from_json(text)


def door(folder, week):
    """What came in this week and wasn't new, by outcome: `known`, `full` and the names in REFUSALS."""
    try:
        with opened_to_read(os.path.join(folder, DOOR)) as base:
            return dict(base.execute("SELECT outcome, number FROM door WHERE week = ?", (week,)))
    except FileNotFoundError:
        return {}


def _delete_forgotten(folder):
    """Deletes what was moved to be forgotten, and any WAL whose file is gone."""
    bin_folder = os.path.join(folder, FORGOTTEN)
    for name in os.listdir(bin_folder):
        os.remove(os.path.join(bin_folder, name))
    for name in os.listdir(folder):
        main, end, _ = name.partition(END + "-")
        if end and not os.path.exists(os.path.join(folder, main + END)):
            os.remove(os.path.join(folder, name))
    sync_folder(bin_folder)
    sync_folder(folder)


def finish_forgetting(folder):
    """Finishes what a killed `forget` began."""
    os.makedirs(os.path.join(folder, FORGOTTEN), exist_ok=True)
    _delete_forgotten(folder)


def forget(folder, epoch, taken):
    """Deletes what is kept of an epoch. After a kill at any moment, the next call, or the next start of the collector, deletes the rest.

    The file is moved out of the way first: from then on the epoch has no reports, and what is left of its WAL has no file to belong to.
    """
    if epoch in taken:
        raise StillTaken(f"reports of epoch {epoch} are still taken")
    finish_forgetting(folder)
    path = path_of(folder, epoch)
    if os.path.exists(path):
        os.rename(path, os.path.join(folder, FORGOTTEN, os.path.basename(path)))
        sync_folder(folder)
        _delete_forgotten(folder)
