#!/usr/bin/python3
"""Looks after the store: keep.py backup FOLDER | restore FOLDER | forget | check [CONFIGURATION]

backup   copies the store into a new folder, while the collector runs
restore  adds the reports of a backup to the store, while no collector runs; a second time changes nothing
forget   deletes closed epochs whose text is in the folder of pages, and finishes what a killed call began
check    reads every file of the store; with a configuration, says also whether it may take the place of the one in use
"""
import argparse
import fcntl
import os
import shutil
import sqlite3
import sys
import time

import configuration
import store


class Refused(Exception):
    """What was asked for can't be done: the message says why."""


def names_of(folder):
    """The names of the files of a store: its epochs, and the door's counts if there are any."""
    paths = [store.path_of(folder, epoch) for epoch in store.epochs(folder)] + [os.path.join(folder, store.DOOR)]
    return [os.path.basename(path) for path in paths if os.path.exists(path)]


def copy_file(source, target):
    """A whole copy of a SQLite file with its WAL, on the disk under its name only once it is complete."""
    part = target + ".part"
    with store.opened_to_read(source) as base:
        copy = sqlite3.connect(part, isolation_level=None)
        try:
            base.backup(copy)
            copy.execute("PRAGMA journal_mode = DELETE")
        finally:
            copy.close()
    descriptor = os.open(part, os.O_RDONLY)
    os.fsync(descriptor)
    os.close(descriptor)
    os.rename(part, target)


def backup(folder, target):
    """Copies each file of the store, and the configuration, into a folder that isn't there yet."""
    os.makedirs(target)
    for name in names_of(folder):
        copy_file(os.path.join(folder, name), os.path.join(target, name))
    shutil.copyfile(configuration.path(), os.path.join(target, "configuration.json"))
    store.sync_folder(target)
    return f"{len(store.epochs(target))} epochs, {sum(store.count(target, epoch) for epoch in store.epochs(target))} reports"


def locked(folder):
    """The lock of the store, so that no collector starts meanwhile."""
    os.makedirs(folder, exist_ok=True)
    lock = os.open(os.path.join(folder, store.LOCK), os.O_RDWR | os.O_CREAT, 0o640)
    try:
        fcntl.flock(lock, fcntl.LOCK_EX | fcntl.LOCK_NB)
    except BlockingIOError:
        raise Refused("a collector writes to the store: stop it first") from None
    return lock


def add_epoch(folder, source, epoch):
    """Adds the reports of a backup's epoch to that of the store."""
    kept_under = store.terms(source, epoch)
    base = store.open_to_write(store.path_of(folder, epoch), store.EPOCH_TABLES, kept_under)
    try:
        found, = base.execute("SELECT terms FROM epoch").fetchone()
        if found != kept_under.as_json():
            raise Refused(f"epoch {epoch} was taken under other terms in the store than in the backup")
        base.execute("BEGIN IMMEDIATE")
        base.executemany("INSERT OR IGNORE INTO reports VALUES (?)", ((frame,) for frame in store.frames(source, epoch)))
        base.execute("UPDATE epoch SET kept = (SELECT count(*) FROM reports)")
        base.execute("COMMIT")
    finally:
        base.close()


def add_door(folder, source):
    """Takes the door's counts of a backup where they are higher than those of the store."""
    base = store.open_to_write(os.path.join(folder, store.DOOR), store.DOOR_TABLES)
    try:
        with store.opened_to_read(os.path.join(source, store.DOOR)) as old:
            rows = old.execute("SELECT week, outcome, number FROM door").fetchall()
        base.execute("BEGIN IMMEDIATE")
        base.executemany("INSERT INTO door VALUES (?, ?, ?) ON CONFLICT DO UPDATE SET number = max(number, excluded.number)", rows)
        base.execute("COMMIT")
    finally:
        base.close()


def restore(folder, source):
    """Adds a backup to the store."""
    if not store.epochs(source):
        raise Refused(f"{source} has no epoch")
    lock = locked(folder)
    try:
        for epoch in store.epochs(source):
            add_epoch(folder, source, epoch)
        if os.path.exists(os.path.join(source, store.DOOR)):
            add_door(folder, source)
    finally:
        os.close(lock)
    return f"{len(store.epochs(source))} epochs, {sum(store.count(folder, epoch) for epoch in store.epochs(source))} reports there now"


def forget(folder, pages, terms, now):
    """Deletes closed epochs that have a text."""
    store.finish_forgetting(folder)
    gone = [epoch for epoch in store.epochs(folder) if terms.is_closed(epoch, now) and os.path.exists(os.path.join(pages, f"{epoch}.txt"))]
    for epoch in gone:
        store.forget(folder, epoch, terms.taken(now))
    return "forgotten: " + (", ".join(map(str, gone)) or "none")


def fault_of(folder, name):
    """What is wrong with a file of the store; None if nothing is."""
    try:
        with store.opened_to_read(os.path.join(folder, name)) as base:
            said, = base.execute("PRAGMA integrity_check(1)").fetchone()
            if said != "ok":
                return said
            if name != store.DOOR and base.execute("SELECT count(*) FROM reports").fetchone() != base.execute("SELECT kept FROM epoch").fetchone():
                return "the count isn't that of the reports"
    except (sqlite3.Error, store.OtherFormat) as fault:
        return str(fault)
    return None


def check(folder, new, now):
    """Reads all files, and compares a new configuration with the one in use."""
    faults = [f"{name}: {fault}" for name in names_of(folder) if (fault := fault_of(folder, name))]
    if faults:
        raise Refused("; ".join(faults))
    if new:
        configuration.refuse_changes(configuration.load(), configuration.load(new), now)
    return f"{len(names_of(folder))} files are whole" + (f", and {new} may take the place of the configuration" if new else "")


def main():
    """Does what the words say, on the folders that the environment names."""
    words = argparse.ArgumentParser(description=__doc__, formatter_class=argparse.RawDescriptionHelpFormatter)
    words.add_argument("what", choices=("backup", "restore", "forget", "check"))
    words.add_argument("path", nargs="?")
    words = words.parse_args()
    folder, pages = os.environ.get("STAR_STORE", "store"), os.environ.get("STAR_PAGES", "pages")
    if words.what in ("backup", "restore") and not words.path:
        sys.exit(f"keep: {words.what} needs a folder")
    calls = {"backup": lambda: backup(folder, words.path), "restore": lambda: restore(folder, words.path),
             "forget": lambda: forget(folder, pages, configuration.load(), time.time()), "check": lambda: check(folder, words.path, time.time())}
    try:
        print(calls[words.what]())
    except (Refused, configuration.ConfigurationFault, store.StillTaken, OSError, sqlite3.Error) as fault:
        sys.exit(f"keep: {fault}")


if __name__ == "__main__":
    main()
