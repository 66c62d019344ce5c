"""A loss of power, as far as it can be played: /usr/bin/python3 power_test.py [REQUESTS]. It needs gunicorn and strace.

The collector runs under strace. From the log of its system calls the store's files are made again as they may be after a loss of power at many
moments: what was synced by then, and a random part of the writes since, each whole or cut; once none of them and once all. All reports that were
acknowledged by that moment have to be in them, and so has the number of refusals that were. The same collector with synchronous=NORMAL has to fail
this test.
"""
import os
import random
import re
import sys
import tempfile
import threading

import support
import store

PORT = 18_091
GARBAGE = b"ST"
CALLS = "trace=pwrite64,ftruncate,fdatasync,fsync,unlink,sendto,recvfrom"
CALL = re.compile(r"(\w+)\((.*)\)\s+= (-?\d+)")
NAMED = re.compile(r"^-?\w+<([^>]*)>")


def unhex(text):
    """The bytes that strace -xx spelled."""
    return bytes.fromhex(text.replace("\\x", ""))


def text_of(word):
    """The bytes of a word in quotes; the log must not cut them."""
    assert word.startswith('"') and word.endswith('"'), "the log cuts a call: " + word[:80]
    return unhex(word[1:-1])


def whole_calls(path):
    """The finished calls of the log, in the order in which they ended, as name, words and result."""
    begun = {}
    with open(path, encoding="ascii") as log:
        for line in log:
            pid, rest = line.rstrip("\n").split(None, 1)
            if rest.endswith("<unfinished ...>"):
                begun[pid] = rest[:-len("<unfinished ...>")].rstrip()
                continue
            if rest.startswith("<... "):
                rest = begun.pop(pid) + rest[rest.index("resumed>") + len("resumed>"):]
            found = CALL.match(rest)
            if found:
                yield found[1], found[2], int(found[3])


class Disk:
    """The files of one folder as the disk may have them: what is synced, and the changes since, by file."""

    def __init__(self, folder):
        self.folder, self.synced, self.since, self.named, self.names = folder, {}, {}, set(), set()
        self.folder_syncs = 0

    def name_of(self, words):
        """The name of the file of a call in this folder; None if it is another."""
        found = NAMED.match(words)
        path = unhex(found[1]).decode() if found and found[1].startswith("\\x") else (found[1] if found else "")
        return path if path == self.folder else os.path.basename(path) if os.path.dirname(path) == self.folder else None

    def call(self, name, words):
        """Follows one call. True if it is a sync of something here."""
        if name == "unlink":
            self.names.discard(os.path.basename(text_of(words).decode()))
        here = self.name_of(words)
        if here is None or here.endswith("-shm"):               # which is made anew at each start
            return False
        if name in ("fsync", "fdatasync"):
            return self.sync(here)
        if name == "pwrite64":
            _, text, _, at = words.rsplit(", ", 3)
            self.since.setdefault(here, []).append(("write", int(at), text_of(text)))
            self.names.add(here)
        if name == "ftruncate":
            self.since.setdefault(here, []).append(("truncate", int(words.split(", ")[1]), b""))
        return False

    def sync(self, here):
        """Puts the changes of a file, or the names of the folder, on the disk."""
        if here == self.folder:
            self.named = set(self.names)
            self.folder_syncs += 1
        for change in self.since.pop(here, []):
            self.synced[here] = changed(self.synced.get(here, b""), change)
        return True

    def after_loss(self, part):
        """The files that may be there: `part` chooses from the changes of a file, and of names, that aren't synced."""
        files = {}
        for here in self.named.symmetric_difference(part(sorted(self.named ^ self.names))):
            image = self.synced.get(here, b"")
            for change in part(self.since.get(here, [])):
                image = changed(image, change)
            files[here] = image
        return files


def changed(image, change):
    """A file after one change."""
    kind, at, content = change
    image = image.ljust(at, b"\0")
    return image[:at] if kind == "truncate" else image[:at] + content + image[at + len(content):]


def parts(rng):
    """What may be left of unsynced changes: nothing, all, and random parts of which one change may be cut."""
    def some(changes):
        kept = [change for change in changes if rng.random() < .5]
        if kept and isinstance(kept[0], tuple) and rng.random() < .5:
            at = rng.randrange(len(kept))
            kind, place, content = kept[at]
            kept[at] = (kind, place, content[:rng.randrange(len(content) + 1)])
        return kept
    return (lambda changes: [], list, some, some)


def expect_kept(files, acknowledged):
    """Opens the files as a collector does, and expects in them the acknowledged reports, and a refusal for each."""
    with tempfile.TemporaryDirectory() as folder:
        for name, image in files.items():
            with open(os.path.join(folder, name), "wb") as file:
                file.write(image)
        epoch = support.epoch_now()
        try:
            there = set(store.frames(folder, epoch))
        except FileNotFoundError:
            there = set()
        assert acknowledged <= there, f"{len(acknowledged - there)} of {len(acknowledged)} acknowledged reports are lost"
        assert not acknowledged or store.count(folder, epoch) == len(there), "the count is wrong"
        refused = store.door(folder, epoch).get("no_frame", 0)
        assert refused >= len(acknowledged), f"{len(acknowledged) - refused} of {len(acknowledged)} acknowledged refusals are lost"


class Connections:
    """What each connection received, and which reports were acknowledged."""

    def __init__(self):
        self.received, self.acknowledged = {}, set()

    def call(self, name, words):
        """Follows one call. True if it is the answer 200 to a report."""
        socket = NAMED.match(words)
        if not socket or name not in ("recvfrom", "sendto"):
            return False
        text = text_of(re.match(r'[^"]*("[^"]*"(?:\.\.\.)?)', words)[1]) if '"' in words else b""
        if name == "recvfrom":
            self.received[socket[1]] = self.received.get(socket[1], b"") + text
            return False
        body = self.received.get(socket[1], b"").partition(b"\r\n\r\n")[2]
        if not (text.startswith(b"HTTP/1.1 200 OK") and body):
            return False
        self.acknowledged.update(frame for frame in support.frames.records_of(body) if frame != GARBAGE)
        return True


def run(work, requests, factory):
    """Runs the collector under strace, and posts each report with garbage in a request; the log of calls, the reports, and the store's folder."""
    log, data = os.path.join(work, "calls"), support.reports(requests)
    before = ["strace", "-f", "-o", log, "-xx", "-s", "400000", "-y", "-e", CALLS]
    with support.Collector(PORT, folder=work, before=before, factory=factory, path=[support.HERE]) as one:
        def client(some):
            for frame in some:
                answer = one.post([frame, GARBAGE])
                assert answer == (200, "new=1 known=0 full=0 refused=1"), answer
        clients = [threading.Thread(target=client, args=(data[at::6],)) for at in range(6)]
        for thread in clients:
            thread.start()
        for thread in clients:
            thread.join()
        return log, data, one.store


def played(requests, share, factory="collector:application()", seed=1):
    """Moments looked at, syncs, and acknowledged requests; `share` of the moments are looked at. AssertionError if a report is lost at one."""
    rng = random.Random(seed)
    with tempfile.TemporaryDirectory() as work:
        log, data, folder = run(work, requests, factory)
        disk, connections, looked, syncs = Disk(folder), Connections(), 0, 0
        for name, words, _ in whole_calls(log):
            synced, answered = disk.call(name, words), connections.call(name, words)
            syncs += synced
            if (synced or answered) and rng.random() < share:
                for part in parts(rng):
                    expect_kept(disk.after_loss(part), connections.acknowledged)
                    looked += 1
        assert connections.acknowledged == set(data), "an answer isn't in the log"
        assert disk.folder_syncs, "the folder was never synced"
        return looked, syncs, len(data)


def main(requests=600, share=.25):
    looked, syncs, acknowledged = played(requests, share)
    print(f"power: {acknowledged} requests acknowledged, {syncs} syncs, files made again {looked} times, at each all acknowledged reports in them")
    try:
        played(100, 1, "weak:application()")
    except AssertionError as fault:
        print(f"power: with synchronous=NORMAL the test fails, as it has to: {fault}")
    else:
        sys.exit("power: the test doesn't see synchronous=NORMAL")


if __name__ == "__main__":
    main(*map(int, sys.argv[1:2]))
