#!/usr/bin/env python3
"""Runs of epoch_report.py that fail, come twice or come late: report_test.py PROGRAM

Three missed weeks, one of which was killed in the middle, are made by the next call. Two calls at once, a wrong epoch, no store, a store with fewer
reports, a broken text among good ones, a program that fails at one epoch: no text is worse than before, and what can be made is made.
"""
import glob
import hashlib
import os
import re
import shutil
import signal
import subprocess
import sys
import tempfile
import time

HERE = os.path.dirname(os.path.abspath(__file__))
CODE, TOP = os.path.dirname(HERE), os.path.dirname(os.path.dirname(os.path.dirname(HERE)))
sys.path[:0] = [CODE, os.path.join(TOP, "bindings", "python")]
import configuration  # noqa: E402
import page_folder  # noqa: E402
import store  # noqa: E402
import weeks  # noqa: E402
from star_client import Client  # noqa: E402

NOW = weeks.epoch_at(time.time())
TERMS = configuration.load(os.path.join(CODE, "configuration.json")).of(NOW)
CLIENT = Client()


def fill(folder, epoch, number, city="Berlin"):
    """Puts so many reports into the store, as its format says."""
    os.makedirs(folder, exist_ok=True)
    base = store.open_to_write(store.path_of(folder, epoch), store.EPOCH_TABLES, TERMS)
    frames = [(CLIENT.report(["Germany", city], TERMS.thresholds, epoch),) for _ in range(number)]
    base.execute("BEGIN")
    base.executemany("INSERT INTO reports VALUES (?)", frames)
    base.execute("UPDATE epoch SET kept = kept + ?", (number,))
    base.execute("COMMIT")
    base.close()


class Place:
    """A store and a folder of pages of their own."""

    def __init__(self, program):
        self.folder = tempfile.mkdtemp()
        self.kept, self.pages = os.path.join(self.folder, "store"), os.path.join(self.folder, "pages")
        os.makedirs(self.kept)
        self.surroundings = dict(
            os.environ, STAR_STORE=self.kept, STAR_PAGES=self.pages, STAR_TOOL=program, STAR_CONFIGURATION=os.path.join(CODE, "configuration.json")
        )

    def __enter__(self):
        return self

    def __exit__(self, *fault):
        shutil.rmtree(self.folder)

    def start(self, *words, **changed):
        return subprocess.Popen(
            [sys.executable, os.path.join(CODE, "epoch_report.py"), *words],
            env={**self.surroundings, **changed},
            stdout=subprocess.PIPE,
            stderr=subprocess.PIPE,
            text=True,
        )

    def run(self, *words, status=0, **changed):
        """What a call says; its status is checked."""
        child = self.start(*words, **changed)
        out, err = child.communicate(timeout=120)
        assert child.returncode == status, (words, child.returncode, out, err)
        assert "Traceback" not in err, err
        return out + err

    def texts(self):
        """The checksum of each text."""
        found = {}
        for path in glob.glob(os.path.join(self.pages, "*.txt")):
            with open(path, "rb") as file:
                found[os.path.basename(path)] = hashlib.sha256(file.read()).hexdigest()
        return found

    def rows(self, name):
        counts = page_folder.PageFolder(self.pages).counts(name)
        return counts and counts.rows

    def read(self, name):
        with open(os.path.join(self.pages, name), encoding="utf-8") as file:
            return file.read()


def check_missed(program):
    """Weeks that were missed come, the oldest first; a week that is open doesn't; a second call changes nothing."""
    with Place(program) as place:
        for back in (2, 3, 4):
            fill(place.kept, NOW - back, 20 + back)
        fill(place.kept, NOW, 25)
        said = place.run()
        assert [int(number) for number in re.findall(r"epoch (\d+): \d+ reports", said)] == [NOW - 4, NOW - 3, NOW - 2], said
        before = place.texts()
        assert sorted(before) == ["%d.txt" % (NOW - back) for back in (4, 3, 2)]
        stamps = {name: os.stat(os.path.join(place.pages, name)).st_mtime_ns for name in os.listdir(place.pages) if name[0].isdigit()}
        assert place.run() == "" and place.texts() == before
        assert stamps == {name: os.stat(os.path.join(place.pages, name)).st_mtime_ns for name in stamps}
        index = place.read("index.html")
        assert all("%d.html" % (NOW - back) in index for back in (2, 3, 4)) and "%d.html" % NOW not in index


def check_killed(program):
    """A call that is killed at any moment leaves nothing worse; the next one makes everything."""
    with Place(program) as place:
        for back in (2, 3, 4):
            fill(place.kept, NOW - back, 40)
        start = time.monotonic()
        place.run()
        whole, wanted = time.monotonic() - start, place.texts()
        for step in range(12):
            shutil.rmtree(place.pages)
            child = place.start()
            time.sleep(whole * step / 11)
            child.send_signal(signal.SIGKILL)
            child.communicate()
            assert all(wanted[name] == digest for name, digest in place.texts().items()) if os.path.isdir(place.pages) else True
            place.run()
            assert place.texts() == wanted and not glob.glob(os.path.join(place.pages, "*.new"))
            assert sorted(name for name in os.listdir(place.pages) if name[0] != ".") == sorted(
                ["index.html"] + ["%d.%s" % (NOW - back, kind) for back in (2, 3, 4) for kind in ("txt", "html", "json")]
            )


def check_two_at_once(program):
    with Place(program) as place:
        fill(place.kept, NOW - 3, 300)
        calls = [place.start("--epoch", str(NOW - 3)) for _ in range(4)]
        for call in calls:
            out, err = call.communicate()
            assert call.returncode == 0 and "300 reports" in out, (out, err)
        assert place.rows(NOW - 3) == 300


def check_wrong_words(program):
    """An epoch that isn't closed, one from a wrong option and one without a store are refused, and no file is there afterwards."""
    with Place(program) as place:
        fill(place.kept, NOW - 3, 30)
        place.run()
        before = place.texts()
        for epoch in (NOW, NOW + 1, 1_784_000_000, 2**40, -1):
            assert ("no reports" if epoch < 0 else "isn't closed") in place.run("--epoch=%d" % epoch, status=1)
        assert "no reports" in place.run("--epoch", str(NOW - 9), status=1)
        shutil.rmtree(place.kept)
        assert "no reports" in place.run("--epoch", str(NOW - 3), status=1)
        place.run()
        assert place.texts() == before
        place.run("--pages")
        assert place.texts() == before and "Germany" in place.read("%d.html" % (NOW - 3))


def check_fewer(program):
    """Fewer reports never take the place of more, but with --fewer; more do, also without being asked."""
    with Place(program) as place:
        fill(place.kept, NOW - 3, 30)
        place.run()
        os.remove(store.path_of(place.kept, NOW - 3))
        fill(place.kept, NOW - 3, 21)
        assert "the text that is there has 30" in place.run("--epoch", str(NOW - 3), status=1)
        place.run()
        assert place.rows(NOW - 3) == 30
        fill(place.kept, NOW - 3, 20)
        place.run()
        assert place.rows(NOW - 3) == 41
        os.remove(store.path_of(place.kept, NOW - 3))
        fill(place.kept, NOW - 3, 5)
        place.run("--epoch", str(NOW - 3), "--fewer")
        assert place.rows(NOW - 3) == 5


def check_broken(program):
    """A broken text among good ones is opened again, or named if its reports are gone; a broken summary and a lost page are made again."""
    with Place(program) as place:
        for back in (2, 3, 4):
            fill(place.kept, NOW - back, 30)
        place.run()
        before = place.texts()
        for name, content in (("%d.json" % (NOW - 2), "{"), ("%d.json" % (NOW - 3), '{"text": 1}')):
            with open(os.path.join(place.pages, name), "w") as file:
                file.write(content)
        os.remove(os.path.join(place.pages, "%d.html" % (NOW - 4)))
        place.run()
        assert place.texts() == before and os.path.exists(os.path.join(place.pages, "%d.html" % (NOW - 4)))
        broken = os.path.join(place.pages, "%d.txt" % (NOW - 3))
        with open(broken, "w") as file:
            file.write("open <b>x</b>\n")
        place.run()
        assert place.texts() == before
        with open(broken, "w") as file:
            file.write("open <b>x</b>\n")
        os.remove(store.path_of(place.kept, NOW - 3))
        fill(place.kept, NOW - 5, 30)
        assert "line 1" in place.run(status=1)
        index = place.read("index.html")
        assert "%d.txt" % (NOW - 3) in index and "%d.html" % (NOW - 5) in index and "%d.html" % (NOW - 3) not in index


def check_program_faults(program):
    """An epoch at which the program fails is named; the others are made; nothing half is left."""
    with Place(program) as place:
        for back in (2, 3):
            fill(place.kept, NOW - back, 30)
        bad = os.path.join(place.folder, "tool")
        for body, words in (
            ("cat > /dev/null; exit 5", "too many"),
            ("exit 6", "no memory"),
            ("cat > /dev/null; echo records=30 rows=30", "line 1"),
            ("kill -9 $$", "-9"),
            ("cat > /dev/null; printf 'records=0 rows=0 refused=0\\n'", "0 records"),
            ("%s reveal --epoch $3 | head -c 40" % program, "end is missing"),
        ):
            with open(bad, "w") as file:
                file.write("#!/bin/sh\nif [ $3 = %d ]; then exec %s reveal --epoch $3; fi\n%s\n" % (NOW - 2, program, body))
            os.chmod(bad, 0o755)
            said = place.run(status=1, STAR_TOOL=bad)
            assert "epoch %d: " % (NOW - 3) in said and words in said, (body, said)
            assert sorted(place.texts()) == ["%d.txt" % (NOW - 2)]
            os.remove(os.path.join(place.pages, "%d.txt" % (NOW - 2)))
        assert "can't be started" in place.run(status=1, STAR_TOOL=bad + "x")
        place.run()
        assert len(place.texts()) == 2 and not glob.glob(os.path.join(place.pages, "*.new"))


def check_full_disk(program):
    """With no room for the text the old one stays, and the next call makes the new one."""
    with Place(program) as place:
        fill(place.kept, NOW - 3, 30)
        place.run()
        fill(place.kept, NOW - 3, 500, "x" * 60)
        child = subprocess.run(
            ["bash", "-c", "ulimit -f 0; trap '' XFSZ; exec \"$@\"", "-", sys.executable, os.path.join(CODE, "epoch_report.py")],
            env=place.surroundings,
            stdout=subprocess.PIPE,
            stderr=subprocess.PIPE,
            text=True,
        )
        assert child.returncode and place.rows(NOW - 3) == 30, child
        place.run()
        assert place.rows(NOW - 3) == 530


def check_preview_and_forget(program):
    """A preview is no text of a week; --forget deletes reports only of a closed week whose text has them all, and pages can be made afterwards."""
    with Place(program) as place:
        fill(place.kept, NOW, 30)
        place.run("--preview")
        assert sorted(place.texts()) == ["preview.txt"] and "Not final" in place.read("preview.html") and "so far" in place.read("index.html")
        assert "isn't closed" in place.run("--epoch", str(NOW), "--forget", status=1) and store.count(place.kept, NOW) == 30
        fill(place.kept, NOW - 3, 30)
        place.run("--epoch", str(NOW - 3), "--forget")
        assert store.epochs(place.kept) == [NOW] and place.rows(NOW - 3) == 30
        page = place.read("%d.html" % (NOW - 3))
        place.run("--pages")
        assert place.read("%d.html" % (NOW - 3)) == page and "from 20 on" in page and "country" in page


CHECKS = [
    check_missed,
    check_killed,
    check_two_at_once,
    check_wrong_words,
    check_fewer,
    check_broken,
    check_program_faults,
    check_full_disk,
    check_preview_and_forget,
]


def main(program):
    for check in CHECKS:
        start = time.monotonic()
        check(os.path.abspath(program))
        print("ok   %-28s %.1f s" % (check.__name__, time.monotonic() - start), flush=True)


if __name__ == "__main__":
    main(sys.argv[1])
