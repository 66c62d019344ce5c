#!/usr/bin/python3
"""Wrong changes of the reader, the pages, the report, the senders and the outbox, each of which one of the tests must see: wrong_changes.py PROGRAM"""
import os
import shutil
import subprocess
import sys
import tempfile

HERE = os.path.dirname(os.path.abspath(__file__))
CODE, TOP = os.path.dirname(HERE), os.path.dirname(os.path.dirname(os.path.dirname(HERE)))

# A file, what stands in it once, what takes its place, and the test that fails then.
CHANGES = [
    ("markup.py", "Markup(html.escape(str(what)))", "Markup(str(what))", "page_test.py"),
    ("markup.py", 'html.escape("" if value is True else str(value))', '("" if value is True else str(value))', "page_test.py"),
    ("markup.py", "if text.isprintable() and", "if", "page_test.py"),
    ("star_text.py", "self._branch[depth][1].path[-1] >= step", "self._branch[depth][1].path[-1] > step", "text_test.py"),
    ("star_text.py", "if spelling(value) != spelled:", "if False:", "text_test.py"),
    ("star_text.py", "2 * found.agree >= found.points + step.threshold", "2 * found.agree >= found.points", "text_test.py"),
    ("star_text.py", "or self._highest >= found.records", "", "text_test.py"),
    ("epoch_summary.py", "above.below += opened.members\n", "above.below += 0\n", "page_test.py"),
    ("epoch_summary.py", "other = above.other or", "other =", "page_test.py"),
    ("page_folder.py", "old.rows > counts.rows and not fewer", "False", "report_test.py"),
    ("page_folder.py", "if counts.records != records:", "if False:", "report_test.py"),
    ("page_folder.py", "fcntl.flock(lock, fcntl.LOCK_EX)", "pass", "report_test.py"),
    ("epoch_report.py", "if self.terms.is_closed(epoch, self.now):", "if True:", "report_test.py"),
    ("epoch_report.py", "if status:\n", "if False:\n", "report_test.py"),
    ("send.py", "return None  # a redirected", "return super().redirect_request(*what)  # a redirected", "send_test.py"),
    ("send.py", "sum(counts.values()) != number", "False", "send_test.py"),
    ("send.py", "if fault.code in (400, 413):", "if fault.code in (400, 404, 413):", "send_test.py"),
    ("web/outbox.mjs", "=== number ? {", "=== number || true ? {", "outbox_test.mjs"),
    ("web/outbox.mjs", "answer.status === 413)", "answer.status === 413 || answer.status === 404)", "outbox_test.mjs"),
    ("web/outbox.mjs", "if (counts.full) return", "if (false) return", "outbox_test.mjs"),
    ("web/outbox.mjs", "(1 + Math.random() / 2)", "1", "outbox_test.mjs"),
    ("web/outbox.mjs", "if (!globalThis.navigator?.locks)", "if (true)", "outbox_test.mjs"),
]


def fails(code, test, program):
    """Whether a test fails on the code of a folder."""
    words = ["node"] if test.endswith(".mjs") else [sys.executable]
    run = subprocess.run(words + [os.path.join(code, "tests", test), program], stdout=subprocess.DEVNULL, stderr=subprocess.DEVNULL, timeout=300)
    return run.returncode != 0


def seen(code, change, program):
    """Whether the test sees a change, which is undone afterwards."""
    name, old, new, test = change
    with open(os.path.join(code, name), encoding="utf-8") as file:
        source = file.read()
    assert source.count(old) == 1, change
    try:
        with open(os.path.join(code, name), "w", encoding="utf-8") as file:
            file.write(source.replace(old, new))
        return fails(code, test, program)
    finally:
        with open(os.path.join(code, name), "w", encoding="utf-8") as file:
            file.write(source)


def main(program):
    program, missed = os.path.abspath(program), []
    with tempfile.TemporaryDirectory() as folder:
        code = os.path.join(folder, "examples", "deployment")
        shutil.copytree(CODE, code)
        shutil.copy(os.path.join(TOP, "examples", "reports.stream"), os.path.join(folder, "examples"))
        for name in ("python", "c"):
            shutil.copytree(os.path.join(TOP, "bindings", name), os.path.join(folder, "bindings", name))
        good = [test for test in sorted({change[3] for change in CHANGES}) if fails(code, test, program)]
        assert not good, "fails without a change: %s" % good
        for change in CHANGES:
            if not seen(code, change, program):
                missed.append(change)
                print("not seen: %s: %s" % change[:2], flush=True)
    print("%d wrong changes, %d not seen" % (len(CHANGES), len(missed)))
    sys.exit(1 if missed else 0)


if __name__ == "__main__":
    main(sys.argv[1])
