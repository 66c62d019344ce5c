#!/usr/bin/env python3
"""Runs the pasted blocks of a document and compares what they print with what stands there.

Each block of commands (```sh) that is followed by a block of text (```text) is run by bash at the top
of the repository, and its standard output must be that text. A document without such a block is passed
over; the gate itself is never run. Usage: pasted_blocks.py DOCUMENT..
"""
import pathlib
import re
import subprocess
import sys

TOP = pathlib.Path(__file__).resolve().parent.parent
LINES = r"((?:(?!```).*\n)*)"
PAIR = re.compile(rf"^```sh\n{LINES}```\n\n```text\n{LINES}```$", re.M)


def main(documents):
    passed = failed = 0
    for document in documents:
        pairs = PAIR.findall((TOP / document).read_text())
        if not pairs:
            print(f"{document}: no block with its output")
        for commands, wanted in pairs:
            if ".ci/run" in commands:
                print(f"{document}: not run\n{commands}", end="")
                continue
            got = subprocess.run(["bash", "-c", commands], cwd=TOP, stdout=subprocess.PIPE, text=True)
            if got.returncode == 0 and got.stdout == wanted:
                passed += 1
                continue
            failed += 1
            print(f"{document}: status {got.returncode} of\n{commands}wanted\n{wanted}got\n{got.stdout}")
    print(f"{passed} passed, {failed} failed")
    return 1 if failed or not passed else 0


if __name__ == "__main__":
    sys.exit(main(sys.argv[1:]))
