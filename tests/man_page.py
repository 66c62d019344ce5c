#!/usr/bin/env python3
"""Compares what docs say of the command line with the usage line of the program.

The synopsis of docs/star_tool.1, the verbs and options of the completion for bash, and the line in docs/FORMATS.md and in
tests/plain/commands.py must be those that the program prints for faulty words. Usage: man_page.py PROGRAM
"""

import pathlib
import re
import subprocess
import sys

TOP = pathlib.Path(__file__).resolve().parent.parent
sys.path.insert(0, str(TOP / "tests/plain"))
import commands  # noqa: E402


def synopsis():
    """The commands of the man page's synopsis, one a line."""
    page = (TOP / "docs/star_tool.1").read_text()
    section = re.search(r"^\.SH SYNOPSIS\n(.*?)^\.SH ", page, re.M | re.S)[1]
    return [line.replace("\\-", "-") for line in re.findall(r"^\.B star_tool (.*)$", section, re.M)]


def completed(words, begun=""):
    """What the completion for bash offers for the word that is begun after these words."""
    script = (
        f'source "{TOP}/examples/completion/star_tool.bash"; COMP_WORDS=("$@"); COMP_CWORD=$(($# - 1)); _star_tool; echo "${{COMPREPLY[@]}}"'
    )
    run = subprocess.run(["bash", "-c", script, "bash", *words, begun], capture_output=True, text=True, check=True)
    return sorted(run.stdout.split())


def main(program):
    line = subprocess.run([program], stdin=subprocess.DEVNULL, capture_output=True, text=True).stderr.rstrip("\n")
    pieces = line.removeprefix("usage: star_tool ").split(" | ")
    formats = (TOP / "docs/FORMATS.md").read_text().replace("\\|", "|")
    checks = [
        ("the synopsis of the man page", synopsis() == pieces),
        ("the line in FORMATS", f"`{line}`" in formats),
        ("the line of the plain client", commands.USAGE.line == line),
        ("the verbs that bash completes", completed(["star_tool"]) == sorted(piece.split()[0] for piece in pieces)),
        # bash makes a word of its own of the = in --version=2
        ("the value that bash completes after a blank", completed(["star_tool", "make", "--version"]) == ["1", "2"]),
        ("the value that bash completes after =", completed(["star_tool", "make", "--version"], "=") == ["1", "2"]),
        ("the value that bash completes after = and a digit", completed(["star_tool", "make", "--version", "="], "2") == ["2"]),
    ]
    for piece in pieces:
        verb = piece.split()[0]
        options = sorted(re.findall(r"--[a-z]+", piece))
        checks.append((f"the options of {verb} that bash completes", completed(["star_tool", verb]) == options))
    for name, holds in checks:
        if not holds:
            print(f"differs: {name}")
    failed = sum(not holds for _, holds in checks)
    print(f"{len(checks) - failed} passed, {failed} failed")
    return 1 if failed else 0


if __name__ == "__main__":
    sys.exit(main(*sys.argv[1:]))
