#!/usr/bin/env python3
"""The sum of what the client's archive and module are built from, and whether what is kept was built from it.

    sources.py            prints two lines: `sources SHA256`, and `kit LINE`, LINE being that of `rt version` (`kit unknown` without rt)
    sources.py FILE       ends with status 0 where FILE has the line of the sum, and that of the kit unless there is no rt here;
                          else with 1, and says on standard error what differs

The sum is the SHA-256 of these lines, joined: for each file below src, specs and proofs of star_client_c and of the crates of this
repository that it stands on, in the order of their paths, `SHA256  PATH`; then those crates' lines of crates.txt, sorted; then HANDLES.
Must-fail edits aren't in it: no byte of the archive comes from them.
"""
import hashlib
import os
import shutil
import subprocess
import sys

TOP = os.path.join(os.path.dirname(os.path.abspath(__file__)), "..")
PARTS = ("src", "specs", "proofs")


def crate_lines():
    """The lines of crates.txt by the names of their crates, without comments."""
    with open(os.path.join(TOP, "crates.txt")) as file:
        lines = [line.split("#")[0].strip() for line in file]
    return {line.split(":")[0].split()[0]: line for line in lines if line}


def below(name, lines, found):
    """Adds the crate and the repository's crates below it to what is found."""
    if name in lines and name not in found:
        found.add(name)
        for other in lines[name].split(":")[1].split():
            below(other, lines, found)
    return found


def paths_of(crate):
    for part in PARTS:
        for folder, _, names in os.walk(os.path.join(TOP, "crates", crate, part)):
            yield from (os.path.relpath(os.path.join(folder, name), TOP) for name in names)


def read(path):
    with open(os.path.join(TOP, path), "rb") as file:
        return file.read()


def sum_of_sources():
    lines = crate_lines()
    crates = below("star_client_c", lines, set())
    paths = sorted((path for crate in crates for path in paths_of(crate)), key=os.fsencode)
    text = [hashlib.sha256(read(path)).hexdigest() + "  " + path + "\n" for path in paths]
    text += [line + "\n" for line in sorted(lines[crate] for crate in crates)]
    return hashlib.sha256("".join(text).encode() + read("HANDLES")).hexdigest()


def kit():
    if not shutil.which("rt"):
        return "unknown"
    return subprocess.run(["rt", "version"], capture_output=True, text=True, check=True).stdout.strip()


def main():
    lines = ["sources " + sum_of_sources(), "kit " + kit()]
    if len(sys.argv) < 2:
        print("\n".join(lines))
        return
    with open(sys.argv[1]) as file:
        kept = file.read().splitlines()
    lacking = [line for line in lines if line not in kept and line != "kit unknown"]
    for line in lacking:
        print("%s lacks the line '%s'" % (os.path.relpath(sys.argv[1], TOP), line), file=sys.stderr)
    sys.exit(1 if lacking else 0)


main()
