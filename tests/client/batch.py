#!/usr/bin/env python3
"""The batch calls of the packages that tests/client/packages.sh installed in FOLDER: what they make is revealed by PROGRAM, and their progress counts.

    batch.py FOLDER PROGRAM

Each makes 300 reports of one country and 25 cities of 12 clients each, with thresholds 100 and 12, of version 2 (which a path marks by `~2`) with extra bytes. A row that is
faulty is named. The last line is 'N passed, M failed'.
"""
import os
import shutil
import subprocess
import sys

ROWS = 300
WANTED = "".join(["open DE~100~2 points=300 agree=300 members=300\n"] + ["open DE~100~2/c%02d~12~2 points=12 agree=12 members=12\n" % i for i in range(25)])

PYTHON = """
import sys
from star_client import BadValues, Client
client, told = Client(), []
rows = [["DE", "c%02d" % (i % 25)] for i in range(300)]
made = client.records(rows, [100, 12], epoch=1, version=2, extras=[b"x%d" % i for i in range(300)], progress=told.append, every=70)
assert told == [70, 140, 210, 280, 300], told
try:
    client.records([["DE"], ["DE"], [""]], [2], epoch=1)
except BadValues as fault:
    assert str(fault) == "row 2: values[0] has 0 bytes; a value has 1 to 64", fault
else:
    raise AssertionError("a faulty row")
assert client.records([], [2], epoch=1) == b""
sys.stdout.buffer.write(made)
"""

NODE = """
import { ClientError, load } from "star-client";
const client = await load(), told = [];
const rows = Array.from({ length: 300 }, (_, i) => ["DE", `c${String(i % 25).padStart(2, "0")}`]);
const made = await client.records({ rows, thresholds: [100, 12], epoch: 1, version: 2, extras: rows.map((_, i) => `x${i}`), progress: (n) => told.push(n) });
if (told.at(-1) !== 300 || told.some((n, i) => i && n <= told[i - 1])) throw new Error(`progress ${told}`);
try {
  await client.records({ rows: [["DE"], ["DE"], [""]], thresholds: [2], epoch: 1 });
  throw new Error("a faulty row");
} catch (error) {
  if (!(error instanceof ClientError) || error.message !== "row 2: values[0] has 0 bytes; a value has 1 to 64") throw error;
}
if ((await client.records({ rows: [], thresholds: [2], epoch: 1 })).length) throw new Error("no rows");
process.stdout.write(made);
"""


def revealed(program, stream):
    done = subprocess.run([program, "reveal", "--epoch", "1"], input=stream, capture_output=True)
    return "".join(line + "\n" for line in done.stdout.decode().splitlines() if line.startswith("open "))


def main():
    folder, program = sys.argv[1], os.path.abspath(sys.argv[2])
    calls = []
    if os.path.isdir(os.path.join(folder, "python_kept")):
        calls.append(("Python", [sys.executable, "-c", PYTHON], {"PYTHONPATH": os.path.join(folder, "python_kept")}, folder))
    if os.path.isdir(os.path.join(folder, "node")) and shutil.which("node"):
        calls.append(("Node", ["node", "--input-type=module", "-e", NODE], {}, os.path.join(folder, "node")))
    failed = 0
    for name, words, more, where in calls:
        done = subprocess.run(words, capture_output=True, cwd=where, env={**os.environ, **more})
        if done.returncode or revealed(program, done.stdout) != WANTED:
            failed += 1
            print("%s: %s%s" % (name, revealed(program, done.stdout), done.stderr.decode()))
    print("%d passed, %d failed" % (len(calls) - failed, failed))
    sys.exit(1 if failed else 0)


main()
