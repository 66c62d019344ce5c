#!/usr/bin/env python3
"""The texts of normal.json in Python's normal form and, where Node is here, in JavaScript's. The last line is 'N passed, M failed'."""
import json
import os
import shutil
import subprocess
import sys

HERE = os.path.dirname(os.path.abspath(__file__))
sys.dont_write_bytecode = True
sys.path.insert(0, os.path.join(HERE, "..", "..", "bindings", "python"))
from star_client import TRIMMED, normalized

SCRIPT = """
import fs from "node:fs";
const { normalized, TRIMMED } = await import(process.argv[1]);
const { texts } = JSON.parse(fs.readFileSync(process.argv[2], "utf8"));
console.log(JSON.stringify([TRIMMED, texts.map(({ text }) => [normalized(text), normalized(text, { lower: true })])]));
"""


def by_node(path):
    module = "file://" + os.path.abspath(os.path.join(HERE, "..", "..", "bindings", "web", "normal.mjs"))
    words = ["node", "--input-type=module", "-e", SCRIPT, module, path]
    return json.loads(subprocess.run(words, capture_output=True, text=True, check=True).stdout)


def main():
    path = os.path.join(HERE, "normal.json")
    with open(path, encoding="utf-8") as file:
        texts = json.load(file)["texts"]
    want = [[it["normal"], it["lower"]] for it in texts]
    told = {"Python": [[normalized(it["text"]), normalized(it["text"], lower=True)] for it in texts]}
    answers = [("Python, again: " + it["about"], normalized(normalized(it["text"], lower=True), lower=True) == it["lower"]) for it in texts]
    if shutil.which("node"):
        trimmed, told["JavaScript"] = by_node(path)
        answers.append(("the characters that are trimmed", trimmed == TRIMMED))
    answers += [("%s: %s" % (name, it["about"]), got == wanted) for name, all_of in told.items() for it, got, wanted in zip(texts, all_of, want)]
    failed = [name for name, passed in answers if not passed]
    for name in failed:
        print("differs: " + name)
    print("%d passed, %d failed" % (len(answers) - len(failed), len(failed)))
    sys.exit(1 if failed else 0)


main()
