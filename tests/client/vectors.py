#!/usr/bin/env python3
"""Writes examples/vectors.json, or checks it: reports of both versions with every intermediate value of their derivation.

    vectors.py --write                   writes the file anew
    vectors.py PROGRAM|- [--reference FOLDER]

PROGRAM is the built program: its `make` has to give the reports of the file; `-` runs none. The file has to be what is written anew.
With --reference, star_reference.py in that folder has to give the same reports. The last line is 'N passed, M failed'.

The values are derived by tests/plain/shared.py, plain Python that takes nothing from the program.
"""
import json
import os
import struct
import subprocess
import sys

HERE = os.path.dirname(os.path.abspath(__file__))
sys.path.insert(0, os.path.join(HERE, "..", "plain"))
sys.dont_write_bytecode = True
import client
import fast
import shared

FILE = os.path.join(HERE, "..", "..", "examples", "vectors.json")
ABOUT = ("Reports of Nested STAR with each value of their derivation (docs/FORMATS.md). Bytes are in hexadecimal, field elements and other "
         "numbers in decimal. A table is what `star_tool make` reads: row i is the report of client i under the table's seed. Of a "
         "polynomial of more than 20 coefficients the first and the last three stand. The frame of an inner layer is the plain body of the "
         "layer around it, but for the first byte; that of layer 0 is the report.")

# What the tables are: version, epoch, seed, thresholds, rows of values, extra bytes of each row.
TABLES = [
    (1, 1, bytes(32), [2], [[b"a"], [b"red"], [b"\x00"], [b"\xff" * 64], [b"a"]], None),
    (1, 7, bytes(range(32)), [3, 2], [[b"Germany", b"Berlin"], [b"Germany", b"Bonn"], [b"\xc3\x28", b" "], [b"a,b\n", b"\"c\""]], None),
    (1, 4294967295, bytes([255]) * 32, [512, 20, 2], [[b"x" * 64, b"y", b"\x80\x81\xfe"], [b"red", b"blue", b"z" * 63]], None),
    (1, 2026, bytes(range(100, 132)), [2, 3, 4, 5, 6, 7, 8, 9], [[bytes([65 + i]) * (2 * i + 1) for i in range(8)]], None),
    (2, 1, bytes(32), [2], [[b"red"], [b"red"], [b"\x00\x01"]], [b"abc", b"", b"\xff" * 255]),
    (2, 7, bytes(range(32)), [513, 3], [[b"Germany", b"Berlin"], [b"\xf0\x28\x8c\xbc", b"q" * 64]], [b"first", b""]),
    (2, 0, b"one seed of thirty-two bytes here", [4096, 2, 4095], [[b"long", b"threshold", b"here"]], [b"\x00"]),
    (2, 4294967295, bytes(range(200, 232)), list(range(2, 18)), [[bytes([97 + i]) for i in range(16)]], [b"last"]),
]


def some(coefficients):
    return coefficients if len(coefficients) <= 20 else {"first": coefficients[:3], "last": coefficients[-3:]}


def layer(version, context, coins):
    """All that is derived of a layer, but for what its body holds."""
    key = context.key
    keys = shared.keys_of(version, key)
    x = 1 + int.from_bytes(coins[:8], "big") % 2**60
    polynomials = shared.polynomials_of(context)
    return {
        "level": context.level, "threshold": context.threshold, "value": context.value.hex(), "parent": context.parent.hex(),
        "context": context.data.hex(), "key": key.hex(), "tag": context.tag.hex(), "check": context.check.hex(),
        "coin key": context.derive(5).hex(), "box key": keys.box.hex(), "body key": keys.body.hex(), "seal key": keys.seal.hex(),
        "box": shared.open_box(version, key, context.value).hex(),
        "limbs": shared.limbs_of(key), "coefficients": [some(p) for p in polynomials],
        "coins": coins.hex(), "point": x, "shares": [shared.value_at(p, x) for p in polynomials], "nonce": coins[8:].hex(),
    }


def report(version, epoch, seed, thresholds, number, values, extra):
    coins = shared.keystream(seed, struct.pack("<III", 0, number, 0), 20 * len(values))
    contexts = client.contexts_of(version, epoch, thresholds, values)
    layers = [layer(version, context, coins[20 * context.level:20 * context.level + 20]) for context in contexts]
    plain = b"\0" + extra
    for context, made in zip(reversed(contexts), reversed(layers)):
        frame = client.make_frame(context, made["point"], bytes.fromhex(made["nonce"]), plain)
        made.update({"plain body": plain.hex(), "body": frame.body.hex(), "seal": frame.seal.hex()})
        plain = b"\1" + shared.write_frame(frame)
    return {"client": number, "extra": extra.hex(), "layers": layers, "report": plain[1:].hex()}


def cell(text):
    return b'"' + text.replace(b'"', b'""') + b'"'


def tables():
    found = []
    for version, epoch, seed, thresholds, rows, extras in TABLES:
        seed = seed[:32]
        reports = [report(version, epoch, seed, thresholds, i, values, extras[i] if extras else b"") for i, values in enumerate(rows)]
        csv = b"".join(b",".join(map(cell, values + ([extras[i]] if extras else []))) + b"\n" for i, values in enumerate(rows))
        found.append({"version": version, "epoch": epoch, "seed": seed.hex(), "thresholds": thresholds, "table": csv.hex(), "reports": reports})
    return {"about": ABOUT, "tables": found}


def text():
    return json.dumps(tables(), indent=1) + "\n"


def program_stream(program, t):
    words = [program, "make", "--thresholds", ",".join(map(str, t["thresholds"])), "--epoch", str(t["epoch"]), "--seed", t["seed"]]
    if t["version"] == 2:
        words += ["--version", "2"]
    done = subprocess.run(words, input=bytes.fromhex(t["table"]), capture_output=True, timeout=60)
    return done.stdout if done.returncode == 0 else b"status %d" % done.returncode


def main():
    if len(sys.argv) < 2:
        sys.exit(__doc__)
    if sys.argv[1] == "--write":
        with open(FILE, "w") as file:
            file.write(text())
        return
    answers = []
    with open(FILE) as file:
        kept = file.read()
    answers.append(("what is written anew", kept == text()))
    reference = None
    if "--reference" in sys.argv:
        sys.path.insert(0, sys.argv[sys.argv.index("--reference") + 1])
        import star_reference as reference
    for i, t in enumerate(json.loads(kept)["tables"]):
        frames = [bytes.fromhex(r["report"]) for r in t["reports"]]
        if sys.argv[1] != "-":
            answers.append(("the program on table %d" % i, program_stream(sys.argv[1], t) == b"".join(map(shared.write_record, frames))))
        for r, frame in zip(t["reports"], frames) if reference else []:
            values = [bytes.fromhex(layer["value"]) for layer in r["layers"]]
            other = reference.build(values, t["thresholds"], t["epoch"], bytes.fromhex(t["seed"]), r["client"], t["version"], bytes.fromhex(r["extra"]))
            answers.append(("the reference on table %d, row %d" % (i, r["client"]), other == frame))
    failed = [name for name, passed in answers if not passed]
    for name in failed:
        print("differs: " + name)
    print("%d passed, %d failed" % (len(answers) - len(failed), len(failed)))
    sys.exit(1 if failed else 0)


if __name__ == "__main__":
    main()
