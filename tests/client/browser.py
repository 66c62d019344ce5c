#!/usr/bin/env python3
"""Runs the page of bindings/web in the browsers that are here, and compares what it makes with tests/plain.

    browser.py FOLDER

A server on this machine serves bindings/web and one page more, a frame around index.html that fills its form, has it make reports, and
posts what came of it back here; the lowered module and the normal form are tried too. FOLDER gets a screenshot of each browser and the stream of the form's reports, page.stream. The last
line is 'N passed, M failed'.
"""
import http.server
import json
import os
import random
import shutil
import subprocess
import sys
import tempfile
import threading

HERE = os.path.dirname(os.path.abspath(__file__))
sys.dont_write_bytecode = True
sys.path[:0] = [HERE, os.path.join(HERE, "..", "plain")]
import vectors
from random_requests import random_request
from shared import write_record

PAGE = os.path.join(HERE, "..", "..", "bindings", "web")
CASES = 500

# Fills the form for each of some clients, and makes 500 reports through the page's own module and through the lowered one.
DRIVER = """<!doctype html><meta charset="utf-8"><style>body{margin:0}iframe{border:0;width:1120px;height:1300px}</style>
<iframe id="page" src="index.html"></iframe><img src="wait.gif" alt="" style="display:none">
<script type="module">
const frame = document.getElementById("page");
await new Promise((done) => { frame.onload = done; if (frame.contentDocument?.readyState === "complete" && frame.contentDocument.location.href !== "about:blank") done(); });
const page = frame.contentWindow, $ = (id) => page.document.getElementById(id);
while (page.document.documentElement.dataset.ready !== "yes") await new Promise((next) => setTimeout(next, 20));
const hexOf = (bytes) => [...bytes].map((b) => b.toString(16).padStart(2, "0")).join("");
const bytesOf = (hex) => Uint8Array.from(hex.match(/../g) ?? [], (x) => parseInt(x, 16));
const asked = await (await fetch("cases.json")).json(), result = { agent: navigator.userAgent, form: [], made: [] };
try {
  for (const { seed, client, values } of asked.form) {
    const inputs = [...page.document.querySelectorAll("[name=value]")];
    values.forEach((value, i) => { inputs[i].value = value; });
    $("seed").value = seed; $("client").value = client;
    $("make").click();
    result.form.push({ report: $("frame").textContent.replaceAll(" ", ""), fault: $("fault").textContent });
  }
  const client = page.starClient;
  const request = (c) => ({ ...c, values: c.values.map(bytesOf), extra: bytesOf(c.extra), seed: bytesOf(c.seed) });
  result.made = asked.cases.map((c) => hexOf(client.report(request(c))));
  // The lowered module and the normal form, by the package's own script.
  const { load, normalized } = await import("./star_client.mjs");
  const lowered = await load(fetch("star_client_32.wasm"));
  result.lowered = asked.cases.map((c) => hexOf(lowered.report(request(c))));
  result.normal = asked.texts.map(({ text }) => [normalized(text), normalized(text, { lower: true })]);
  const time = (c, times) => { const from = performance.now(); for (let i = 0; i < times; i++) client.report(c); return 1000 * (performance.now() - from) / times; };
  const two = { values: ["Germany", "Berlin"], thresholds: [20, 10], epoch: 1, seed: new Uint8Array(32), client: 0 };
  const eight = { ...two, values: [..."abcdefgh"], thresholds: new Array(8).fill(512) };
  time(two, 2000); time(eight, 100);
  result.two = time(two, 2000); result.eight = time(eight, 100);
  // A form without a seed, as it is shown first.
  $("seed").value = ""; $("client").value = 0; $("make").click();
} catch (error) { result.error = String(error.stack ?? error); }
await fetch("result", { method: "POST", body: JSON.stringify(result) });
</script>"""


def form_requests():
    people = [("Germany", "Berlin")] * 10 + [("Germany", "Bonn")] * 8 + [("Germany", "Kiel")] * 4 + [("France", "Paris")] * 3
    return [{"seed": bytes([i + 1] * 32).hex(), "client": i, "values": list(pair)} for i, pair in enumerate(people)]


def cases():
    rng = random.Random(300)
    made = []
    for _ in range(CASES):
        version, epoch, client, seed, thresholds, values, extra = random_request(rng)
        made.append({"version": version, "epoch": epoch, "client": client, "seed": seed.hex(), "thresholds": thresholds,
                     "values": [v.hex() for v in values], "extra": extra.hex()})
    return made


def wanted(case):
    values = [bytes.fromhex(v) for v in case["values"]]
    return vectors.report(case["version"], case["epoch"], bytes.fromhex(case["seed"]), case["thresholds"], case["client"], values,
                          bytes.fromhex(case["extra"]))["report"]


class Handler(http.server.SimpleHTTPRequestHandler):
    asked = None
    told = None
    done = None

    def __init__(self, *words):
        super().__init__(*words, directory=PAGE)

    def send(self, kind, text):
        self.send_response(200)
        self.send_header("Content-Type", kind)
        self.send_header("Content-Length", str(len(text)))
        self.end_headers()
        self.wfile.write(text)

    def do_GET(self):
        if self.path == "/driver.html":
            self.send("text/html", DRIVER.encode())
        elif self.path == "/cases.json":
            self.send("application/json", json.dumps(Handler.asked).encode())
        elif self.path == "/wait.gif":
            # Keeps the outer page loading until its result is here, since a screenshot is taken when it has loaded.
            Handler.done.wait(240)
            self.send_error(404)
        else:
            super().do_GET()

    def do_POST(self):
        Handler.told = json.loads(self.rfile.read(int(self.headers["Content-Length"])))
        self.send("text/plain", b"")
        Handler.done.set()

    def log_message(self, *words):
        pass


Handler.extensions_map = {**http.server.SimpleHTTPRequestHandler.extensions_map, ".mjs": "text/javascript", ".wasm": "application/wasm"}


def commands(address, folder, scratch):
    shot = lambda name: os.path.join(os.path.abspath(folder), name + ".png")
    if shutil.which("chromium-headless-shell"):
        yield "chromium", ["chromium-headless-shell", "--no-sandbox", "--user-data-dir=" + os.path.join(scratch, "c"), "--window-size=1136,1316",
                           "--timeout=240000", "--screenshot=" + shot("chromium"), address]
    if shutil.which("firefox-esr"):
        os.makedirs(os.path.join(scratch, "f"))
        yield "firefox", ["firefox-esr", "--headless", "--no-remote", "--profile", os.path.join(scratch, "f"), "--window-size=1136,1316",
                          "--screenshot", shot("firefox"), address]


def main():
    folder = sys.argv[1]
    with open(os.path.join(HERE, "normal.json"), encoding="utf-8") as file:
        texts = json.load(file)["texts"]
    Handler.asked = {"form": form_requests(), "cases": cases(), "texts": texts}
    want = [wanted(case) for case in Handler.asked["cases"]]
    server = http.server.ThreadingHTTPServer(("127.0.0.1", 0), Handler)
    threading.Thread(target=server.serve_forever, daemon=True).start()
    answers = []
    with tempfile.TemporaryDirectory() as scratch:
        for name, words in commands("http://127.0.0.1:%d/driver.html" % server.server_port, folder, scratch):
            Handler.told, Handler.done = None, threading.Event()
            env = dict(os.environ, HOME=scratch, MOZ_HEADLESS="1")
            run = subprocess.run(words, capture_output=True, text=True, timeout=300, env=env)
            told = Handler.told or {"error": "no answer: " + run.stderr[-500:]}
            if "error" in told:
                print("%s: %s" % (name, told["error"]))
            form = [wanted({"version": 1, "epoch": 1, "thresholds": [20, 10], "extra": "", **f, "values": [v.encode().hex() for v in f["values"]]})
                    for f in Handler.asked["form"]]
            normal = [[it["normal"], it["lower"]] for it in texts]
            for what, wants in (("made", want), ("lowered", want), ("normal", normal), ("form", [{"report": text, "fault": ""} for text in form])):
                got = told.get(what, [])
                answers += [("%s, %s %d" % (name, what, i), i < len(got) and got[i] == wanted_one) for i, wanted_one in enumerate(wants)]
            if "two" in told:
                print("%s: two layers %.0f us, eight with thresholds of 512 %.0f us; %s" % (name, told["two"], told["eight"], told["agent"]))
            if name == "chromium" and told.get("form"):
                with open(os.path.join(folder, "page.stream"), "wb") as file:
                    file.write(b"".join(write_record(bytes.fromhex(f["report"])) for f in told["form"]))
    server.shutdown()
    failed = [name for name, passed in answers if not passed]
    for name in failed[:20]:
        print("differs: " + name)
    print("%d passed, %d failed" % (len(answers) - len(failed), len(failed)))
    sys.exit(1 if failed or not answers else 0)


main()
