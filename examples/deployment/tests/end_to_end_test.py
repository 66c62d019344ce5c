"""From clients to the page: /usr/bin/python3 end_to_end_test.py PROGRAM [NUMBER | --longest]. It needs gunicorn and python3-prometheus-client.

NUMBER reports (100,000 unless said otherwise) of last week are made by the client of bindings/python and sent by six senders of send.py to a
collector whose late days aren't over yet; then a report with the shipped number of late days opens that week. Its text has to be that of `reveal`
on the reports themselves.

--longest fills the store with 131,072 frames of 8,192 bytes instead, without the door, and says how much memory their report takes: at most 4 GiB.
"""
import json
import os
import resource
import subprocess
import sys
import tempfile
import threading
import time

import support
import markup
import send
import writer

PORT = 18_096
EPOCH = support.epoch_now() - 1
GIB = 2**30


def sent(url, data, senders=6):
    """Sends all of it, and returns what came of it."""
    made = [send.Sender(url) for _ in range(senders)]

    def work(sender, some):
        for report in some:
            sender.add(report)
        sender.flush(patience=300)
    threads = [threading.Thread(target=work, args=(sender, data[at::senders])) for at, sender in enumerate(made)]
    for thread in threads:
        thread.start()
    for thread in threads:
        thread.join()
    return {name: sum(sender.counts[name] for sender in made) for name in send.OUTCOMES}


def opened(program, folder, pages, text):
    """Runs epoch_report.py on a store; its seconds."""
    path = os.path.join(pages, "..", "shipped.json")
    with open(path, "w", encoding="utf-8") as file:
        file.write(text)
    env = {**os.environ, "STAR_STORE": folder, "STAR_PAGES": pages, "STAR_TOOL": program, "STAR_CONFIGURATION": path}
    start = time.monotonic()
    subprocess.run(["/usr/bin/python3", "epoch_report.py"], cwd=support.DEPLOYMENT, env=env, check=True)
    return time.monotonic() - start


def from_clients_to_the_page(program, number):
    """The whole way, and its seconds."""
    late = json.dumps({**json.loads(support.configured()), "late_seconds": 14 * 86_400})
    start = time.monotonic()
    data = support.reports(number, EPOCH, spread=400)
    made = time.monotonic() - start
    with support.Collector(PORT, threads=16, text=late) as one:
        start = time.monotonic()
        counts = sent(f"http://127.0.0.1:{PORT}/v1/reports", data)
        took = time.monotonic() - start
        assert counts == {"new": number, "known": 0, "full": 0, "refused": 0}, counts
        one.stop()
        opening = opened(program, one.store, one.pages, support.configured())
        with open(os.path.join(one.pages, f"{EPOCH}.txt"), "rb") as file:
            text = file.read()
        wanted = subprocess.run([program, "reveal", "--epoch", str(EPOCH)], input=support.body_of(data), stdout=subprocess.PIPE, check=True).stdout
        assert text == wanted and f"rows={number} ".encode() in text, "the text isn't that of the stream"
        with open(os.path.join(one.pages, f"{EPOCH}.html"), encoding="utf-8") as file:
            assert markup.number(number) in file.read(), "the page doesn't have the number of reports"
    print(f"end to end: {number} reports made in {made:.1f} s, sent in {took:.1f} s, opened and drawn in {opening:.1f} s; the text is that of reveal")


def longest(program):
    """The memory that the report of a full epoch of the longest frames takes."""
    head, = support.reports(1, EPOCH, [20], version=2)
    at = 105 + head[90]
    fixed = bytearray(head[:at]) + bytes(8_192 - at)
    fixed[at - 2:at] = (8_192 - 137 - head[90]).to_bytes(2, "big")
    with tempfile.TemporaryDirectory() as work:
        folder, pages = os.path.join(work, "store"), os.path.join(work, "pages")
        os.makedirs(pages)
        text = support.configured(version=2, thresholds=[20], layers=["crash"])
        one = writer.Writer(folder, support.configuration.read(text))
        for start in range(0, 131_072, 1_024):
            some = []
            for number in range(start, start + 1_024):
                fixed[42:58] = number.to_bytes(16, "big")       # a tag of its own, so a group of its own
                some.append(bytes(fixed))
            one.put({EPOCH: some}, {}).result(timeout=120)
        support.frames.read(bytes(fixed))
        del one
        took = opened(program, folder, pages, text)
        memory = resource.getrusage(resource.RUSAGE_CHILDREN).ru_maxrss * 1024
        with open(os.path.join(pages, f"{EPOCH}.txt"), encoding="ascii") as file:
            assert file.read().endswith("records=131072 rows=131072 refused=0\n")
    assert memory < 4 * GIB, memory
    print(f"longest: 131072 frames of 8192 bytes opened in {took:.0f} s, the greatest process took {memory / GIB:.2f} GiB")


if __name__ == "__main__":
    if "--longest" in sys.argv:
        longest(os.path.abspath(sys.argv[1]))
    else:
        from_clients_to_the_page(os.path.abspath(sys.argv[1]), *map(int, sys.argv[2:] or [100_000]))
