"""Kills the collector (kill -9) under load, again and again: /usr/bin/python3 kill_test.py [KILLS]. It needs gunicorn.

Sixteen clients post reports, and after each cut answer the same bytes again. After each kill every acknowledged report has to be in the store, and
at the end each is there once.
"""
import http.client
import random
import sys
import threading
import time

import support
import store

PORT = 18_090


class Load:
    """Clients that post slices of a list of reports until they are stopped."""

    def __init__(self, data):
        self._data, self._next, self._lock, self._stop = data, 0, threading.Lock(), threading.Event()
        self.acknowledged, self.cut, self.counts = set(), 0, {}
        self._threads = [threading.Thread(target=self._client, args=(size,)) for size in [1] * 12 + [20] * 4]

    def start(self):
        """Starts all clients."""
        for thread in self._threads:
            thread.start()

    def stop(self):
        """Ends them after their last answer."""
        self._stop.set()
        for thread in self._threads:
            thread.join()

    def sure(self):
        """What is acknowledged by now."""
        with self._lock:
            return set(self.acknowledged)

    def _slice(self, size):
        with self._lock:
            start, self._next = self._next, self._next + size
        return self._data[start:start + size]

    def _client(self, size):
        some = []
        while not self._stop.is_set():
            some = some or self._slice(size)
            if not some:
                return
            try:
                connection = http.client.HTTPConnection("127.0.0.1", PORT, timeout=10)
                connection.request("POST", "/v1/reports", support.body_of(some))
                answer = connection.getresponse()
                answer.read()
                connection.close()
            except (OSError, http.client.HTTPException):
                self.cut += 1
                time.sleep(.05)
                continue
            with self._lock:
                self.counts[answer.status] = self.counts.get(answer.status, 0) + 1
                if answer.status == 200:
                    self.acknowledged.update(some)
                    some = []


def main(kills=20):
    rng, epoch = random.Random(5), support.epoch_now()
    load = Load(support.reports(100_000))
    with support.Collector(PORT, threads=32) as one:
        load.start()
        for _ in range(kills):
            time.sleep(rng.uniform(.3, 1.2))
            one.kill()
            lost = load.sure() - set(store.frames(one.store, epoch))
            assert not lost, f"{len(lost)} acknowledged reports are lost"
            one.start()
        load.stop()
        one.kill()
        there = list(store.frames(one.store, epoch))
        assert load.acknowledged <= set(there) and len(there) == len(set(there)) == store.count(one.store, epoch)
    print(f"kill: {kills} kills, {len(load.acknowledged)} acknowledged, 0 lost, {len(there)} kept, 0 twice, {load.cut} requests cut, "
          f"answers {load.counts}")


if __name__ == "__main__":
    main(*map(int, sys.argv[1:]))
