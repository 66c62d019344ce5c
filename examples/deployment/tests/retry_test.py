"""A thousand senders whose collector is away for six hours: python3 retry_test.py. It needs no package, and its clock is a number.

All fail in the same second. None comes before `Retry-After` is over, they don't come back together, and they thin out; once the collector is back,
each report is kept within ten minutes.
"""
import collections
import io
import unittest
import unittest.mock
import urllib.error

import support
import send

AWAY = 6 * 3_600
RETRY_AFTER = 60
SENDERS = 1_000


class Collector:
    """Answers 503 until it is back, and notes when each sender came."""

    def __init__(self):
        self.now, self.tries, self.kept = 0, [], 0

    def open(self, request, timeout):
        """The answer to one request."""
        self.tries.append(self.now)
        if self.now < AWAY:
            raise urllib.error.HTTPError("", 503, "away", {"Retry-After": str(RETRY_AFTER)}, io.BytesIO(b"not kept: disk\n"))
        self.kept += 1
        return io.BytesIO(b"new=1 known=0 full=0 refused=0\n")

    def sleep(self, seconds):
        """Passes the time of one sender."""
        self.now += seconds


class Retries(unittest.TestCase):
    def setUp(self):
        """Each sender has the whole time to itself: they don't know of each other."""
        self.tries, self.kept, self.last, gaps = [], 0, 0, []
        for number in range(SENDERS):
            one = Collector()
            with unittest.mock.patch.object(send.time, "monotonic", lambda: one.now), unittest.mock.patch.object(send.time, "sleep", one.sleep):
                sender = send.Sender("http://localhost/v1/reports", opener=one)
                sender.add(b"report %d" % number)
                self.assertTrue(sender.flush(patience=2 * AWAY))
            self.tries += one.tries
            self.kept += one.kept
            self.last = max(self.last, one.now)
            gaps += [after - before for before, after in zip(one.tries, one.tries[1:])]
        self.shortest = min(gaps)

    def test_they_thin_out(self):
        minutes = collections.Counter(int(at // 60) for at in self.tries if at < AWAY)
        seconds = collections.Counter(int(at) for at in self.tries if 1 <= at < AWAY)
        self.assertEqual((self.kept, minutes[0]), (SENDERS, SENDERS))
        self.assertGreaterEqual(self.shortest, RETRY_AFTER)
        self.assertLessEqual(max(seconds.values()), SENDERS // 20)
        late = [minutes[minute] for minute in range(60, AWAY // 60)]
        self.assertLessEqual(max(late), 2 * SENDERS // 5)
        self.assertLessEqual(self.last, AWAY + 600)
        print(f"retries: {SENDERS} senders in the first second, then at most {max(seconds.values())} a second; after an hour at most {max(late)} "
              f"a minute; all kept {self.last - AWAY:.0f} s after the collector is back")


if __name__ == "__main__":
    unittest.main()
