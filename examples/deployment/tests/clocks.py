"""A collector whose clock is some years off, for collector_test.py."""
import os
import time

import collector
import weeks


def application():
    """The collector's application, with another clock."""
    off = int(os.environ["STAR_TEST_YEARS"]) * 52 * weeks.WEEK
    return collector.application(clock=lambda: time.time() + off)
