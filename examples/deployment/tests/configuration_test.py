"""The configuration, epochs by week, and what the door takes: python3 configuration_test.py. It needs no package."""
import json
import unittest

import support
import configuration
import frames
import intake
import weeks

EPOCH = 2_900
NOW = weeks.start_of(EPOCH) + 3 * weeks.DAY
LATER = {**support.TERMS, "from_epoch": EPOCH + 1, "thresholds": [30, 10]}


def judged(body, now=NOW, **changes):
    """The number of reports by epoch, and the refusals."""
    taken, refusals = intake.judged(body, configuration.read(support.configured(**changes)), now)
    return {epoch: len(some) for epoch, some in taken.items()}, dict(refusals)


class Reading(unittest.TestCase):
    def refused(self, text, place):
        with self.assertRaises(configuration.ConfigurationFault) as fault:
            configuration.read(text)
        self.assertTrue(str(fault.exception).startswith(place + ":"), str(fault.exception))

    def test_the_shipped_file(self):
        found = configuration.load()
        self.assertEqual(found.terms[-1].thresholds, (20, 10))
        self.assertEqual(configuration.Terms.from_json(found.terms[-1].as_json()), found.terms[-1])

    def test_faults_name_their_place(self):
        self.refused("{", "not JSON")
        self.refused("[]", "configuration")
        self.refused('{"terms": []}', "configuration.terms")
        for name, value, place in (
                ("version", 3, ""), ("thresholds", [1, 2], "[0]"), ("thresholds", [20], ""), ("thresholds", [513, 10], "[0]"),
                ("thresholds", [20, "a"], "[1]"), ("layers", [], ""), ("layers", [""], ""), ("layers", ["a"] * 9, ""), ("most_reports", 131_073, ""),
                ("reports_a_body", 101, ""), ("from_epoch", -1, ""), ("from_epoch", True, ""), ("reports", 1, "")):
            self.refused(support.configured(**{name: value} if name != "most_reports" else {"most": value}), f"terms[0].{name}{place}")
        entry = json.loads(support.configured(more=[LATER, LATER]))
        self.refused(json.dumps(entry), "terms[2].from_epoch")
        self.refused(json.dumps({**json.loads(support.configured()), "late_seconds": "x"}), "configuration.late_seconds")

    def test_terms_of_epochs(self):
        found = configuration.read(support.configured(more=[LATER]))
        self.assertIsNone(found.of(1_999))
        self.assertEqual([found.of(epoch).thresholds[0] for epoch in (2_000, EPOCH, EPOCH + 1, EPOCH + 50)], [20, 20, 30, 30])

    def test_a_change_is_for_an_epoch_to_come(self):
        old = configuration.read(support.configured())
        new = configuration.read(support.configured(more=[LATER]))
        configuration.refuse_changes(old, new, NOW)
        for now in (NOW + weeks.WEEK, weeks.start_of(EPOCH + 1) - 3_599):
            with self.assertRaises(configuration.ConfigurationFault):
                configuration.refuse_changes(old, new, now)
        with self.assertRaises(configuration.ConfigurationFault):
            configuration.refuse_changes(new, old, NOW + weeks.WEEK)
        with self.assertRaises(configuration.ConfigurationFault):
            configuration.refuse_changes(old, configuration.read(support.configured(most=10)), NOW)


class Weeks(unittest.TestCase):
    def test_bounds(self):
        self.assertEqual((weeks.epoch_at(345_599), weeks.epoch_at(345_600), weeks.epoch_at(345_600 + 604_799)), (-1, 0, 0))
        self.assertEqual(weeks.name_of(weeks.epoch_at(1_796_227_200)), "week 49 of 2026, 2026-11-30 to 2026-12-06")

    def test_taken_and_closed(self):
        found, start = configuration.read(support.configured()), weeks.start_of(EPOCH)
        for now, wanted in ((start - 3_601, [EPOCH - 1]), (start - 3_600, [EPOCH - 1, EPOCH]), (start + 172_799, [EPOCH - 1, EPOCH]),
                            (start + 172_800, [EPOCH])):
            self.assertEqual(list(found.taken(now)), wanted)
            self.assertEqual(found.is_closed(EPOCH - 1, now), EPOCH - 1 not in wanted)
            self.assertFalse(found.is_closed(EPOCH, now))


class Judging(unittest.TestCase):
    def test_each_reason(self):
        good = support.reports(3, EPOCH)
        deeper = bytearray(good[0])
        deeper[3] = 1
        self.assertEqual(judged(support.body_of(good + good[:1])), ({EPOCH: 4}, {}))
        for some, reason in ((support.reports(2, EPOCH, [21, 10]), "other_threshold"), (support.reports(2, EPOCH, [20]), "other_layers"),
                             (support.reports(2, EPOCH, version=2), "other_version"), (support.reports(2, EPOCH - 1), "other_epoch"),
                             (support.reports(2, EPOCH + 1), "other_epoch"), ([bytes(deeper)] * 2, "other_level"), ([b"", b"ST"], "no_frame")):
            self.assertEqual(judged(support.body_of(good + some)), ({EPOCH: 3}, {reason: 2}))

    def test_terms_of_the_report_s_epoch(self):
        """At the change of terms, reports of both weeks are taken, each under its own."""
        now = weeks.start_of(EPOCH + 1) + 3_600
        old, new = support.reports(2, EPOCH), support.reports(3, EPOCH + 1, [30, 10])
        crossed = support.reports(1, EPOCH, [30, 10]) + support.reports(1, EPOCH + 1)
        self.assertEqual(judged(support.body_of(old + new + crossed), now, more=[LATER]), ({EPOCH: 2, EPOCH + 1: 3}, {"other_threshold": 2}))

    def test_bodies_that_are_refused_whole(self):
        body = support.body_of(support.reports(2, EPOCH))
        for cut in (1, 3, len(body) // 2 + 1, len(body) - 1):
            with self.assertRaises(frames.NoStream):
                judged(body[:cut])
        with self.assertRaises(frames.NoStream):
            judged((8_193).to_bytes(4, "big") + bytes(8_193))
        with self.assertRaises(intake.TooMany):
            judged(bytes(4 * 101))
        self.assertEqual(judged(bytes(4 * 100)), ({}, {"no_frame": 100}))

    def test_lengths_of_each_number_of_layers(self):
        """Bounds of the body's length, from reports of the shortest and the longest values."""
        client = support.Client(support.LIBRARY)
        for version, most in ((1, 8), (2, 16)):
            for layers in range(1, most + 1):
                ends = []
                for value, extra in ((b"a", b""), (b"a" * 64, bytes(frames.VERSIONS[version].extra))):
                    frame = client.report([value] * layers, [2] * layers, 1, version=version, extra=extra)
                    ends.append(frames.read(bytes(frame)).body)
                lengths = frames.body_lengths(version, layers)
                self.assertEqual(ends, [lengths[0], lengths[-1]])


if __name__ == "__main__":
    unittest.main()
