"""The units, the schedule and the alerts: /usr/bin/python3 units_test.py. Each part is skipped if its program isn't installed."""
import os
import re
import shutil
import subprocess
import tempfile
import unittest

import support

UNITS = os.path.join(support.DEPLOYMENT, "units")


def text_of(name):
    """The text of a file of units/."""
    with open(os.path.join(UNITS, name), encoding="utf-8") as file:
        return file.read()


def run(*words):
    """Status and all output of a program, in units/."""
    found = subprocess.run(words, cwd=UNITS, stdout=subprocess.PIPE, stderr=subprocess.STDOUT, check=False)
    return found.returncode, found.stdout.decode()


class Units(unittest.TestCase):
    @unittest.skipUnless(shutil.which("systemd-analyze"), "no systemd-analyze")
    def test_systemd_has_no_complaint(self):
        names = [name for name in sorted(os.listdir(UNITS)) if name.endswith((".service", ".timer"))]
        self.assertEqual(len(names), 4)
        self.assertEqual(run("systemd-analyze", "verify", *(os.path.join(UNITS, name) for name in names)), (0, ""))

    @unittest.skipUnless(shutil.which("systemd-analyze"), "no systemd-analyze")
    def test_the_timer_runs_each_day(self):
        when, = re.findall(r"OnCalendar=(.*)", text_of("star-epoch.timer"))
        status, said = run("systemd-analyze", "calendar", "--iterations=3", when)
        self.assertEqual(status, 0)
        days = re.findall(r"(?:Next elapse|Iteration #\d|Iter\. #\d)[^:]*: (?:\w+ )?(\d{4}-\d\d-\d\d) 00:30:00 UTC", said)
        self.assertEqual(len(set(days)), 3, said)

    def test_two_users(self):
        """The collector's user isn't the report's, and each has a state folder of its own."""
        names = ("star-collector.service", "star-epoch.service", "star-forget.service")
        users = [re.search(r"^User=(.*)", text_of(name), re.M)[1] for name in names]
        self.assertEqual(users, ["star-collector", "star-report", "star-collector"])
        self.assertIn("StateDirectory=star/store\n", text_of("star-collector.service"))
        self.assertIn("StateDirectory=star/pages\n", text_of("star-epoch.service"))

    def test_the_clock_and_faults(self):
        self.assertIn("time-sync.target", re.search(r"^After=(.*)", text_of("star-collector.service"), re.M)[1])
        self.assertIn("Restart=on-failure", text_of("star-epoch.service"))
        self.assertIn("Persistent=yes", text_of("star-epoch.timer"))

    def test_cron_in_five_time_zones(self):
        """Whatever the machine's zone: for each there is a run within the first hour after the late days, by UTC."""
        line, = [line for line in text_of("star.cron").splitlines() if re.match(r"\d", line)]
        minute, *others = line.split()[:5]
        self.assertEqual(others, ["*"] * 4)
        for zone in ("UTC", "Asia/Kolkata", "Asia/Kathmandu", "Pacific/Apia", "America/St_Johns"):
            env = {**os.environ, "TZ": zone}
            script = f"import time; print(min(m for m in range(120) if time.localtime(1_796_774_400 + 60 * m).tm_min == {minute}))"
            found = subprocess.run(["/usr/bin/python3", "-c", script], env=env, stdout=subprocess.PIPE, check=True)
            self.assertLess(int(found.stdout), 60, zone)

    @unittest.skipUnless(shutil.which("promtool"), "no promtool")
    def test_alerts(self):
        status, said = run("promtool", "test", "rules", "alerts_test.yml")
        self.assertEqual(status, 0, said)
        self.assertEqual(run("promtool", "check", "config", "prometheus.yml")[0], 0)
        names = set(re.findall(r"- alert: (\w+)", text_of("alerts.yml")))
        tests = re.findall(r"alertname: (\w+), exp_alerts: (\[\]|\[\{)", text_of("alerts_test.yml"))
        self.assertEqual({name for name, fires in tests if fires == "[{"}, names)
        self.assertEqual({name for name, fires in tests if fires == "[]"}, names)

    @unittest.skipUnless(shutil.which("promtool"), "no promtool")
    def test_the_test_of_alerts_sees_wrong_rules(self):
        """Each rule with its comparison turned round fails that test."""
        rules = text_of("alerts.yml")
        places = [found.start() for found in re.finditer(r"(?<= )[<>](?= )|==", rules)]
        self.assertGreaterEqual(len(places), 14)
        for place in places:
            turned = {"<": ">", ">": "<", "==": "!="}[rules[place:place + 2].strip()]
            wrong = rules[:place] + turned + rules[place + len(rules[place:place + 2].strip()):]
            with tempfile.TemporaryDirectory() as folder:
                for name, text in (("alerts.yml", wrong), ("alerts_test.yml", text_of("alerts_test.yml"))):
                    with open(os.path.join(folder, name), "w", encoding="utf-8") as file:
                        file.write(text)
                status, _ = run("promtool", "test", "rules", folder + "/alerts_test.yml")
            self.assertNotEqual(status, 0, rules[place - 60:place + 30])


if __name__ == "__main__":
    unittest.main()
