#!/usr/bin/python3
"""Makes reports by the form of a page, in a headless Chromium: try_reports.py ADDRESS NUMBER"""
import os
import shutil
import sys
import tempfile
import time

from selenium import webdriver
from selenium.common.exceptions import WebDriverException
from selenium.webdriver.chrome.service import Service

# What the first hundred visitors report: with thresholds 20 and 10, Norway, Tonga and three cities stay shut.
VISITORS = (
    [("Germany", "Berlin")] * 20
    + [("Germany", "Hamburg")] * 12
    + [("Germany", "Köln")] * 8
    + [("Germany", "Jena")] * 5
    + [("Kenya", "Nairobi")] * 18
    + [("Kenya", "Mombasa")] * 12
    + [("Norway", "Bergen")] * 16
    + [("Tonga", "Neiafu")] * 9
)

# Fills the form as a visitor does, and waits until the page has said what became of the report.
REPORTS = """
const [visitors, done] = arguments, byId = (id) => document.getElementById(id), said = byId("said"), form = byId("form"), send = byId("send");
(async () => {
  for (const values of visitors) {
    [...document.querySelectorAll("#fields input")].forEach((input, i) => { input.value = values[i]; });
    form.requestSubmit();
    while (send.disabled) await new Promise((next) => setTimeout(next, 2));
  }
  return said.textContent;
})().then(done, (fault) => done(String(fault)));
"""


def browser(profile, *words):
    """A headless Chromium; without its sandbox if it is root's, or can't have one here."""
    for sandbox in ([] if os.geteuid() == 0 else [[]]) + [["--no-sandbox"]]:
        options = webdriver.ChromeOptions()
        options.binary_location = shutil.which("chromium")
        for word in ["--headless", "--disable-gpu", "--disable-dev-shm-usage", "--user-data-dir=" + profile, *sandbox, *words]:
            options.add_argument(word)
        options.set_capability("goog:loggingPrefs", {"browser": "ALL"})
        try:
            driver = webdriver.Chrome(service=Service(shutil.which("chromedriver")), options=options)
        except WebDriverException as fault:
            last = fault
            continue
        driver.set_script_timeout(300)
        driver.set_page_load_timeout(60)
        return driver
    raise last


def load(driver, address, patience=60):
    """Loads the form, and waits until it can make reports; what it says if it can't."""
    end = time.monotonic() + patience
    while True:
        try:
            driver.get(address)
            break
        except WebDriverException:
            if time.monotonic() > end:
                raise
            time.sleep(0.2)
    while time.monotonic() < end and driver.execute_script("return document.documentElement.dataset.ready") != "yes":
        time.sleep(0.1)
    return driver.execute_script("return document.documentElement.dataset.ready || document.getElementById('said').textContent")


def main(address, number):
    with tempfile.TemporaryDirectory(ignore_cleanup_errors=True) as profile:
        driver = browser(profile)
        try:
            if load(driver, address) != "yes":
                sys.exit("the form isn't ready")
            visitors = [list(VISITORS[i * 37 % len(VISITORS)]) for i in range(number)]
            print(driver.execute_async_script(REPORTS, visitors))
        finally:
            driver.quit()


if __name__ == "__main__":
    main(sys.argv[1], int(sys.argv[2]))
