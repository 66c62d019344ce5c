#!/usr/bin/python3
"""Pages and form in Chromium, Firefox and, with a display, WebKitGTK: browser_test.py [FOLDER]        FOLDER gets screenshots

No hostile value runs in a page, and a page loads nothing. The form sends nothing where its script, its module or its storage is missing, nor before
it is ready; values that can't be sent are named; reports outlive a collector that is away, foreign answers and a reload, and arrive once.
Packages: chromium chromium-driver firefox-esr python3-selenium, and for WebKitGTK webkit2gtk-driver and a display (xvfb). Firefox needs no
geckodriver. WebKitGTK's driver shows no console.
"""
import contextlib
import glob
import http.server
import os
import shutil
import sys
import tempfile
import threading
import time

HERE = os.path.dirname(os.path.abspath(__file__))
CODE, TOP = os.path.dirname(HERE), os.path.dirname(os.path.dirname(os.path.dirname(HERE)))
sys.path[:0] = [HERE, CODE]
import firefox  # noqa: E402
import frames  # noqa: E402
import hard_texts  # noqa: E402
import page  # noqa: E402
import try_reports  # noqa: E402
from selenium import webdriver  # noqa: E402
from selenium.common.exceptions import NoAlertPresentException  # noqa: E402

CLIENT = os.path.join(TOP, "bindings", "web")
KINDS = {".mjs": "text/javascript", ".wasm": "application/wasm", ".css": "text/css", ".json": "application/json", ".html": "text/html"}


class Site(http.server.ThreadingHTTPServer):
    """The folder of the form, a collector that answers as it is told, and a list of what was asked."""

    def __init__(self, folder):
        super().__init__(("127.0.0.1", 0), Handler)
        self.folder, self.asked = folder, []
        self.reset()
        threading.Thread(target=self.serve_forever, args=(0.05,), daemon=True).start()

    def reset(self):
        """A collector that keeps all, and no file that is missing or slow."""
        self.missing, self.slow, self.answer, self.kept, self.bodies, self.hang = set(), {}, None, [], [], 0
        self.asked.clear()

    def handle_error(self, request, address):
        if not isinstance(sys.exc_info()[1], ConnectionError):  # a browser that leaves a page cuts its connections
            super().handle_error(request, address)

    @property
    def address(self):
        return "http://127.0.0.1:%d/" % self.server_port

    def sent(self):
        """Requests that aren't for a file of the form."""
        return [one for one in self.asked if one[0] != "GET" or not os.path.exists(os.path.join(self.folder, one[1].lstrip("/").partition("?")[0]))]


class Handler(http.server.BaseHTTPRequestHandler):
    protocol_version = "HTTP/1.1"

    def do_GET(self):
        self.server.asked.append(("GET", self.path))
        name = self.path.partition("?")[0].lstrip("/") or "index.html"
        time.sleep(self.server.slow.get(name, 0))
        path = os.path.join(self.server.folder, name)
        if name in self.server.missing or not os.path.isfile(path):
            return self.say(404, b"no")
        with open(path, "rb") as file:
            return self.say(200, file.read(), KINDS.get(os.path.splitext(name)[1], "application/octet-stream"))

    def do_POST(self):
        self.server.asked.append(("POST", self.path))
        body = frames.records_of(self.rfile.read(int(self.headers["Content-Length"])))
        assert not self.headers.get("Cookie") and not self.headers.get("Referer") and not self.headers.get("Content-Type")
        if self.server.hang:
            self.server.hang -= 1
            time.sleep(3)
            return self.say(503, b"not kept: busy\n")
        if self.server.answer:
            return self.say(*self.server.answer)
        new = [report for report in body if report not in self.server.kept]
        self.server.kept += new
        self.server.bodies.append(len(body))
        return self.say(200, b"new=%d known=%d full=0 refused=0\n" % (len(new), len(body) - len(new)))

    def say(self, status, text, kind="text/plain"):
        with contextlib.suppress(OSError):
            self.send_response(status)
            self.send_header("Content-Length", str(len(text)))
            self.send_header("Content-Type", kind)
            self.send_header("Cache-Control", "no-store")
            if status in (301, 302):
                self.send_header("Location", "/index.html")
            self.end_headers()
            self.wfile.write(text)

    def log_message(self, *words):
        pass


def form_folder(folder):
    for name in os.listdir(os.path.join(CODE, "web")):
        shutil.copy(os.path.join(CODE, "web", name), folder)
    for name in ("star_client.mjs", "normal.mjs", "star_client.wasm", "star_client_32.wasm"):
        shutil.copy(os.path.join(CLIENT, name), folder)
    shutil.copy(os.path.join(CODE, "configuration.json"), folder)


def said(driver):
    return driver.execute_script("return document.getElementById('said').textContent")


def wait_for(what, patience=30):
    end = time.monotonic() + patience
    while not what():
        assert time.monotonic() < end, "nothing came of it"
        time.sleep(0.05)


FILL = "const [values] = arguments; [...document.querySelectorAll('#fields input')].forEach((input, i) => { input.value = values[i]; });"
SUBMIT = FILL + " document.getElementById('form').requestSubmit();"
# A click, and Enter in each field, as a hasty visitor does it; neither sends anything from a form that isn't ready.
HASTE = """document.getElementById('send').click(); const form = document.getElementById('form');
for (const input of form.querySelectorAll('input')) input.dispatchEvent(new KeyboardEvent('keydown', { key: 'Enter', bubbles: true }));
try { form.requestSubmit(document.getElementById('send')); } catch { } form.requestSubmit(); return location.href;"""


def forget(driver):
    driver.execute_script("try { localStorage.clear(); } catch { }")


def check_not_ready(driver, site):
    """Without its script, its module, its wasm or its configuration, and before it is ready, the form sends nothing and says why."""
    for missing, words in (
        ("page.mjs", "script"),
        ("outbox.mjs", "script"),
        ("star_client.mjs", "script"),
        ("configuration.json", "configuration"),
        ("star_client", "can't make reports"),
    ):
        site.reset()
        site.missing = {missing} if missing != "star_client" else {"star_client.wasm", "star_client_32.wasm"}
        driver.get(site.address)
        if words != "script":
            wait_for(lambda: "can't" in said(driver))
        time.sleep(0.3)
        where = driver.execute_script(HASTE)
        time.sleep(0.3)
        assert words in said(driver) and "sen" in said(driver) and where == site.address, (missing, said(driver), where)
        assert driver.execute_script("return document.getElementById('send').disabled") and not [
            one for one in site.sent() if one[0] == "POST" or "?" in one[1]
        ], site.sent()
    site.reset()
    site.slow = {"star_client.wasm": 2, "star_client_32.wasm": 2}
    driver.get(site.address)
    where = driver.execute_script(HASTE)
    assert where == site.address and not [one for one in site.sent() if one[0] == "POST"]
    wait_for(lambda: driver.execute_script("return document.documentElement.dataset.ready") == "yes")
    assert not [one for one in site.sent() if one[0] == "POST"]


def check_values(driver, site):
    """Values that can't be sent are named; others have the normal form, and a visitor reports once a week."""
    site.reset()
    assert try_reports.load(driver, site.address) == "yes"
    forget(driver)
    assert try_reports.load(driver, site.address) == "yes"
    for values, words in ((["x" * 65, "y"], "65 bytes"), (["é" * 33, "y"], "66 bytes"), (["DE", "\u3000 \t"], "city is blank")):
        driver.execute_script(SUBMIT, values)
        wait_for(lambda: words in said(driver))
        assert not site.kept and driver.execute_script("return document.activeElement.tagName") in ("INPUT", "BODY")
    driver.execute_script(SUBMIT, ["  Germany ", "e\u0301" * 32])
    wait_for(lambda: len(site.kept) == 1)
    wait_for(lambda: said(driver).startswith("Reported: the collector has the report."))
    assert frames.read(site.kept[0]).box == len("Germany")
    assert driver.execute_script("return document.getElementById('send').disabled")
    assert try_reports.load(driver, site.address) == "yes" and "have reported" in said(driver)
    driver.execute_script(SUBMIT, ["Germany", "Bonn"])
    time.sleep(0.3)
    assert len(site.kept) == 1
    driver.execute_script("localStorage.clear(); document.getElementById('never').click()")
    assert (
        try_reports.load(driver, site.address) == "yes"
        and "not to be asked" in said(driver)
        and driver.execute_script("return document.getElementById('send').disabled")
    )
    forget(driver)


def check_away(driver, site):
    """Reports wait while the collector is away and through foreign answers and a reload, and each arrives once; refused ones are named."""
    for answer in ((503, b"not kept: disk\n"), (302, b""), (404, b"no"), (200, b"<html>a login page</html>")):
        site.reset()
        site.answer = answer
        try_reports.load(driver, site.address + "?trial")
        visitors = [["Germany", "<b>Berlin %d</b>" % i] for i in range(40)]
        driver.execute_async_script(try_reports.REPORTS, visitors)
        assert "40 reports wait" in said(driver) and not site.kept, said(driver)
        driver.get(site.address + "?trial")
        site.answer = None
        try_reports.load(driver, site.address + "?trial")
        wait_for(lambda: len(site.kept) == 40)
        wait_for(lambda: "has 40 reports" in said(driver))
        assert set(site.bodies) == {40}, site.bodies  # a page that is left sends, too, so it may be more than one
    site.answer = (200, b"new=0 known=0 full=0 refused=1\n")
    driver.execute_script(SUBMIT, ["Germany", "Bonn"])
    wait_for(lambda: "refused 1 report" in said(driver))
    try_reports.load(driver, site.address)
    assert "have reported" not in said(driver) and not driver.execute_script("return document.getElementById('send').disabled")
    forget(driver)


def check_leave(driver, site):
    """A page that is left while the collector is slow sends once more what waits, and the next page learns that it is kept."""
    site.reset()
    try_reports.load(driver, site.address + "?trial")
    site.hang = 1
    driver.execute_script(SUBMIT, ["Germany", "Bonn"])
    wait_for(lambda: site.hang == 0)
    driver.get(site.address + "form.css")
    wait_for(lambda: len(site.kept) == 1)
    driver.get(site.address + "?trial")
    wait_for(lambda: site.bodies == [1, 1])
    forget(driver)


def check_storage(driver, site):
    """Where the storage is refused, the form sends from memory, and says that nothing is kept."""
    site.reset()
    site.answer = (503, b"not kept: disk\n")
    assert try_reports.load(driver, site.address + "?trial") == "yes"
    driver.execute_script(SUBMIT, ["Germany", "Bonn"])
    wait_for(lambda: "leave the page open" in said(driver))
    site.answer = None
    wait_for(lambda: len(site.kept) == 1)
    wait_for(lambda: "Reported" in said(driver))


def has_alert(driver):
    if isinstance(driver, firefox.Firefox):
        return driver.has_alert()
    try:
        driver.switch_to.alert
    except NoAlertPresentException:
        return False
    return True


def console_of(driver):
    """What the console has since the last call; of Chromium alone."""
    return driver.get_log("browser") if isinstance(driver, webdriver.Chrome) else []


LOOK = """const number = (what) => document.querySelectorAll(what).length;
const active = [...document.querySelectorAll('*')].filter((e) => [...e.attributes].some((a) => a.name.startsWith('on')));
return [document.title, number('script'), number('img,iframe,object,embed,base,form,link:not([rel=icon])'), active.length,
performance.getEntriesByType('resource').length,
getComputedStyle(document.querySelector('main')).display, document.documentElement.scrollWidth <= innerWidth]"""


def check_pages(driver, folder):
    """Each hard page: nothing ran, nothing was loaded, nothing is hidden, and it is no wider than the window."""
    console_of(driver)
    for name in sorted(os.listdir(folder)):
        start = time.monotonic()
        driver.get("file://" + os.path.join(folder, name))
        spent = time.monotonic() - start
        found = driver.execute_script(LOOK)
        assert not has_alert(driver) and found[0].startswith(("week 49", "Telemetry")) and found[1:] == [1, 0, 0, 0, "block", True], (name, found)
        print("     %-22s %.2f s" % (name, spent))
    console = console_of(driver)
    assert not console, console


SORT = """const first = () => document.querySelector('table.all tbody tr').cells[0].textContent, out = [first()];
const heads = document.querySelectorAll('table.all th button');
for (const i of [0, 0, 3, 3]) { heads[i].click(); out.push(first()); }
const box = document.querySelector('input'); box.value = 'country 03'; box.dispatchEvent(new Event('input'));
out.push([...document.querySelectorAll('table.all tbody tr')].filter((row) => !row.hidden).length); return out;"""


def check_table(driver, folder):
    driver.get("file://" + os.path.join(folder, "five_hundred.html"))
    found = driver.execute_script(SORT)
    assert found[0] == found[3] == "country 00" and found[1] == "country 00" and found[2].startswith("country 39") and found[5] > 5, found


def webkit(plain=True):
    """WebKitGTK's own browser under its driver, which takes no storage where `plain` is false."""
    options = webdriver.WebKitGTKOptions()
    options.binary_location = glob.glob("/usr/lib/*/webkit2gtk-4.*/MiniBrowser")[-1]
    options.add_argument("--automation")
    if not plain:
        options.add_argument("--enable-html5-local-storage=false")
    return webdriver.WebKitGTK(executable_path=shutil.which("WebKitWebDriver"), options=options)


def browsers():
    """Each browser by name, one that may not keep anything, and how to start it."""
    profiles = tempfile.mkdtemp()
    refuse = "Object.defineProperty(window, 'localStorage', { get() { throw new DOMException('no', 'SecurityError'); } });"

    def chromium(plain=True):
        driver = try_reports.browser(tempfile.mkdtemp(dir=profiles), "--allow-file-access-from-files")
        if not plain:
            driver.execute_cdp_cmd("Page.addScriptToEvaluateOnNewDocument", {"source": refuse})
        return driver

    yield "Chromium", chromium
    yield "Firefox", lambda plain=True: firefox.Firefox() if plain else firefox.Firefox(**{"dom.storage.enabled": False})
    if shutil.which("WebKitWebDriver") and os.environ.get("DISPLAY"):
        yield "WebKitGTK", webkit
    else:
        print("no WebKitGTK: it needs WebKitWebDriver and a display")
    shutil.rmtree(profiles, ignore_errors=True)


def run(name, start, site, pages, shots):
    for plain, checks in ((True, [check_not_ready, check_values, check_away, check_leave]), (False, [check_storage])):
        driver = start(plain)
        try:
            for check in checks:
                began = time.monotonic()
                check(driver, site)
                print("ok   %s %s %.1f s" % (name, check.__name__, time.monotonic() - began), flush=True)
            if plain:
                driver.set_window_size(1200, 1400)
                check_pages(driver, pages)
                check_table(driver, pages)
                driver.set_window_size(500, 900)
                check_pages(driver, pages)
                print("ok   %s: %d pages, wide and narrow" % (name, len(os.listdir(pages))), flush=True)
            if plain and shots:
                driver.get("file://" + os.path.join(pages, "hostile.html"))
                driver.save_screenshot(os.path.join(shots, name + ".png"))
        finally:
            driver.quit()


def main(shots=None):
    with tempfile.TemporaryDirectory() as folder, tempfile.TemporaryDirectory() as pages:
        form_folder(folder)
        for name in hard_texts.CASES:
            with open(os.path.join(pages, name + ".html"), "w", encoding="utf-8") as file:
                file.write(hard_texts.page_of(name))
        with open(os.path.join(pages, "index.html"), "w", encoding="utf-8") as file:
            file.write(page.index_page(hard_texts.weeks()))
        site = Site(folder)
        for name, start in browsers():
            run(name, start, site, pages, shots)
        site.shutdown()


if __name__ == "__main__":
    main(*sys.argv[1:])
