"""The shipped nginx files before a collector, on loopback: /usr/bin/python3 door_test.py [--minutes N]. It needs nginx, gunicorn and openssl.

Only names, addresses and paths of the files are changed. Slow clients, many requests of an address, another origin, networks of IPv6, the login, and
a flood of the smallest reports by one address for N minutes (10 unless said otherwise), after which the epoch is at most 5 in 100 full. No file has
an address.
"""
import base64
import contextlib
import http.client
import os
import re
import shutil
import socket
import ssl
import subprocess
import sys
import tempfile
import threading
import time
import unittest

import support
import store

try:
    from selenium import webdriver
    from selenium.webdriver.chrome.service import Service
except ImportError:
    webdriver = None

PORT, COLLECTOR_PORT, PLAIN_PORT, PAGES_PORT = 18_443, 18_095, 18_444, 18_445
EPOCH = support.epoch_now()
MAIN = """daemon off; worker_processes 2; worker_rlimit_nofile 20000; pid {0}/pid; error_log {0}/main.log warn;
events {{ worker_connections 8192; }}
http {{ client_body_temp_path {0}/body; proxy_temp_path {0}/proxy; fastcgi_temp_path {0}/f; uwsgi_temp_path {0}/u; scgi_temp_path {0}/s;
{1}
server {{ listen 127.0.0.1:{2}; access_log off; set_real_ip_from 127.0.0.1; real_ip_header X-Test-Address;
          location / {{ return 200 $star_client; }} }}
}}"""
TYPES = {".html": "text/html", ".mjs": "text/javascript", ".css": "text/css", ".wasm": "application/wasm", ".json": "application/json"}
MINUTES = 10


def adapted(name, port, folder, *changes):
    """A shipped file with addresses and paths of this test; each change has to be one of its text."""
    with open(os.path.join(support.DEPLOYMENT, "units", name), encoding="utf-8") as file:
        text = file.read()
    live = "/etc/letsencrypt/live/telemetry.example/"
    for old, new in (("listen 443 ssl http2;", f"listen 127.0.0.1:{port} ssl http2;"), ("listen [::]:443 ssl http2;", ""),
                     (live + "fullchain.pem", folder + "/cert.pem"), (live + "privkey.pem", folder + "/key.pem"), *changes):
        assert text.count(old) == 1, old
        text = text.replace(old, new)
    return text


def configured(folder, web, pages):
    """The whole configuration: the door, and the pages behind a login."""
    door = adapted("nginx.conf", PORT, folder, ("server_name telemetry.example;", "server_name localhost;"), ("/usr/share/star/web", web),
                   ("server 127.0.0.1:8080;", f"server 127.0.0.1:{COLLECTOR_PORT};"), ("/var/log/nginx/star.log", folder + "/star.log"))
    login = adapted("pages.conf", PAGES_PORT, folder, ("/var/lib/star/pages", pages),
                    ("auth_basic_user_file /etc/nginx/star.users", "auth_basic_user_file " + folder + "/users"))
    return MAIN.format(folder, door + login, PLAIN_PORT)


class Door(unittest.TestCase):
    @classmethod
    def setUpClass(cls):
        cls.work = tempfile.TemporaryDirectory()
        cls.addClassCleanup(cls.work.cleanup)
        cls.folder, cls.web = os.path.join(cls.work.name, "nginx"), os.path.join(cls.work.name, "web")
        os.makedirs(cls.folder)
        os.makedirs(cls.web)
        os.chmod(cls.work.name, 0o755)
        for folder in (os.path.join(support.DEPLOYMENT, "web"), os.path.join(support.ROOT, "bindings/web")):
            for name in os.listdir(folder):
                if name.endswith(tuple(TYPES)) and not os.path.exists(os.path.join(cls.web, name)):
                    shutil.copy(os.path.join(folder, name), cls.web)
        shutil.copy(os.path.join(support.DEPLOYMENT, "configuration.json"), cls.web)
        subprocess.run(["openssl", "req", "-x509", "-newkey", "rsa:2048", "-nodes", "-keyout", cls.folder + "/key.pem",
                        "-out", cls.folder + "/cert.pem", "-days", "2", "-subj", "/CN=localhost"], check=True, stderr=subprocess.DEVNULL)
        secret = subprocess.run(["openssl", "passwd", "-apr1", "secret"], check=True, stdout=subprocess.PIPE).stdout.decode()
        cls.collector = support.Collector(COLLECTOR_PORT, threads=32).start()
        cls.addClassCleanup(cls.collector.__exit__)
        os.chmod(cls.collector.work, 0o755)
        for name, text in (("conf", configured(cls.folder, cls.web, cls.collector.pages)), ("users", "reader:" + secret)):
            with open(os.path.join(cls.folder, name), "w", encoding="utf-8") as file:
                file.write(text)
        cls.nginx = subprocess.Popen(["nginx", "-p", cls.folder, "-c", cls.folder + "/conf"])
        cls.addClassCleanup(cls.end)
        cls.context = ssl._create_unverified_context()
        cls.data = support.reports(4_000)
        for _ in range(100):
            with contextlib.suppress(OSError):
                socket.create_connection(("127.0.0.1", PORT)).close()
                return
            time.sleep(.1)

    @classmethod
    def end(cls):
        """Ends the nginx that was started here."""
        cls.nginx.terminate()
        cls.nginx.wait()

    def tls(self, source):
        """A connection from one of the loopback addresses."""
        plain = socket.create_connection(("127.0.0.1", PORT), source_address=(source, 0), timeout=30)
        return self.context.wrap_socket(plain, server_hostname="localhost")

    def ask(self, source, method="POST", body=b"", path="/v1/reports", headers=()):
        """Status, text and headers of the answer to a request from this address."""
        connection = http.client.HTTPSConnection("127.0.0.1", PORT, context=self.context, timeout=30, source_address=(source, 0))
        with contextlib.closing(connection):
            connection.request(method, path, body, dict(headers))
            answer = connection.getresponse()
            return answer.status, answer.read().decode("utf-8", "replace"), dict(answer.getheaders())

    def expect_quick(self, source, at):
        """Another client's report is kept within a second."""
        start = time.monotonic()
        self.assertEqual(self.ask(source, body=support.body_of(self.data[at:at + 1]))[:2], (200, "new=1 known=0 full=0 refused=0\n"))
        self.assertLess(time.monotonic() - start, 1)

    def test_slow_bodies(self):
        slow = []
        for at in range(60):
            connection = self.tls(f"127.0.1.{at + 1}")
            connection.sendall(b"POST /v1/reports HTTP/1.1\r\nHost: localhost\r\nContent-Length: 1000\r\n\r\nab")
            slow.append(connection)
        time.sleep(.5)
        self.expect_quick("127.0.2.1", 0)
        start = time.monotonic()
        with contextlib.suppress(OSError):
            slow[0].settimeout(20)
            slow[0].recv(100)
        self.assertLess(time.monotonic() - start, 12)
        for connection in slow:
            connection.close()

    def test_slow_headers(self):
        """Two thousand connections that never finish their headers, from one address."""
        slow = []
        for _ in range(2_000):
            connection = socket.create_connection(("127.0.0.1", PORT), source_address=("127.0.1.200", 0), timeout=30)
            slow.append(connection)
        self.expect_quick("127.0.2.2", 1)
        for connection in slow[:1_000]:
            with contextlib.suppress(OSError):
                connection.sendall(b"\x16\x03\x01")
        self.expect_quick("127.0.2.3", 2)
        for connection in slow:
            connection.close()

    def test_one_address(self):
        got, later = {}, {}
        for at in range(30):
            status, _, headers = self.ask("127.0.0.77", body=support.body_of(self.data[100 + at:101 + at]))
            got[status] = got.get(status, 0) + 1
            if status == 429:
                later = headers
        self.assertEqual(set(got), {200, 429})
        self.assertTrue(11 <= got[200] <= 14, got)
        self.assertEqual((later["Retry-After"], later["Access-Control-Expose-Headers"]), ("60", "Retry-After"))

    def test_another_origin(self):
        for number, (origin, allowed) in enumerate((("https://telemetry.example", True), ("https://else.example", False))):
            status, _, headers = self.ask(f"127.0.2.{10 + number}", body=b"", headers={"Origin": origin})
            self.assertEqual((status, headers.get("Access-Control-Allow-Origin")), (200, origin if allowed else None))
            status, _, headers = self.ask(f"127.0.2.{10 + number}", "OPTIONS", headers={"Origin": origin})
            self.assertEqual((status, headers.get("Access-Control-Allow-Origin")), (204, origin if allowed else None))
            self.assertEqual(headers["Access-Control-Expose-Headers"], "Retry-After")

    def test_what_is_not_passed_on(self):
        self.assertEqual(self.ask("127.0.2.20", "GET", path="/metrics")[0], 404)
        self.assertEqual(self.ask("127.0.2.20", "GET", path="/v1/reports/../../metrics")[0], 404)
        self.assertEqual(self.ask("127.0.2.20", "DELETE", path="/index.html")[0], 403)
        self.assertEqual(self.ask("127.0.2.21", body=bytes(400_000))[0], 413)
        self.assertEqual(self.ask("127.0.2.22", "GET")[0], 405)
        status, text, headers = self.ask("127.0.2.23", "GET", path="/")
        self.assertEqual((status, headers["Cache-Control"]), (200, "no-cache"))

    def test_files_of_the_page(self):
        """Each with its type, without which a browser runs no module, and asked for anew each time."""
        names = os.listdir(self.web)
        self.assertLessEqual({"index.html", "page.mjs", "outbox.mjs", "star_client.mjs", "star_client.wasm", "configuration.json"}, set(names))
        for number, name in enumerate(names):
            status, _, headers = self.ask(f"127.0.3.{number + 1}", "GET", path="/" + name)
            self.assertEqual((status, headers["Content-Type"], headers["Cache-Control"], headers["X-Content-Type-Options"]),
                             (200, TYPES[os.path.splitext(name)[1]], "no-cache", "nosniff"), name)

    @unittest.skipUnless(webdriver and shutil.which("chromium"), "no Chromium, or no python3-selenium")
    def test_a_browser(self):
        """Chromium loads the page through the shipped file, over TLS, and its report is kept."""
        options = webdriver.ChromeOptions()
        for word in ("--headless", "--no-sandbox", "--disable-gpu", "--ignore-certificate-errors", f"--user-data-dir={self.work.name}/profile"):
            options.add_argument(word)
        options.binary_location = "/usr/bin/chromium"
        driver = webdriver.Chrome(service=Service("/usr/bin/chromedriver"), options=options)
        try:
            driver.get(f"https://localhost:{PORT}/")
            self.until(lambda: driver.execute_script("return document.querySelector('form button')?.disabled") is False)
            before = int(self.collector.metric('star_reports_total{outcome="new"}'))
            for entry in driver.find_elements("css selector", "form input"):
                entry.send_keys("Webland")
            driver.find_element("css selector", "form button").click()
            self.until(lambda: int(self.collector.metric('star_reports_total{outcome="new"}')) == before + 1)
        finally:
            driver.quit()

    def until(self, holds):
        """Waits for a minute at most."""
        end = time.monotonic() + 60
        while not holds():
            self.assertLess(time.monotonic(), end, "it doesn't come about")
            time.sleep(.2)

    def test_networks_of_ipv6(self):
        for address, wanted in (("192.0.2.7", "192.0.2.7"), ("2001:db8:1:2:3:4:5:6", "six 2001:db8:1:2"), ("2001:db8:1:2::9", "six 2001:db8:1:2"),
                                ("2001:db8:1:2:ffff::", "six 2001:db8:1:2"), ("2001:db8:1::9", "six 2001:db8:1"), ("2001:db8::9", "six 2001:db8"),
                                ("fe80::1", "six fe80"), ("::1", "six ")):
            connection = http.client.HTTPConnection("127.0.0.1", PLAIN_PORT, timeout=10)
            connection.request("GET", "/", headers={"X-Test-Address": address})
            self.assertEqual(connection.getresponse().read().decode(), wanted, address)
            connection.close()

    def test_pages_behind_a_login(self):
        with open(os.path.join(self.collector.pages, "index.html"), "w", encoding="ascii") as file:
            file.write("<!doctype html><title>weeks</title>")
        for user, path, method, wanted in ((None, "/", "GET", 401), ("reader:wrong", "/", "GET", 401), ("reader:secret", "/", "GET", 200),
                                           ("reader:secret", "/.hidden", "GET", 403), ("reader:secret", "/", "POST", 403)):
            connection = http.client.HTTPSConnection("127.0.0.1", PAGES_PORT, context=self.context, timeout=30)
            secret = {"Authorization": "Basic " + base64.b64encode(user.encode()).decode()} if user else {}
            with contextlib.closing(connection):
                connection.request(method, path, headers=secret)
                answer = connection.getresponse()
                self.assertEqual((answer.status, b"weeks" in answer.read()), (wanted, wanted == 200), (user, path, method))
            if wanted == 200:
                self.assertEqual(answer.getheader("X-Frame-Options"), "DENY")
                self.assertIn("frame-ancestors 'none'", answer.getheader("Content-Security-Policy"))

    def test_a_collector_that_is_away(self):
        """502, and the same bytes are kept once it is back."""
        self.collector.stop()
        self.assertEqual(self.ask("127.0.2.50", body=support.body_of(self.data[60:61]))[0], 502)
        self.collector.start()
        self.expect_quick("127.0.2.50", 60)

    def test_no_header_of_a_client_goes_on(self):
        """A server in the collector's place sees the length and the body, and nothing that names a client."""
        self.collector.stop()
        seen = []

        def serve(listening):
            connection, _ = listening.accept()
            while not seen or not seen[0].endswith(b"body"):
                seen[:] = [b"".join(seen) + connection.recv(10_000)]
            connection.sendall(b"HTTP/1.1 200 OK\r\nContent-Length: 2\r\nConnection: close\r\n\r\nok")
            connection.close()
        with socket.create_server(("127.0.0.1", COLLECTOR_PORT)) as listening:
            server = threading.Thread(target=serve, args=(listening,))
            server.start()
            named = {"Cookie": "a=b", "User-Agent": "me", "Referer": "https://x/", "Origin": "https://x", "X-Forwarded-For": "127.0.2.51"}
            self.assertEqual(self.ask("127.0.2.51", body=b"body", headers=named)[:2], (200, "ok"))
            server.join(timeout=10)
        self.collector.start()
        head = seen[0].partition(b"\r\n\r\n")[0].decode().splitlines()
        self.assertEqual(head[0], "POST /v1/reports HTTP/1.1")
        self.assertEqual(sorted(head[1:]), ["Content-Length: 4", "Host: star"])

    def test_a_flood(self):
        """One address sends bodies of a hundred of the smallest reports, as often as it is answered."""
        client = support.Client(support.LIBRARY)
        end, sent, got = time.monotonic() + 60 * MINUTES, 0, {}
        while time.monotonic() < end:
            some = support.frames.records_of(bytes(client.records([["a", "b"]] * 100, support.THRESHOLDS, EPOCH)))
            status = self.ask("127.0.0.99", body=support.body_of(some))[0]
            got[status], sent = got.get(status, 0) + 1, sent + 100
            time.sleep(.2)
        kept = store.count(self.collector.store, EPOCH)
        self.assertLessEqual(kept, .05 * 131_072)
        self.expect_quick("127.0.2.40", 50)
        print(f"flood: {MINUTES} minutes, answers {got}, {sent} reports sent, {kept} kept, {kept / 1310.72:.1f} in 100 of the epoch")

    def test_z_no_file_has_an_address(self):
        """After all the others: no file of nginx, store or log names a client, and the access log has hours and statuses alone."""
        own = {self.folder + "/conf"}
        for top in (self.folder, self.collector.work):
            for folder, _, names in os.walk(top):
                for path in {os.path.join(folder, name) for name in names} - own:
                    with open(path, "rb") as file:
                        text = file.read().replace(b"http://127.0.0.1:%d" % COLLECTOR_PORT, b"")
                        self.assertIsNone(re.search(rb"127\.0\.[0123]\.\d+", text), path)
        with open(self.folder + "/star.log", encoding="ascii") as file:
            lines = set(file.read().splitlines())
        self.assertTrue(lines)
        for line in lines:
            self.assertRegex(line, r"^\d{4}-\d\d-\d\dT\d\d \d{3}$")


if __name__ == "__main__":
    if "--minutes" in sys.argv:
        MINUTES = float(sys.argv.pop(sys.argv.index("--minutes") + 1))
        sys.argv.remove("--minutes")
    unittest.main()
