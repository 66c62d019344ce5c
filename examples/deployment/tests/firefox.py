"""Firefox without geckodriver, by its own protocol (Marionette): as much of Selenium's driver as the tests use."""
import json
import os
import shutil
import socket
import subprocess
import tempfile
import time

PREFERENCES = {
    "marionette.port": 0,
    "browser.shell.checkDefaultBrowser": False,
    "datareporting.policy.dataSubmissionEnabled": False,
    "app.update.enabled": False,
    "toolkit.telemetry.enabled": False,
    "network.captive-portal-service.enabled": False,
    "browser.startup.page": 0,
    "network.connectivity-service.enabled": False,
}


def free_port():
    with socket.create_server(("127.0.0.1", 0)) as found:
        return found.getsockname()[1]


class Firefox:
    def __init__(self, dark=False, **preferences):
        self.profile, port = tempfile.mkdtemp(), free_port()
        with open(os.path.join(self.profile, "user.js"), "w") as file:
            for name, value in {**PREFERENCES, "marionette.port": port, "ui.systemUsesDarkTheme": int(dark), **preferences}.items():
                file.write("user_pref(%s, %s);\n" % (json.dumps(name), json.dumps(value)))
        surroundings = dict(os.environ, HOME=self.profile, MOZ_HEADLESS="1", MOZ_CRASHREPORTER_DISABLE="1")
        self._child = subprocess.Popen(
            ["firefox-esr", "--marionette", "--no-remote", "--profile", self.profile],
            env=surroundings,
            stdout=subprocess.DEVNULL,
            stderr=subprocess.DEVNULL,
        )
        self._id, self._wire = 0, self._connected(port)
        self._message()
        self.capabilities = self._ask("WebDriver:NewSession", capabilities={"alwaysMatch": {"unhandledPromptBehavior": "ignore"}})["capabilities"]
        self._ask("WebDriver:SetTimeouts", script=300_000, pageLoad=60_000)

    def _connected(self, port):
        for _ in range(600):
            try:
                return socket.create_connection(("127.0.0.1", port), timeout=310)
            except OSError:
                time.sleep(0.1)
        raise SystemExit("Firefox doesn't answer")

    def _message(self):
        length = b""
        while not length.endswith(b":"):
            length += self._wire.recv(1)
        text = b""
        while len(text) < int(length[:-1]):
            text += self._wire.recv(65_536)
        return json.loads(text)

    def _ask(self, name, **words):
        self._id += 1
        text = json.dumps([0, self._id, name, words]).encode()
        self._wire.sendall(b"%d:" % len(text) + text)
        _, _, fault, result = self._message()
        if fault:
            raise AssertionError("%s: %s" % (name, fault["message"]))
        return result

    def get(self, address):
        self._ask("WebDriver:Navigate", url=address)

    def execute_script(self, script, *words):
        return self._ask("WebDriver:ExecuteScript", script=script, args=list(words), sandbox=None)["value"]

    def execute_async_script(self, script, *words):
        return self._ask("WebDriver:ExecuteAsyncScript", script=script, args=list(words), sandbox=None)["value"]

    def has_alert(self):
        try:
            self._ask("WebDriver:GetAlertText")
        except AssertionError:
            return False
        return True

    def set_window_size(self, width, height):
        self._ask("WebDriver:SetWindowRect", width=width, height=height)

    def save_screenshot(self, path):
        import base64

        with open(path, "wb") as file:
            file.write(base64.b64decode(self._ask("WebDriver:TakeScreenshot", full=False)["value"]))

    def quit(self):
        try:
            self._ask("Marionette:Quit", flags=["eForceQuit"])
        except (AssertionError, OSError, ValueError):
            pass
        self._wire.close()
        try:
            self._child.wait(timeout=20)
        except subprocess.TimeoutExpired:
            self._child.kill()
            self._child.wait()
        shutil.rmtree(self.profile, ignore_errors=True)
