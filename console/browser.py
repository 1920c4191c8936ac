"""Chromium without a screen, by its own driver: the part of WebDriver that the tests of the console
need, with the standard library alone."""

import base64
import http.client
import json
import os
import pathlib
import shutil
import socket
import subprocess
import time

PATIENCE = 20
ELEMENT = "element-6066-11e4-a52e-4f735466cecf"
KEYS = {"Tab": "\ue004", "Enter": "\ue007", "Shift": "\ue008", "Left": "\ue012", "Space": " "}
ARGUMENTS = ("--headless=new", "--no-sandbox", "--disable-gpu", "--disable-dev-shm-usage",
             "--hide-scrollbars", "--force-color-profile=srgb", "--window-size=1040,740")


class Failed(Exception):
    """Something that should be on the page is not, or the driver has refused a command."""


def free_port():
    with socket.socket() as probe:
        probe.bind(("127.0.0.1", 0))
        return probe.getsockname()[1]


def program(*names):
    found = next(filter(None, map(shutil.which, names)), None)
    if not found:
        raise Failed(f"needs {names[0]}")
    return found


class Browser:
    """One page in a browser of its own."""

    def __init__(self, log):
        self.port, self.session, self.patience = free_port(), None, PATIENCE
        self.driver = subprocess.Popen(
            [program("chromedriver"), f"--port={self.port}"], stdout=log, stderr=log,
            env={**os.environ, "LANG": "C.UTF-8"})
        try:
            self.session = self._start()
        except BaseException:
            self.driver.kill()
            raise

    def __enter__(self):
        return self

    def __exit__(self, *_):
        try:
            self._call("DELETE", f"/session/{self.session}")
        finally:
            self.driver.terminate()
            self.driver.wait()

    def _start(self):
        options = {"binary": program("chromium", "chromium-browser", "google-chrome"),
                   "args": list(ARGUMENTS)}
        wanted = {"browserName": "chrome", "goog:chromeOptions": options,
                  "goog:loggingPrefs": {"browser": "ALL", "performance": "ALL"}}
        for _ in range(100):
            try:
                told = self._call("POST", "/session", {"capabilities": {"alwaysMatch": wanted}})
                return told["sessionId"]
            except ConnectionRefusedError:
                time.sleep(0.1)
        raise Failed("chromedriver does not listen")

    def _call(self, method, path, body=None):
        connection = http.client.HTTPConnection("127.0.0.1", self.port, timeout=120)
        text = None if body is None else json.dumps(body)
        try:
            connection.request(method, path, text, {"content-type": "application/json"})
            reply = connection.getresponse()
            value = json.loads(reply.read())["value"]
        finally:
            connection.close()
        if reply.status != 200:
            raise Failed(f"{path}: {value['error']}: {value['message'].splitlines()[0]}")
        return value

    def command(self, path, **body):
        return self._call("POST", f"/session/{self.session}/{path}", body)

    def go(self, url):
        self.command("url", url=url)

    def run(self, script, *arguments):
        """What a function body answers in the page."""
        return self.command("execute/sync", script=script, args=list(arguments))

    def tools(self, name, **parameters):
        """A command of the developer tools."""
        return self.command("goog/cdp/execute", cmd=name, params=parameters)

    def wait(self, script, *arguments, why):
        """What the body answers, once it is neither null nor false."""
        end = time.monotonic() + self.patience
        while time.monotonic() < end:
            found = self.run(script, *arguments)
            if found not in (None, False):
                return found
            time.sleep(0.05)
        said = self.run("return document.body.innerText")
        raise Failed(f"{why}: waited {self.patience} s. The page says:\n{said}")

    def _element(self, css):
        found = self.command("element", using="css selector", value=css)
        return f"element/{found[ELEMENT]}"

    def click(self, css):
        self.command(f"{self._element(css)}/click")

    def fill(self, css, text):
        element = self._element(css)
        self.command(f"{element}/clear")
        self.command(f"{element}/value", text=text)

    def press(self, *keys, held=None):
        """Strokes of the keyboard, to whatever has the focus: names of KEYS, or texts."""
        strokes = [KEYS.get(key) or key for key in keys]
        strokes = [letter for text in strokes for letter in text]
        steps = [{"type": kind, "value": letter} for letter in strokes
                 for kind in ("keyDown", "keyUp")]
        if held:
            steps = [{"type": "keyDown", "value": KEYS[held]}, *steps,
                     {"type": "keyUp", "value": KEYS[held]}]
        self.command("actions", actions=[{"type": "key", "id": "keyboard", "actions": steps}])

    def picture(self, path):
        taken = self._call("GET", f"/session/{self.session}/screenshot")
        pathlib.Path(path).write_bytes(base64.b64decode(taken))

    def log(self, kind="browser"):
        """What was logged since it was last asked."""
        return self.command("se/log", type=kind)

    def requests(self):
        """The requests that the page has sent, since it was last asked."""
        told = (json.loads(entry["message"])["message"] for entry in self.log("performance"))
        return [each["params"]["request"] for each in told
                if each["method"] == "Network.requestWillBeSent"]
