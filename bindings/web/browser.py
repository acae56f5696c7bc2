"""Chromium and Firefox, told what to do by the commands of WebDriver, with Python's standard library alone."""
import base64
import json
import os
import shutil
import socket
import subprocess
import tempfile
import time
import urllib.error
import urllib.request
from pathlib import Path

ELEMENT = "element-6066-11e4-a52e-4f735466cecf"
KEYS = {
    "Tab": "\ue004", "Enter": "\ue007", "Shift": "\ue008", "Escape": "\ue00c", "PageDown": "\ue00f", "End": "\ue010",
    "Home": "\ue011", "ArrowLeft": "\ue012", "ArrowUp": "\ue013", "ArrowRight": "\ue014", "ArrowDown": "\ue015",
}
TIMEOUTS = {"script": 20000, "pageLoad": 20000}
QUIET = {"stdout": subprocess.DEVNULL, "stderr": subprocess.DEVNULL}


def free_port():
    with socket.socket() as free:
        free.bind(("127.0.0.1", 0))
        return free.getsockname()[1]


def retry(call, name, tries=100):
    """What a call returns when a program has started."""
    for _ in range(tries):
        try:
            return call()
        except OSError:
            time.sleep(0.1)
    raise OSError(f"{name} does not start")


class Browser:
    """One window, in which pages are opened; what a page saves is in a folder. A kind of it says how it is told a command of
    WebDriver, by `send`, and by `prefer` the colours that its reader prefers."""

    TOOLS = ()

    @classmethod
    def missing(cls):
        """The programs that are not here, as text."""
        return " ".join(tool for tool in cls.TOOLS if not shutil.which(tool))

    def send(self, method, path, words=None):
        raise NotImplementedError

    def post(self, path, words):
        return self.send("POST", path, words)

    def go(self, address):
        self.post("url", {"url": address})

    def run(self, script, *words):
        """What a function body returns in the page."""
        return self.post("execute/sync", {"script": script, "args": words})

    def run_later(self, script, *words):
        """What a function body gives to its last argument, a function."""
        return self.post("execute/async", {"script": script, "args": words})

    def wait(self, script, *words, seconds=30):
        """Waits until a function body returns something."""
        end = time.monotonic() + seconds
        while True:
            found = self.run(script, *words)
            if found:
                return found
            if time.monotonic() > end:
                raise AssertionError(f"not within {seconds} s: {script[:200]} {words}")
            time.sleep(0.03)

    def find(self, selector):
        return self.post("element", {"using": "css selector", "value": selector})

    def upload(self, selector, *paths):
        found = self.find(selector)[ELEMENT]
        self.post(f"element/{found}/value", {"text": "\n".join(map(str, paths))})

    def click(self, selector):
        self.post(f"element/{self.find(selector)[ELEMENT]}/click", {})

    def text(self, selector):
        return self.run("return document.querySelector(arguments[0]).textContent", selector)

    def press(self, *keys, shift=False):
        """Presses keys, by their names or letters, one after another."""
        moves = [{"type": "keyDown", "value": KEYS["Shift"]}] if shift else []
        for key in keys:
            value = KEYS.get(key, key)
            moves += [{"type": "keyDown", "value": value}, {"type": "keyUp", "value": value}]
        moves += [{"type": "keyUp", "value": KEYS["Shift"]}] if shift else []
        self.post("actions", {"actions": [{"type": "key", "id": "keys", "actions": moves}]})

    def place(self, selector, at):
        """A place of an element in the window."""
        box = self.run("return document.querySelector(arguments[0]).getBoundingClientRect()", selector)
        return {"x": int(box["left"] + at[0]), "y": int(box["top"] + at[1])}

    def drag(self, selector, start, end):
        """Drags from one place of an element to another one, both from its upper left corner."""
        moves = [{"type": "pointerMove", "duration": 30, **self.place(selector, at)} for at in (start, end)]
        actions = [moves[0], {"type": "pointerDown", "button": 0}, moves[1], {"type": "pointerUp", "button": 0}]
        self.post("actions", {"actions": [{"type": "pointer", "id": "mouse", "actions": actions}]})

    def wheel(self, selector, at, amount):
        act = {"type": "scroll", **self.place(selector, at), "deltaX": 0, "deltaY": amount, "duration": 0}
        self.post("actions", {"actions": [{"type": "wheel", "id": "wheel", "actions": [act]}]})

    def picture(self):
        """The window as a PNG file."""
        return base64.b64decode(self.send("GET", "screenshot"))


class Chromium(Browser):
    """Chromium, by its driver's HTTP."""

    NAME = "Chromium"
    TOOLS = ("chromium", "chromedriver")

    def __init__(self, saved, size=(1280, 800)):
        self.room = tempfile.TemporaryDirectory()
        self.port = free_port()
        self.driver = subprocess.Popen(["chromedriver", f"--port={self.port}"], **QUIET)
        words = ["--headless=new", "--no-sandbox", "--disable-gpu", "--disable-dev-shm-usage", "--hide-scrollbars",
                 "--lang=en", "--force-device-scale-factor=1", f"--window-size={size[0]},{size[1]}",
                 f"--user-data-dir={self.room.name}"]
        options = {"binary": shutil.which("chromium"), "args": words}
        retry(lambda: urllib.request.urlopen(f"http://127.0.0.1:{self.port}/status", timeout=2).read(), "chromedriver")
        self.session = ""
        made = self.post("session", {"capabilities": {"alwaysMatch": {
            "browserName": "chrome", "goog:chromeOptions": options, "timeouts": TIMEOUTS}}})
        self.session = f"session/{made['sessionId']}/"
        self.command("Browser.setDownloadBehavior", {"behavior": "allow", "downloadPath": str(saved)})

    def send(self, method, path, words=None):
        data = None if words is None else json.dumps(words).encode()
        place = f"http://127.0.0.1:{self.port}/{self.session}{path}".rstrip("/")
        request = urllib.request.Request(place, data, {"Content-Type": "application/json"}, method=method)
        try:
            with urllib.request.urlopen(request, timeout=180) as reply:
                return json.load(reply)["value"]
        except urllib.error.HTTPError as error:
            value = json.load(error)["value"]
            raise AssertionError(f"{value['error']}: {value['message'].splitlines()[0]}") from None

    def command(self, name, words):
        """A command of Chromium's own protocol."""
        self.post("goog/cdp/execute", {"cmd": name, "params": words})

    def prefer(self, scheme):
        features = [{"name": "prefers-color-scheme", "value": scheme}] if scheme else []
        self.command("Emulation.setEmulatedMedia", {"features": features})

    def close(self):
        try:
            self.send("DELETE", "")
        finally:
            self.driver.terminate()
            self.driver.wait(10)
            self.room.cleanup()


class Firefox(Browser):
    """Firefox, by Marionette, which its own driver would speak with it: messages of JSON after their lengths."""

    NAME = "Firefox"
    TOOLS = ("firefox-esr",)
    COMMANDS = {
        "url": "Navigate", "execute/sync": "ExecuteScript", "execute/async": "ExecuteAsyncScript",
        "element": "FindElement", "actions": "PerformActions", "screenshot": "TakeScreenshot", "value": "ElementSendKeys",
        "click": "ElementClick",
    }
    PREFERENCES = {
        "browser.download.folderList": 2, "browser.download.alwaysOpenPanel": False,
        "browser.download.always_ask_before_handling_new_types": False, "browser.shell.checkDefaultBrowser": False,
        "browser.tabs.warnOnClose": False, "datareporting.policy.dataSubmissionEnabled": False, "intl.accept_languages": "en",
        "layout.css.devPixelsPerPx": "1.0", "toolkit.telemetry.reportingpolicy.firstRun": False,
    }

    def __init__(self, saved, size=(1280, 800)):
        self.room = tempfile.TemporaryDirectory()
        port = free_port()
        wanted = {**self.PREFERENCES, "marionette.port": port, "browser.download.dir": str(saved)}
        lines = [f"user_pref({json.dumps(name)}, {json.dumps(value)});\n" for name, value in wanted.items()]
        Path(self.room.name, "user.js").write_text("".join(lines))
        words = ["firefox-esr", "--headless", "--marionette", "--remote-allow-system-access", "--no-remote", "--profile",
                 self.room.name]
        self.driver = subprocess.Popen(words, env={**os.environ, "HOME": self.room.name}, **QUIET)
        self.link = retry(lambda: socket.create_connection(("127.0.0.1", port), 2), "firefox-esr", 900)
        self.link.settimeout(180)
        self.count = 0
        self.receive()
        self.call("NewSession", {"strictFileInteractability": False, "timeouts": TIMEOUTS})
        self.call("SetWindowRect", {"width": size[0], "height": size[1]})
        inner = self.run("return [innerWidth, innerHeight]")
        self.call("SetWindowRect", {"width": 2 * size[0] - inner[0], "height": 2 * size[1] - inner[1]})

    def receive(self):
        """The next message."""
        size = b""
        while not size.endswith(b":"):
            size += self.some(1)
        data = b""
        while len(data) < int(size[:-1]):
            data += self.some(1 << 16)
        return json.loads(data)

    def some(self, count):
        """The next bytes, at most so many."""
        data = self.link.recv(count)
        if not data:
            raise AssertionError("gone: Firefox has ended")
        return data

    def call(self, name, words, part="WebDriver"):
        self.count += 1
        message = json.dumps([0, self.count, f"{part}:{name}", words]).encode()
        self.link.sendall(b"%d:%b" % (len(message), message))
        _, _, error, found = self.receive()
        if error:
            raise AssertionError(f"{error['error']}: {error['message'].splitlines()[0]}")
        return found["value"] if isinstance(found, dict) and "value" in found else found

    def send(self, method, path, words=None):
        parts = path.split("/")
        if len(parts) == 3 and parts[0] == "element":
            return self.call(self.COMMANDS[parts[2]], {"id": parts[1], **words})
        return self.call(self.COMMANDS[path], words or {"full": False})

    def prefer(self, scheme):
        number = {"dark": 0, "light": 1}.get(scheme, 2)
        self.call("SetContext", {"value": "chrome"}, "Marionette")
        self.run("Services.prefs.setIntPref('layout.css.prefers-color-scheme.content-override', arguments[0])", number)
        self.call("SetContext", {"value": "content"}, "Marionette")

    def close(self):
        try:
            self.link.close()
        finally:
            self.driver.terminate()
            self.driver.wait(20)
            self.room.cleanup()


BROWSERS = (Chromium, Firefox)
