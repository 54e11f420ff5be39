"""Browsers without a screen, by their own protocols: Chromium by chromedriver, Firefox by Marionette, which is in it.
Both are those of Debian: apt-get install chromium chromium-driver firefox-esr."""

import base64
import json
import os
import shutil
import socket
import subprocess
import tempfile
import time
import urllib.request

START_SECONDS = 60
TIMEOUTS = {"script": 600000, "pageLoad": 300000}  # milliseconds
# names of files go to a driver as UTF-8, whatever the locale of the tests
UTF_8 = {"LC_ALL": "C.UTF-8"}
ELEMENT = "element-6066-11e4-a52e-4f735466cecf"


def free_port():
    with socket.socket() as listener:
        listener.bind(("127.0.0.1", 0))
        return listener.getsockname()[1]


def soon(attempt, seconds=START_SECONDS):
    """What an attempt gives as soon as it no longer fails."""
    end = time.monotonic() + seconds
    while True:
        try:
            return attempt()
        except OSError:
            if time.monotonic() > end:
                raise
            time.sleep(0.1)


class Chromium:
    name = "chromium"
    commands = ("chromium", "chromedriver")

    def __init__(self, dark=False, width=1000, height=1000):
        self.home = tempfile.mkdtemp()
        self.port = free_port()
        words = ["chromedriver", f"--port={self.port}"]
        environment = {**os.environ, **UTF_8, "HOME": self.home}
        self.process = subprocess.Popen(words, env=environment, stdout=subprocess.DEVNULL, stderr=subprocess.DEVNULL)
        flags = ["--headless=new", "--no-sandbox", "--hide-scrollbars", f"--user-data-dir={self.home}/profile"]
        asked = {
            "timeouts": TIMEOUTS,
            "goog:chromeOptions": {"args": [*flags, f"--window-size={width},{height}"]},
            "goog:loggingPrefs": {"browser": "ALL", "performance": "ALL"},
        }
        self.session = ""
        made = soon(lambda: self.call("POST", "/session", capabilities={"alwaysMatch": asked}))
        self.session = f"/session/{made['sessionId']}"
        self.version = made["capabilities"]["browserVersion"]
        if dark:
            self.devtools("Emulation.setEmulatedMedia", features=[{"name": "prefers-color-scheme", "value": "dark"}])

    def call(self, method, path, **given):
        data = json.dumps(given).encode() if method == "POST" else None
        request = urllib.request.Request(f"http://127.0.0.1:{self.port}{self.session}{path}", data, method=method)
        request.add_header("Content-Type", "application/json")
        try:
            with urllib.request.urlopen(request, timeout=600) as answer:
                return json.load(answer)["value"]
        except urllib.error.HTTPError as error:
            raise RuntimeError(json.load(error)["value"]["message"]) from error

    def devtools(self, command, **given):
        return self.call("POST", "/goog/cdp/execute", cmd=command, params=given)

    def open(self, address):
        self.call("POST", "/url", url=address)

    def script(self, text, *words):
        return self.call("POST", "/execute/sync", script=text, args=words)

    def keys(self, identity, text):
        """Writes into an element, or for an input of files names them."""
        found = self.call("POST", "/element", using="css selector", value=f"#{identity}")
        self.call("POST", f"/element/{found[ELEMENT]}/value", text=text)

    def folder(self, identity, path):
        self.keys(identity, path)

    def press(self, *keys):
        """Presses keys one by one, wherever the focus is."""
        actions = [{"type": kind, "value": key} for key in keys for kind in ("keyDown", "keyUp")]
        self.call("POST", "/actions", actions=[{"type": "key", "id": "keys", "actions": actions}])

    def drop(self, paths):
        """Drops files and folders of the system on the page, as a person does."""
        data = {"items": [], "files": paths, "dragOperationsMask": 1}
        for kind in ("dragEnter", "dragOver", "drop"):
            self.devtools("Input.dispatchDragEvent", type=kind, x=300, y=300, data=data)

    def resize(self, width, height):
        screen = {"width": width, "height": height, "deviceScaleFactor": 1, "mobile": False}
        self.devtools("Emulation.setDeviceMetricsOverride", **screen)

    def screenshot(self):
        return base64.b64decode(self.call("GET", "/screenshot"))

    def faults(self):
        """What the console has of errors."""
        return [it["message"] for it in self.call("POST", "/se/log", type="browser") if it["level"] == "SEVERE"]

    def requests(self):
        """The addresses that were asked for since the last call, but for those of the page's own memory."""
        messages = [json.loads(it["message"])["message"] for it in self.call("POST", "/se/log", type="performance")]
        asked = [it["params"]["request"]["url"] for it in messages if it["method"] == "Network.requestWillBeSent"]
        return [it for it in asked if not it.startswith(("blob:", "data:"))]

    def quit(self):
        try:
            self.call("DELETE", "")
        finally:
            self.process.terminate()
            self.process.wait(20)
            shutil.rmtree(self.home, ignore_errors=True)


class Firefox:
    name = "firefox"
    commands = ("firefox-esr",)

    def __init__(self, dark=False, width=1000, height=1000):
        self.home = tempfile.mkdtemp()
        port = free_port()
        settings = {
            "marionette.port": port, "ui.systemUsesDarkTheme": int(dark), "browser.shell.checkDefaultBrowser": False,
            "datareporting.policy.dataSubmissionEnabled": False, "toolkit.telemetry.enabled": False,
            "privacy.reduceTimerPrecision": False,
        }
        with open(f"{self.home}/user.js", "w", encoding="utf-8") as file:
            for name, value in settings.items():
                file.write(f"user_pref({json.dumps(name)}, {json.dumps(value)});\n")
        sizes = {"MOZ_HEADLESS_WIDTH": str(width), "MOZ_HEADLESS_HEIGHT": str(height)}
        flags = ["--headless", "--marionette", "--remote-allow-system-access", "--no-remote", "--profile", self.home]
        words = ["firefox-esr", *flags]
        environment = {**os.environ, **UTF_8, "HOME": self.home, **sizes}
        self.process = subprocess.Popen(words, env=environment, stdout=subprocess.DEVNULL, stderr=subprocess.DEVNULL)
        self.socket = soon(lambda: socket.create_connection(("127.0.0.1", port)))
        self.rest, self.count = b"", 0
        self.message()
        self.version = self.call("WebDriver:NewSession")["capabilities"]["browserVersion"]
        self.call("WebDriver:SetTimeouts", **TIMEOUTS)

    def message(self):
        """The next message, which has its length before it."""
        while b":" not in self.rest:
            self.rest += self.received()
        length, _, self.rest = self.rest.partition(b":")
        while len(self.rest) < int(length):
            self.rest += self.received()
        text, self.rest = self.rest[: int(length)], self.rest[int(length) :]
        return json.loads(text)

    def received(self):
        got = self.socket.recv(1 << 16)
        if not got:
            raise RuntimeError("firefox is gone")
        return got

    def call(self, name, **given):
        self.count += 1
        text = json.dumps([0, self.count, name, given]).encode()
        self.socket.sendall(b"%d:%s" % (len(text), text))
        _, _, error, result = self.message()
        if error:
            raise RuntimeError(error["message"])
        return result

    def open(self, address):
        self.call("WebDriver:Navigate", url=address)

    def script(self, text, *words):
        return self.call("WebDriver:ExecuteScript", script=text, args=words)["value"]

    def keys(self, identity, text):
        found = self.call("WebDriver:FindElement", using="css selector", value=f"#{identity}")["value"]
        self.call("WebDriver:ElementSendKeys", id=found[ELEMENT], text=text)

    def folder(self, identity, path):
        """The event of a folder that is chosen, with files of an input of a script's own: no protocol chooses one."""
        files = sorted(os.path.join(above, name) for above, _, names in os.walk(path) for name in names)
        self.given(files)
        self.script("""
            const files = [...document.getElementById('given').files];
            document.getElementById('given').remove();
            files.forEach((file, at) => Object.defineProperty(file, 'webkitRelativePath', { value: arguments[1][at] }));
            const input = document.getElementById(arguments[0]);
            Object.defineProperty(input, 'files', { value: files, configurable: true });
            input.dispatchEvent(new Event('change'));
            delete input.files;
        """, identity, [os.path.relpath(it, os.path.dirname(path)) for it in files])

    def given(self, paths):
        """An input that has these files."""
        self.script("""
            const input = document.createElement('input');
            document.body.append(Object.assign(input, { type: 'file', multiple: true, id: 'given' }));
        """)
        self.keys("given", "\n".join(paths))

    def press(self, *keys):
        actions = [{"type": kind, "value": key} for key in keys for kind in ("keyDown", "keyUp")]
        self.call("WebDriver:PerformActions", actions=[{"type": "key", "id": "keys", "actions": actions}])

    def drop(self, paths):
        """The event of a drop of files, which a script makes of those that an input was given."""
        self.given(paths)
        self.script("""
            const input = document.getElementById('given');
            const dataTransfer = new DataTransfer();
            for (const file of input.files) dataTransfer.items.add(file);
            input.remove();
            const how = { dataTransfer, bubbles: true, cancelable: true };
            for (const kind of ['dragover', 'drop']) document.body.dispatchEvent(new DragEvent(kind, how));
        """)

    def resize(self, width, height):
        self.call("WebDriver:SetWindowRect", width=width, height=height)

    def screenshot(self):
        return base64.b64decode(self.call("WebDriver:TakeScreenshot", full=False)["value"])

    def faults(self):
        """What the console has of errors of the page."""
        script = """
            return Cc["@mozilla.org/consoleservice;1"].getService(Ci.nsIConsoleService).getMessageArray()
                .filter((it) => it instanceof Ci.nsIScriptError && !(it.flags & it.warningFlag))
                .filter((it) => /^(file|http|blob)/.test(it.sourceName)).map((it) => it.errorMessage);
        """
        self.call("Marionette:SetContext", value="chrome")
        try:
            return self.call("WebDriver:ExecuteScript", script=script, args=[])["value"]
        finally:
            self.call("Marionette:SetContext", value="content")

    def requests(self):
        """What its own list of the page's resources has."""
        names = self.script("return performance.getEntriesByType('resource').map((it) => it.name)")
        return [it for it in names if not it.startswith(("blob:", "data:"))]

    def quit(self):
        try:
            self.call("Marionette:Quit", flags=["eForceQuit"])
        except (OSError, RuntimeError):
            self.process.terminate()
        finally:
            self.process.wait(20)
            shutil.rmtree(self.home, ignore_errors=True)


BROWSERS = {browser.name: browser for browser in (Chromium, Firefox)}
