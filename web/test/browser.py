"""Drives a browser that nobody sees by WebDriver: Chromium and WebKitGTK through their drivers, Firefox through its own
port."""
import base64
import contextlib
import json
import os
import re
import shutil
import signal
import socket
import subprocess
import tempfile
import time
import urllib.error
import urllib.request

ENTER, TAB = "\ue007", "\ue004"
LEFT, UP, RIGHT, DOWN = "\ue012", "\ue013", "\ue014", "\ue015"
HOME, END, PAGE_DOWN, CONTROL = "\ue011", "\ue010", "\ue00f", "\ue009"

# A name of this machine whose pages browsers don't trust, like those of another machine without TLS.
ELSEWHERE = "page.test"

# For how many seconds a state is polled for before the test fails.
PATIENCE = 60


class Failed(Exception):
    """A check failed."""


class Browser:
    """What the browsers have in common. Subclasses send the commands."""

    # Whether tests can change what the system prefers, zoom, print, and give this machine another name.
    CAN_PRETEND = True

    def go(self, url):
        self.send("navigate", {"url": url})
        self.until("return document.documentElement.dataset.state === 'ready'", "the page starts")

    def run(self, script, *arguments):
        """What a script returns for its arguments."""
        return self.send("run", {"script": script, "args": list(arguments)})

    def until(self, script, what, *arguments):
        """Polls until a script returns a true value, and returns that."""
        end = time.monotonic() + PATIENCE
        while time.monotonic() < end:
            value = self.run(script, *arguments)
            if value:
                return value
        raise Failed(f"not seen: {what}")

    def keys(self, *keys, held=()):
        """Presses keys one after the other while others are held."""
        actions = [{"type": "keyDown", "value": key} for key in held]
        for key in keys:
            actions += [{"type": "keyDown", "value": key}, {"type": "keyUp", "value": key}]
        actions += [{"type": "keyUp", "value": key} for key in held]
        self.send("act", {"actions": [{"type": "key", "id": "keyboard", "actions": actions}]})

    def saved(self, name):
        """The text of a file that the page has saved; the file is deleted."""
        path = os.path.join(self.profile, "saved", name)
        end = time.monotonic() + PATIENCE
        while time.monotonic() < end:
            if os.path.exists(path) and os.path.getsize(path) > 0 and not os.path.exists(f"{path}.part"):
                with open(path, encoding="utf-8") as file:
                    text = file.read()
                os.remove(path)
                return text
            time.sleep(0.05)
        raise Failed(f"not saved: {name}")

    def printed(self):
        """The page as a PDF, without its backgrounds."""
        return base64.b64decode(self.send("print", {"background": False}))

    def point(self, x, y, click=False):
        """Moves the pointer to a point of the window."""
        actions = [{"type": "pointerMove", "duration": 0, "x": int(x), "y": int(y), "origin": "viewport"}]
        if click:
            actions += [{"type": "pointerDown", "button": 0}, {"type": "pointerUp", "button": 0}]
        self.send("act", {"actions": [{"type": "pointer", "id": "mouse", "actions": actions}]})


# The name of an element's id in WebDriver's answers.
ELEMENT = "element-6066-11e4-a52e-4f735466cecf"


class Driven(Browser):
    """A browser with a driver that speaks WebDriver, at |base|."""

    COMMANDS = {"navigate": "url", "run": "execute/sync", "act": "actions", "print": "print"}

    def http(self, method, path, body=None):
        data = None if body is None else json.dumps(body).encode()
        request = urllib.request.Request(self.base + path, data, {"Content-Type": "application/json"}, method=method)
        try:
            with urllib.request.urlopen(request, timeout=900) as answer:
                return json.load(answer)["value"]
        except urllib.error.HTTPError as error:
            raise Failed(json.load(error)["value"]["message"]) from None

    def send(self, command, body):
        return self.http("POST", f"{self.session}/{self.COMMANDS[command]}", body)

    def choose(self, name, path):
        """Chooses a file in the input with an id, as a person does."""
        found = self.http("POST", f"{self.session}/element", {"using": "css selector", "value": f"#{name}"})
        self.http("POST", f"{self.session}/element/{found[ELEMENT]}/value", {"text": path})

    def close(self):
        with contextlib.suppress(Exception):
            self.http("DELETE", self.session)
        self.driver.terminate()
        self.driver.wait()
        shutil.rmtree(self.profile, ignore_errors=True)


class Chromium(Driven):
    """Chromium, through Debian's chromium-driver."""

    name = "Chromium"

    def __init__(self):
        self.profile = tempfile.mkdtemp()
        self.driver = subprocess.Popen(
            ["chromedriver", "--port=0"], stdout=subprocess.PIPE, stderr=subprocess.DEVNULL, text=True)
        self.base = self.session = None
        for line in self.driver.stdout:
            found = re.search(r"started successfully on port (\d+)", line)
            if found:
                self.base = f"http://127.0.0.1:{found[1]}"
                break
        try:
            self.begin()
        except BaseException:
            self.close()
            raise

    def begin(self):
        if self.base is None:
            raise Failed("chromedriver does not start")
        words = ["--headless=new", "--disable-gpu", f"--user-data-dir={self.profile}", "--window-size=1280,1000",
                 "--force-device-scale-factor=1", "--hide-scrollbars",
                 f"--host-resolver-rules=MAP {ELSEWHERE} 127.0.0.1"]
        if os.geteuid() == 0:
            words.append("--no-sandbox")
        options = {"args": words, "binary": shutil.which("chromium")}
        wanted = {"browserName": "chrome", "goog:chromeOptions": options, "goog:loggingPrefs": {"browser": "ALL"},
                  "timeouts": {"script": 600000}}
        session = self.http("POST", "/session", {"capabilities": {"alwaysMatch": wanted}})
        self.session = f"/session/{session['sessionId']}"
        self.devtools("Browser.setDownloadBehavior", behavior="allow", downloadPath=f"{self.profile}/saved")
        self.version = session["capabilities"]["browserVersion"]

    def devtools(self, command, **params):
        return self.http("POST", f"{self.session}/goog/cdp/execute", {"cmd": command, "params": params})

    def printed(self):
        """Its driver would wait only 10 seconds."""
        return base64.b64decode(self.devtools("Page.printToPDF", printBackground=False)["data"])

    def errors(self):
        """The messages in the console since the last call."""
        return [entry["message"] for entry in self.http("POST", f"{self.session}/se/log", {"type": "browser"})]

    def picture(self, path, width, height, scheme):
        """A picture of the window at a size, light or dark."""
        self.shape(width, height)
        self.media(**{"prefers-color-scheme": scheme})
        with open(path, "wb") as file:
            file.write(base64.b64decode(self.http("GET", f"{self.session}/screenshot")))

    def shape(self, width, height):
        is_phone = width < 600
        self.devtools("Emulation.setDeviceMetricsOverride", width=width, height=height, mobile=is_phone,
                      deviceScaleFactor=2 if is_phone else 1)

    def width(self, width):
        self.devtools("Emulation.setDeviceMetricsOverride", width=width, height=900, mobile=False, deviceScaleFactor=1)
        return width

    def media(self, **features):
        """Sets what the system prefers: prefers-color-scheme, forced-colors, prefers-reduced-motion."""
        self.devtools("Emulation.setEmulatedMedia",
                      features=[{"name": name, "value": value} for name, value in features.items()])

    def zoom(self, factor):
        """A picture of a window of 1280 by 1024 pixels in which the page is zoomed."""
        self.devtools("Emulation.setDeviceMetricsOverride", width=1280 // factor, height=1024 // factor, mobile=False,
                      deviceScaleFactor=factor)

    def slow(self, factor):
        """Slows the machine down by this factor."""
        self.devtools("Emulation.setCPUThrottlingRate", rate=factor)

    def unshape(self):
        self.devtools("Emulation.clearDeviceMetricsOverride")
        self.media()


class WebKit(Driven):
    """WebKitGTK, through its own driver, in a screen that nobody sees. The driver neither passes on the console nor
    what is saved, prints nothing, and changes nothing that the system prefers."""

    name = "WebKitGTK"
    CAN_PRETEND = False
    # What the driver says if it lost what a script returned.
    LOST = "Could not parse script result"
    # Keeps the texts of files when the page has them saved.
    KEEP = """window.kept = {};
        let last = null;
        const make = URL.createObjectURL;
        URL.createObjectURL = (blob) => { last = blob; return make.call(URL, blob); };
        const click = HTMLElement.prototype.click;
        HTMLAnchorElement.prototype.click = function () {
          const { download } = this;
          if (download) { last.text().then((text) => { window.kept[download] = text; }); } else { click.call(this); }
        };"""

    def __init__(self):
        self.profile = tempfile.mkdtemp()
        with socket.socket() as free:
            free.bind(("127.0.0.1", 0))
            port = free.getsockname()[1]
        quiet = {"stdout": subprocess.DEVNULL, "stderr": subprocess.DEVNULL}
        self.driver = subprocess.Popen(
            ["xvfb-run", "-a", "WebKitWebDriver", f"--port={port}"], env={**os.environ, "HOME": self.profile},
            start_new_session=True, **quiet)
        self.base = f"http://127.0.0.1:{port}"
        self.session = None
        try:
            self.begin()
        except BaseException:
            self.close()
            raise

    def begin(self):
        end = time.monotonic() + PATIENCE
        while time.monotonic() < end and self.driver.poll() is None:
            with contextlib.suppress(OSError):
                self.http("GET", "/status")
                break
            time.sleep(0.1)
        session = self.http("POST", "/session", {"capabilities": {"alwaysMatch": {"timeouts": {"script": 600000}}}})
        self.session = f"/session/{session['sessionId']}"
        self.version = session["capabilities"]["browserVersion"]
        self.unshape()

    def send(self, command, body):
        """A script whose result was lost runs again: what it did twice a later check notices."""
        for left in reversed(range(3)):
            try:
                return super().send(command, body)
            except Failed as error:
                if command != "run" or str(error) != self.LOST or left == 0:
                    raise
                print("  the driver lost what a script returned: once more", flush=True)
                time.sleep(0.5)

    def go(self, url):
        super().go(url)
        self.run(self.KEEP)

    def saved(self, name):
        """The text that the page had saved as a file with this name."""
        script = "const text = window.kept[arguments[0]] ?? null; delete window.kept[arguments[0]]; return text;"
        return self.until(script, f"{name} is saved", name)

    def errors(self):
        return []

    def width(self, width, height=900):
        """Makes the window this wide, or as narrow as it can be. Returns how wide it is."""
        self.http("POST", f"{self.session}/window/rect", {"width": width, "height": height})
        end = time.monotonic() + 1
        while (now := self.run("return window.innerWidth")) != width and time.monotonic() < end:
            time.sleep(0.05)
        return now

    def unshape(self):
        self.width(1280, 1000)

    def close(self):
        """Ends the driver too, which xvfb-run leaves behind."""
        super().close()
        with contextlib.suppress(ProcessLookupError):
            os.killpg(self.driver.pid, signal.SIGTERM)


# The types of what the page saves.
SAVED = ["image/svg+xml", "application/x-ndjson", "application/qlog+json-seq", "application/x-tar"]


class Firefox(Browser):
    """Firefox, by the commands of its own port (Marionette)."""

    name = "Firefox"
    PREFERENCES = [
        ("marionette.port", "0"), ("datareporting.policy.dataSubmissionEnabled", "false"),
        ("browser.download.folderList", "2"), ("browser.download.alwaysOpenPanel", "false"),
        ("browser.helperApps.neverAsk.saveToDisk", f'"{",".join(SAVED)}"'),
        ("browser.download.always_ask_before_handling_new_types", "false"),
        ("network.dns.localDomains", f'"{ELSEWHERE}"'),
    ]
    # The names in Firefox's preferences for what a system prefers.
    MEDIA = {
        ("prefers-color-scheme", "light"): ("layout.css.prefers-color-scheme.content-override", 1),
        ("prefers-color-scheme", "dark"): ("layout.css.prefers-color-scheme.content-override", 0),
        ("forced-colors", "active"): ("browser.display.document_color_use", 2),
        ("prefers-reduced-motion", "reduce"): ("ui.prefersReducedMotion", 1),
    }
    COMMANDS = {"navigate": "WebDriver:Navigate", "run": "WebDriver:ExecuteScript", "act": "WebDriver:PerformActions",
                "print": "WebDriver:Print"}
    # No window is narrower.
    LEAST = 500

    def __init__(self):
        self.profile = tempfile.mkdtemp()
        with open(f"{self.profile}/user.js", "w") as file:
            for name, value in self.PREFERENCES:
                file.write(f'user_pref("{name}", {value});\n')
            file.write(f'user_pref("browser.download.dir", "{self.profile}/saved");\n')
        os.mkdir(f"{self.profile}/saved")
        words = ["firefox-esr", "--headless", "--marionette", "--remote-allow-system-access", "--no-remote",
                 "--profile", self.profile]
        quiet = {"stdout": subprocess.DEVNULL, "stderr": subprocess.DEVNULL}
        self.process = subprocess.Popen(words, env={**os.environ, "MOZ_HEADLESS": "1", "HOME": self.profile}, **quiet)
        self.count = 0
        try:
            self.begin()
        except BaseException:
            self.close()
            raise

    def begin(self):
        self.stream = self.connect()
        self.read()
        wanted = {"timeouts": {"script": 600000}}
        session = self.command("WebDriver:NewSession", {"capabilities": {"alwaysMatch": wanted}})
        self.version = session["capabilities"]["browserVersion"]
        self.command("WebDriver:SetWindowRect", {"width": 1280, "height": 1000})

    def connect(self):
        """Polls for the port that the browser writes down, and connects to it."""
        end = time.monotonic() + PATIENCE
        while time.monotonic() < end and self.process.poll() is None:
            with contextlib.suppress(OSError, ValueError):
                with open(f"{self.profile}/MarionetteActivePort") as file:
                    return socket.create_connection(("127.0.0.1", int(file.read())), timeout=900).makefile("rwb")
            time.sleep(0.05)
        raise Failed("Firefox does not start")

    def read(self):
        length = b""
        while (byte := self.stream.read(1)) != b":":
            length += byte
        return json.loads(self.stream.read(int(length)))

    def command(self, name, body):
        self.count += 1
        message = json.dumps([0, self.count, name, body]).encode()
        self.stream.write(b"%d:%s" % (len(message), message))
        self.stream.flush()
        _, _, error, value = self.read()
        if error:
            raise Failed(error["message"])
        return value

    def send(self, command, body):
        value = self.command(self.COMMANDS[command], body)
        return value["value"] if isinstance(value, dict) and "value" in value else value

    def choose(self, name, path):
        """Chooses a file in the input with an id, as a person does."""
        found = self.command("WebDriver:FindElement", {"using": "css selector", "value": f"#{name}"})
        self.command("WebDriver:ElementSendKeys", {"id": found["value"][ELEMENT], "text": path})

    def inside(self, script, *arguments):
        """Runs a script in the browser itself."""
        self.command("Marionette:SetContext", {"value": "chrome"})
        value = self.command("WebDriver:ExecuteScript", {"script": script, "args": list(arguments)})["value"]
        self.command("Marionette:SetContext", {"value": "content"})
        return value

    def errors(self):
        """The messages of the page in the console since the last call."""
        return self.inside("""const messages = Services.console.getMessageArray().filter(
            (one) => one instanceof Ci.nsIScriptError && /index\\.html/.test(one.sourceName)).map(String);
            Services.console.reset(); return messages;""")

    def media(self, **features):
        """Sets what the system prefers: prefers-color-scheme, forced-colors, prefers-reduced-motion."""
        for name, _ in self.MEDIA.values():
            self.inside("Services.prefs.clearUserPref(arguments[0]);", name)
        for feature in features.items():
            self.inside("Services.prefs.setIntPref(...arguments);", *self.MEDIA[feature])

    def width(self, width):
        """Makes the page this wide, in CSS pixels: if a window can't be so narrow, it is wider, and zoomed."""
        factor = 2 if width < self.LEAST else 1
        self.zoom(factor)
        self.command("WebDriver:SetWindowRect", {"width": factor * width, "height": factor * 900})
        return width

    def zoom(self, factor):
        """Zooms the page."""
        self.inside("window.gBrowser.selectedBrowser.fullZoom = arguments[0];", factor)

    def unshape(self):
        self.zoom(1)
        self.command("WebDriver:SetWindowRect", {"width": 1280, "height": 1000})
        self.media()

    def close(self):
        with contextlib.suppress(Exception):
            self.command("Marionette:Quit", {"flags": ["eForceQuit"]})
        self.process.terminate()
        self.process.wait()
        shutil.rmtree(self.profile, ignore_errors=True)
