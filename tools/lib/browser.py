"""A headless Chromium, steered over a pipe by its debugging protocol; for tests and for pictures of pages.

    with Browser() as browser:
        page = browser.open("/tmp/page.html", width=1200, height=900)
        page.ask("document.title")              what the expression is
        page.errors, page.requests              messages of fault in the console; addresses asked for
        page.key("ArrowDown"); page.type("f(a"); page.picture("/tmp/page.png")
"""
import base64
import json
import os
import select
import shutil
import signal
import subprocess
import tempfile
import time

NAMES = ("chromium", "chromium-browser", "google-chrome", "chrome")
SECONDS = 60
CODES = {"Enter": 13, "Escape": 27, "PageUp": 33, "PageDown": 34, "End": 35, "Home": 36, "ArrowLeft": 37,
         "ArrowUp": 38, "ArrowRight": 39, "ArrowDown": 40, "Tab": 9}


def browser_path():
    """The program, or None where none is installed."""
    return next(filter(None, map(shutil.which, NAMES)), None)


class Browser:
    """The process, with its profile in a folder of its own, which goes with it."""

    def __init__(self):
        self.profile = tempfile.mkdtemp(prefix="scott-view-")
        to_browser, self.out = os.pipe()
        self.into, from_browser = os.pipe()
        words = [browser_path(), "--headless=new", "--remote-debugging-pipe", "--no-sandbox", "--disable-gpu",
                 "--no-first-run", "--disable-background-networking", "--disable-component-update",
                 "--disable-default-apps", "--disable-sync", "--disable-extensions", "--hide-scrollbars",
                 "--disable-dev-shm-usage", "--disable-renderer-backgrounding",
                 "--disable-backgrounding-occluded-windows", "--disable-background-timer-throttling",
                 "--force-color-profile=srgb", "--user-data-dir=" + self.profile, "about:blank"]

        def pipes():
            low, high = os.dup2(to_browser, 13), os.dup2(from_browser, 14)
            os.dup2(low, 3)
            os.dup2(high, 4)

        self.process = subprocess.Popen(words, preexec_fn=pipes, pass_fds=(3, 4), start_new_session=True,
                                        stdin=subprocess.DEVNULL, stdout=subprocess.DEVNULL,
                                        stderr=subprocess.DEVNULL)
        os.close(to_browser)
        os.close(from_browser)
        # Bytes that came and aren't read yet, the last call's number, the page's session and the page.
        self.left, self.number, self.session, self.page = b"", 0, None, None

    def __enter__(self):
        return self

    def __exit__(self, *_):
        try:
            self.call("Browser.close")
            self.process.wait(SECONDS)
        except (OSError, RuntimeError, subprocess.TimeoutExpired):
            os.killpg(self.process.pid, signal.SIGKILL)
            self.process.wait(SECONDS)
        os.close(self.out)
        os.close(self.into)
        shutil.rmtree(self.profile, ignore_errors=True)

    def call(self, method, session=None, **parameters):
        """One call; what comes meanwhile goes to the page."""
        self.number += 1
        number = self.number
        message = {"id": number, "method": method, "params": parameters}
        if session:
            message["sessionId"] = session
        self.send(json.dumps(message).encode() + b"\0")
        while True:
            answer = self.receive(SECONDS)
            if answer is None:
                raise RuntimeError("the browser doesn't answer to " + method)
            if answer.get("id") == number:
                if "error" in answer:
                    raise RuntimeError("%s: %s" % (method, answer["error"]["message"]))
                return answer["result"]

    def send(self, data):
        while data:
            data = data[os.write(self.out, data):]

    def receive(self, seconds):
        """The next message; events are noted with the page. None where none comes in time."""
        end = time.monotonic() + seconds
        while b"\0" not in self.left:
            if not select.select([self.into], [], [], max(0, end - time.monotonic()))[0]:
                return None
            piece = os.read(self.into, 1 << 20)
            if not piece:
                raise RuntimeError("the browser ended")
            self.left += piece
        text, self.left = self.left.split(b"\0", 1)
        message = json.loads(text)
        if self.page is not None and message.get("sessionId") == self.session and "method" in message:
            self.page.note(message["method"], message["params"])
        return message

    def busy(self):
        """The processor seconds that the pages' processes took so far: time by the clock is another on a busy machine."""
        found = self.call("SystemInfo.getProcessInfo")["processInfo"]
        return sum(process["cpuTime"] for process in found if process["type"] == "renderer")

    def open(self, path, width=1280, height=900, dark=False):
        """The page of a file, once it is loaded, in the place of the page before it."""
        if self.session is None:
            target = self.call("Target.createTarget", url="about:blank")["targetId"]
            self.session = self.call("Target.attachToTarget", targetId=target, flatten=True)["sessionId"]
        page = self.page = Page(self, self.session)
        for domain in ("Page", "Runtime", "Log", "Network"):
            page.call(domain + ".enable")
        page.size(width, height)
        scheme = {"name": "prefers-color-scheme", "value": "dark" if dark else "light"}
        page.call("Emulation.setEmulatedMedia", features=[scheme])
        page.errors, page.requests, page.loaded = [], [], False
        before = self.busy()
        page.call("Page.navigate", url="file://" + os.path.abspath(path))
        while not page.loaded:
            if self.receive(SECONDS) is None:
                raise RuntimeError("the page doesn't load: " + path)
        page.seconds = self.busy() - before
        return page


class Page:
    """A page: what it asked for, what went wrong in it, and questions to it."""

    def __init__(self, browser, session):
        self.browser, self.session = browser, session
        self.errors, self.requests, self.loaded = [], [], False

    def call(self, method, **parameters):
        return self.browser.call(method, self.session, **parameters)

    def note(self, method, parameters):
        if method == "Runtime.exceptionThrown":
            details = parameters["exceptionDetails"]
            self.errors.append(details.get("exception", {}).get("description") or details["text"])
        elif method == "Runtime.consoleAPICalled" and parameters["type"] in ("error", "warning", "assert"):
            self.errors.append(str([part.get("value") for part in parameters["args"]]))
        elif method == "Log.entryAdded" and parameters["entry"]["level"] in ("error", "warning"):
            self.errors.append(parameters["entry"]["text"])
        elif method == "Page.loadEventFired":
            self.loaded = True
        elif method == "Network.requestWillBeSent":
            self.requests.append(parameters["request"]["url"])

    def ask(self, expression):
        answer = self.call("Runtime.evaluate", expression=expression, returnByValue=True, awaitPromise=True)
        if "exceptionDetails" in answer:
            details = answer["exceptionDetails"]
            raise RuntimeError(details.get("exception", {}).get("description", details["text"]))
        return answer["result"].get("value")

    def wait(self, condition):
        end = time.monotonic() + SECONDS
        while not self.ask(condition):
            if time.monotonic() > end:
                raise RuntimeError("it never came: " + condition)
            time.sleep(0.01)

    def size(self, width, height):
        self.call("Emulation.setDeviceMetricsOverride", width=width, height=height, deviceScaleFactor=1,
                  mobile=width < 600)

    def key(self, key):
        text = {"text": key} if len(key) == 1 else {}
        code = CODES.get(key) or ord(key.upper()[0])
        self.call("Input.dispatchKeyEvent", type="keyDown", key=key, windowsVirtualKeyCode=code, **text)
        self.call("Input.dispatchKeyEvent", type="keyUp", key=key, windowsVirtualKeyCode=code)

    def type(self, text):
        self.call("Input.insertText", text=text)

    def picture(self, path, whole=False):
        """The page as a PNG: what is seen, or the whole."""
        data = self.call("Page.captureScreenshot", format="png", captureBeyondViewport=whole)["data"]
        with open(path, "wb") as file:
            file.write(base64.b64decode(data))

    def pdf(self, path):
        with open(path, "wb") as file:
            file.write(base64.b64decode(self.call("Page.printToPDF", printBackground=True)["data"]))
