"""Browsers without a window, driven by their own protocols: Chromium by DevTools over a pipe, Firefox by Marionette over a socket."""
import base64
import contextlib
import fcntl
import json
import os
import select
import shutil
import socket
import subprocess
import tempfile
import time
from pathlib import Path

CHROMIUMS = ("chromium", "chromium-browser", "google-chrome", "google-chrome-stable")
FIREFOXES = ("firefox-esr", "firefox")
SECONDS = 120


class Stopped(Exception):
    """The browser ended, or didn't answer in time."""


def found(names):
    return next((path for path in map(shutil.which, names) if path), None)


def moved_up(number):
    """The same open file under a number that isn't among the first ten."""
    high = fcntl.fcntl(number, fcntl.F_DUPFD, 10)
    os.close(number)
    return high


def processor_seconds(process):
    """Returns how long a process and those below it ran, in seconds of processor time."""
    ran, below = {}, {}
    for path in Path("/proc").glob("[0-9]*/stat"):
        with contextlib.suppress(OSError):
            fields = path.read_text().rpartition(")")[2].split()
            ran[path.parent.name] = int(fields[11]) + int(fields[12])
            below.setdefault(fields[1], []).append(path.parent.name)
    open_, ticks = [str(process)], 0
    while open_:
        it = open_.pop()
        ticks += ran.get(it, 0)
        open_ += below.get(it, [])
    return ticks / os.sysconf("SC_CLK_TCK")


class Browser:
    """What both browsers have in common: a process, and those below it."""

    def processor_seconds(self):
        return processor_seconds(self.process.pid)


class Chromium(Browser):
    """A page in Chromium. `seen` has the address of each request that the page made."""

    name, names = "Chromium", CHROMIUMS

    def __init__(self, path, room):
        to_browser, self.sends = (moved_up(it) for it in os.pipe())
        self.reads, from_browser = (moved_up(it) for it in os.pipe())

        def connect():
            os.dup2(to_browser, 3)
            os.dup2(from_browser, 4)

        words = [path, "--headless", "--no-sandbox", "--disable-gpu", "--enable-unsafe-swiftshader", "--remote-debugging-pipe", f"--user-data-dir={room}", "about:blank"]
        quiet = {"stdin": subprocess.DEVNULL, "stdout": subprocess.DEVNULL, "stderr": subprocess.DEVNULL}
        self.process = subprocess.Popen(words, preexec_fn=connect, pass_fds=(3, 4), **quiet)
        os.close(to_browser)
        os.close(from_browser)
        self.held, self.count, self.seen, self.frames = b"", 0, [], []
        page = self.call("Target.createTarget", url="about:blank")["targetId"]
        self.session = self.call("Target.attachToTarget", targetId=page, flatten=True)["sessionId"]
        for it in ("Page", "Network", "Runtime"):
            self.ask(f"{it}.enable")
        # A frame whose scripts are kept apart is a target of its own.
        self.ask("Target.setAutoAttach", autoAttach=True, waitForDebuggerOnStart=False, flatten=True)

    def message(self):
        while b"\0" not in self.held:
            is_there = select.select([self.reads], [], [], SECONDS)[0]
            got = os.read(self.reads, 1 << 20) if is_there else b""
            if not got:
                raise Stopped("Chromium ended" if is_there else "Chromium didn't answer")
            self.held += got
        text, _, self.held = self.held.partition(b"\0")
        return json.loads(text)

    def note(self, message):
        """Keeps what events tell: the requests, and the frames."""
        method, told = message.get("method"), message.get("params", {})
        if method == "Network.requestWillBeSent":
            self.seen.append(told["request"]["url"])
        elif method == "Target.attachedToTarget" and told["targetInfo"]["type"] == "iframe":
            self.frames.append(told["sessionId"])
        elif method == "Target.detachedFromTarget" and told["sessionId"] in self.frames:
            self.frames.remove(told["sessionId"])

    def call(self, method, session=None, **params):
        self.count += 1
        message = {"id": self.count, "method": method, "params": params, **({"sessionId": session} if session else {})}
        os.write(self.sends, json.dumps(message).encode() + b"\0")
        while True:
            got = self.message()
            if got.get("id") == self.count:
                if "error" in got:
                    raise Stopped(f"{method}: {got['error']['message']}")
                return got["result"]
            self.note(got)

    def ask(self, method, **params):
        return self.call(method, self.session, **params)

    def open(self, address, before=""):
        """Opens the address; a script may run before those of the page."""
        if before:
            self.ask("Page.addScriptToEvaluateOnNewDocument", source=before)
        self.ask("Page.navigate", url=address)
        self.run("await new Promise(go => document.readyState === 'complete' ? go() : addEventListener('load', go)); return 1")

    def run(self, body, session=None):
        """The value that the body of a function returns in the page, as JSON has it."""
        told = self.call("Runtime.evaluate", session or self.session, expression=f"(async () => {{ {body} }})()", awaitPromise=True, returnByValue=True)
        if "exceptionDetails" in told:
            fault = told["exceptionDetails"]
            raise Stopped(fault.get("exception", {}).get("description", fault["text"]))
        return told["result"].get("value")

    def run_in_view(self, body):
        """The same in the frame that the page shows."""
        for _ in range(100):
            if self.frames:
                return self.run(f"await new Promise(go => document.readyState === 'complete' ? go() : addEventListener('load', go)); {body}", self.frames[-1])
            self.run("await new Promise(go => setTimeout(go, 50))")
        raise Stopped("there is no frame")

    def size(self, wide, tall, is_dark=False):
        self.ask("Emulation.setDeviceMetricsOverride", width=wide, height=tall, deviceScaleFactor=1, mobile=False)
        self.ask("Emulation.setScrollbarsHidden", hidden=True)
        self.ask("Emulation.setEmulatedMedia", features=[{"name": "prefers-color-scheme", "value": "dark" if is_dark else "light"}])

    def picture(self):
        return base64.b64decode(self.ask("Page.captureScreenshot", format="png")["data"])

    def end(self):
        self.process.terminate()
        self.process.wait()
        os.close(self.sends)
        os.close(self.reads)


class Firefox(Browser):
    """A page in Firefox. It doesn't tell which requests were made."""

    name, names, seen = "Firefox", FIREFOXES, ()

    def __init__(self, path, room):
        Path(room, "user.js").write_text('user_pref("marionette.port", 0);\nuser_pref("remote.prefs.recommended", true);\nuser_pref("webgl.force-enabled", true);\n', encoding="ascii")
        quiet = {"stdin": subprocess.DEVNULL, "stdout": subprocess.DEVNULL, "stderr": subprocess.DEVNULL}
        self.process = subprocess.Popen([path, "--headless", "--no-remote", "--marionette", "--profile", room], **quiet)
        self.count = 0
        self.socket = socket.create_connection(("127.0.0.1", self.port(Path(room, "MarionetteActivePort"))), SECONDS)
        self.stream = self.socket.makefile("rb")
        self.message()
        self.ask("WebDriver:NewSession", capabilities={"alwaysMatch": {"acceptInsecureCerts": True}})
        self.ask("WebDriver:SetTimeouts", script=1000 * SECONDS)

    def port(self, file):
        for _ in range(10 * SECONDS):
            if file.exists() and file.read_text(encoding="ascii"):
                return int(file.read_text(encoding="ascii"))
            if self.process.poll() is not None:
                break
            time.sleep(0.1)
        raise Stopped("Firefox didn't start")

    def message(self):
        size = b""
        while (it := self.stream.read(1)) != b":":
            if not it:
                raise Stopped("Firefox ended")
            size += it
        return json.loads(self.stream.read(int(size)))

    def ask(self, method, **params):
        self.count += 1
        text = json.dumps([0, self.count, method, params]).encode()
        self.socket.sendall(str(len(text)).encode() + b":" + text)
        _, _, fault, told = self.message()
        if fault:
            raise Stopped(f"{method}: {fault['message']}")
        return told

    def open(self, address, before=""):
        if before:
            raise NotImplementedError
        self.ask("WebDriver:Navigate", url=address)

    def run(self, body):
        script = "const done = arguments[arguments.length - 1]; (async () => {" + body + "})().then(it => done([it]), fault => done([null, String(fault)]))"
        value, *fault = self.ask("WebDriver:ExecuteAsyncScript", script=script, args=[], sandbox=None)["value"]
        if fault:
            raise Stopped(fault[0])
        return value

    def run_in_view(self, body):
        self.ask("WebDriver:SwitchToFrame", id=0)
        try:
            return self.run(body)
        finally:
            self.ask("WebDriver:SwitchToFrame", id=None)

    def end(self):
        with contextlib.suppress(OSError, Stopped):
            self.ask("Marionette:Quit", flags=["eForceQuit"])
        self.socket.close()
        try:
            self.process.wait(20)
        except subprocess.TimeoutExpired:
            self.process.kill()
            self.process.wait()


@contextlib.contextmanager
def opened(kind):
    """The browser of this kind, or None if there is none."""
    path = found(kind.names)
    if path is None:
        yield None
        return
    with tempfile.TemporaryDirectory(prefix="ember-browser-", ignore_cleanup_errors=True) as room:
        browser = kind(path, room)
        try:
            yield browser
        finally:
            browser.end()
