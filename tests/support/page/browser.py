"""Debian's Chromium, driven over WebDriver (W3C) through its `chromedriver`."""
from __future__ import annotations

import base64
import ctypes
import http.client
import json
import os
import re
import select
import shutil
import signal
import subprocess
import tempfile
import time
from dataclasses import dataclass
from pathlib import Path
from types import TracebackType
from typing import Any, Optional

from ..program import short

# What is started, and the Debian package that has it.
BROWSER, DRIVER = ("chromium", "chromium"), ("chromedriver", "chromium-driver")
SECONDS = 120
# An element is an object with this one member: its name in the session.
ELEMENT = "element-6066-11e4-a52e-4f735466cecf"
LISTENS = re.compile(rb"started successfully on port (\d+)")
# Keys without a sign of their own, as WebDriver names them.
BACKSPACE, TAB, SHIFT = "\ue003", "\ue004", "\ue008"
ENTER, SPACE = "\ue007", "\ue00d"
END, HOME, LEFT, RIGHT = "\ue010", "\ue011", "\ue012", "\ue014"
# It asks nothing of a network by itself, and ends as soon as its driver does: their pipe is closed.
WAYS = (
    "--headless", "--remote-debugging-pipe", "--no-first-run", "--disable-sync",
    "--disable-background-networking", "--disable-component-update", "--disable-default-apps",
    "--disable-dev-shm-usage", "--disable-extensions", "--force-device-scale-factor=1",
)
# How large a page is shown at first, in CSS pixels.
SIZE = (1280, 900)
# It begins with an empty page.
EMPTY_START = {"session.restore_on_startup": 4, "session.startup_urls": ["about:blank"]}
# prctl's number for the signal that a process is sent as its parent ends.
PARENT_ENDED = 1


class BrowserFault(AssertionError):
    """What the browser or its driver refuses, or that one of them is missing."""


@dataclass(frozen=True)
class LogLine:
    """A line of the console: `SEVERE` is an error, a refused request too."""

    level: str
    text: str


def found(program: tuple[str, str]) -> str:
    """The path of a program."""
    name, package = program
    path = shutil.which(name)
    if path is None:
        raise BrowserFault(f"{name} is not installed: apt-get install {package}")
    return path


def end_with_parent() -> None:
    ctypes.CDLL(None).prctl(PARENT_ENDED, signal.SIGTERM)


class Driver:
    """A process of chromedriver, on a free port of 127.0.0.1, and requests to it."""

    def __init__(self, home: Path) -> None:
        self.faults = home / "driver.faults"
        # What the browser keeps beside its profile goes into the folder too.
        places = {name: str(home) for name in ("HOME", "XDG_CONFIG_HOME", "XDG_CACHE_HOME")}
        with open(self.faults, "wb") as faults:
            self.process = subprocess.Popen(
                [found(DRIVER), "--port=0"], stdin=subprocess.DEVNULL, stdout=subprocess.PIPE,
                stderr=faults, env={**os.environ, **places}, start_new_session=True,
                preexec_fn=end_with_parent)
        try:
            self.connection = http.client.HTTPConnection("127.0.0.1", self.port(), timeout=SECONDS)
        except BaseException:
            self.end()
            raise

    def port(self) -> int:
        """Where it listens, which it writes as soon as it does."""
        written, until = b"", time.monotonic() + SECONDS
        output = self.process.stdout
        assert output is not None
        while select.select([output], [], [], max(0, until - time.monotonic()))[0]:
            piece = os.read(output.fileno(), 4096)
            written += piece
            listens = LISTENS.search(written)
            if listens:
                return int(listens[1])
            if not piece:
                break
        raise BrowserFault(f"chromedriver does not start: {short(written)}, {self.complaint()}")

    def complaint(self) -> str:
        return short(self.faults.read_text(errors="replace"), 400)

    def ask(self, method: str, path: str, body: Optional[dict[str, Any]] = None) -> Any:
        """The value that a request is answered with."""
        text = None if body is None else json.dumps(body)
        try:
            self.connection.request(method, path, text, {"Content-Type": "application/json"})
            value = json.loads(self.connection.getresponse().read())["value"]
        except (OSError, http.client.HTTPException) as why:
            raise BrowserFault(f"{method} {path}: {why!r}, {self.complaint()}") from why
        if isinstance(value, dict) and "error" in value:
            raise BrowserFault(f"{method} {path}: {value['error']}: {short(value['message'], 400)}")
        return value

    def end(self) -> None:
        """Ends it and what it started: all are of its session, and of its process group."""
        self.process.terminate()
        try:
            self.process.wait(SECONDS)
        except subprocess.TimeoutExpired:
            pass
        try:
            os.killpg(self.process.pid, signal.SIGKILL)
        except ProcessLookupError:
            pass
        self.process.wait()
        if self.process.stdout:
            self.process.stdout.close()


class Element:
    """An element of the page that is shown."""

    def __init__(self, browser: "Browser", name: str) -> None:
        self.browser = browser
        self.path = f"/element/{name}"

    def type(self, text: str) -> None:
        """Types at its end; a file input is given the path of a file."""
        self.browser.ask("POST", f"{self.path}/value", {"text": text})

    def clear(self) -> None:
        self.browser.ask("POST", f"{self.path}/clear", {})

    def click(self) -> None:
        self.browser.ask("POST", f"{self.path}/click", {})

    @property
    def text(self) -> str:
        """The text that is seen of it."""
        return self.browser.ask("GET", f"{self.path}/text")

    def attribute(self, name: str) -> Optional[str]:
        return self.browser.ask("GET", f"{self.path}/attribute/{name}")

    def property(self, name: str) -> Any:
        return self.browser.ask("GET", f"{self.path}/property/{name}")


class Browser:
    """A browser with one page and a new profile. It ends with the `with` block that it is made for,
    or by `end`."""

    def __init__(self, notes_requests: bool = False) -> None:
        self.home = Path(tempfile.mkdtemp(prefix="dukpt-browser-"))
        self.session = ""
        try:
            self.driver = Driver(self.home)
        except BaseException:
            shutil.rmtree(self.home, ignore_errors=True)
            raise
        try:
            self.begin(notes_requests)
            self.renew()
        except BaseException:
            self.end()
            raise

    def begin(self, notes_requests: bool) -> None:
        ways = [*WAYS, f"--user-data-dir={self.home / 'profile'}"]
        # The browser refuses to run as root inside its own sandbox.
        ways += ["--no-sandbox"] if os.getuid() == 0 else []
        wanted = {
            "browserName": "chrome",
            "timeouts": {"script": 1000 * SECONDS, "pageLoad": 1000 * SECONDS},
            "goog:chromeOptions": {"binary": found(BROWSER), "args": ways, "prefs": EMPTY_START},
            "goog:loggingPrefs": {"browser": "ALL",
                                  **({"performance": "ALL"} if notes_requests else {})},
        }
        made = self.driver.ask("POST", "/session", {"capabilities": {"alwaysMatch": wanted}})
        self.session = f"/session/{made['sessionId']}"

    def renew(self) -> None:
        """Shows an empty page, of the first size and preferences, with nothing on the console."""
        self.open("about:blank")
        self.resize(*SIZE)
        self.prefer()
        self.log()

    def __enter__(self) -> "Browser":
        return self

    def __exit__(self, kind: Optional[type[BaseException]], why: Optional[BaseException],
                 where: Optional[TracebackType]) -> None:
        self.end()

    def end(self) -> None:
        """Ends the browser and its driver, and removes the profile. Twice is as once."""
        try:
            if self.session:
                self.ask("DELETE", "")
        except BrowserFault:
            pass
        finally:
            self.session = ""
            self.driver.end()
            shutil.rmtree(self.home, ignore_errors=True)

    def ask(self, method: str, path: str, body: Optional[dict[str, Any]] = None) -> Any:
        """The value that a request of the session is answered with."""
        return self.driver.ask(method, self.session + path, body)

    # What is shown

    def open(self, address: str) -> None:
        """Shows a page, and waits until it is loaded."""
        self.ask("POST", "/url", {"url": address})

    @property
    def address(self) -> str:
        return self.ask("GET", "/url")

    def element(self, selector: str) -> Element:
        """The first element of a CSS selector; none is a fault."""
        got = self.ask("POST", "/element", {"using": "css selector", "value": selector})
        return Element(self, got[ELEMENT])

    def run(self, script: str, *given: Any) -> Any:
        """What the body of a function in JavaScript gives; `arguments` are those given."""
        return self.ask("POST", "/execute/sync", {"script": script, "args": list(given)})

    def run_async(self, script: str, *given: Any) -> Any:
        """The same of the body of an asynchronous function: `await` may stand in it."""
        whole = ("const done = arguments[arguments.length - 1];"
                 f"(async function () {{ {script} }}).apply(null, arguments)"
                 ".then((it) => done({ it }), (why) => done({ why: String(why) }));")
        got = self.ask("POST", "/execute/async", {"script": whole, "args": list(given)})
        if "why" in got:
            raise BrowserFault(f"the script ends with {short(got['why'], 400)}")
        return got.get("it")

    def wait_until(self, script: str, *given: Any, seconds: float = SECONDS) -> None:
        """Waits until a script gives a true value."""
        until = time.monotonic() + seconds
        while not self.run(script, *given):
            if time.monotonic() > until:
                raise BrowserFault(f"in {seconds} seconds this does not come true: {script}")
            time.sleep(0.02)

    # Hands and eyes

    def press(self, *keys: str) -> None:
        """Presses and releases keys at the element that has the focus, one after the other; with
        `SHIFT` before a key, that one is held down meanwhile."""
        acts: list[dict[str, str]] = []
        held: list[str] = []
        for key in keys:
            acts.append({"type": "keyDown", "value": key})
            held.append(key)
            if key != SHIFT:
                acts += [{"type": "keyUp", "value": it} for it in reversed(held)]
                held = []
        hands = [{"type": "key", "id": "keyboard", "actions": acts}]
        self.ask("POST", "/actions", {"actions": hands})

    def log(self) -> list[LogLine]:
        """The lines of the console since it was read last."""
        lines = self.ask("POST", "/se/log", {"type": "browser"})
        return [LogLine(it["level"], it["message"]) for it in lines]

    def requests(self) -> list[str]:
        """The addresses that were asked for since they were read last, of a browser that notes
        them; a page that is opened is one."""
        events = [json.loads(it["message"])["message"]
                  for it in self.ask("POST", "/se/log", {"type": "performance"})]
        return [it["params"]["request"]["url"] for it in events
                if it["method"] == "Network.requestWillBeSent"]

    def command(self, name: str, **given: Any) -> dict[str, Any]:
        """A command of the browser's own protocol (Chrome DevTools)."""
        return self.ask("POST", "/goog/cdp/execute", {"cmd": name, "params": given})

    def thread_milliseconds(self) -> float:
        """The processor time of the page's thread until now; what it paints is in it."""
        self.command("Performance.enable")
        metrics = self.command("Performance.getMetrics")["metrics"]
        return 1000 * next(it["value"] for it in metrics if it["name"] == "ThreadTime")

    def resize(self, width: int, height: int) -> None:
        """Sets the size of the page that is seen, in CSS pixels."""
        self.command("Emulation.setDeviceMetricsOverride", width=width, height=height,
                     deviceScaleFactor=1, mobile=False)

    def prefer(self, **features: str) -> None:
        """Sets media features, as `prefers_color_scheme="dark"`."""
        named = [{"name": name.replace("_", "-"), "value": it} for name, it in features.items()]
        self.command("Emulation.setEmulatedMedia", features=named)

    def screenshot(self, path: Path) -> None:
        """Writes the whole page, with what is below the window, as a PNG as wide as the window. By
        itself the browser leaves out the bar to scroll by, and lays out the page without one."""
        width, height = self.run("return [innerWidth, document.scrollingElement.scrollHeight];")
        clip = {"x": 0, "y": 0, "width": width, "height": height, "scale": 1}
        shot = self.command("Page.captureScreenshot", format="png", captureBeyondViewport=True,
                            clip=clip)
        path.write_bytes(base64.b64decode(shot["data"]))


def page_address(path: Path, fragment: str = "") -> str:
    """The address of a file."""
    return path.absolute().as_uri() + (f"#{fragment}" if fragment else "")
