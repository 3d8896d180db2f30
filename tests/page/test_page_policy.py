"""What the page must not do: speak to anybody, run what was not in it, keep or tell a secret."""
from __future__ import annotations

import time
from urllib.parse import parse_qs

from ..support.library.call_cases import Chance
from ..support.page.browser import BACKSPACE, page_address
from ..support.page.page_case import PANELS, PageCase
from ..support.page.page_values import BASE, IKSN, upper
from ..support.standards.dukpt import serial_text
from ..support.system.sink import Sink

# The fields that an address may have: none of them has a key, a PIN or a PAN.
CHOICES = ("set-kind",)
LINKED = (*CHOICES, "set-ksn", "derive-ksn", "tree-ksn", "wrap-usage", "wrap-algorithm", "wrap-mode",
          "wrap-version", "wrap-exportability", "make-ksn", "make-amount")
# The fields that are typed into.
TYPED = """
return [...document.querySelectorAll(
  "input:not([type=radio], [type=range], [type=file]), textarea")]
  .map((it) => [it.id, it.value]);"""
# Each tries to reach an address, and tells whether it was refused.
SPEAK = {
    "fetch": "try { await fetch(there); return 'done'; } catch { return 'refused'; }",
    "XMLHttpRequest": """
        const it = new XMLHttpRequest();
        it.open("GET", there);
        return await new Promise((done) => {
          it.onload = () => done("done"); it.onerror = () => done("refused"); it.send(); });""",
    "WebSocket": """
        try {
          const it = new WebSocket(there.replace("http", "ws"));
          return await new Promise((done) => {
            it.onopen = () => done("done"); it.onerror = () => done("refused"); });
        } catch { return "refused"; }""",
    "EventSource": """
        const it = new EventSource(there);
        return await new Promise((done) => {
          it.onopen = () => done("done");
          it.onerror = () => { it.close(); done("refused"); }; });""",
    "beacon": """
        return await new Promise((done) => {
          addEventListener("securitypolicyviolation", () => done("refused"), { once: true });
          navigator.sendBeacon(there, "x"); setTimeout(() => done("done"), 1500); });""",
    "image": """
        return await new Promise((done) => {
          const it = new Image();
          it.onload = () => done("done"); it.onerror = () => done("refused");
          it.src = there; });""",
    "script": """
        return await new Promise((done) => {
          const it = document.createElement("script");
          it.onload = () => done("done"); it.onerror = () => done("refused");
          it.src = there; document.body.append(it); });""",
    "style": """
        return await new Promise((done) => {
          const it = document.createElement("link");
          Object.assign(it, { rel: "stylesheet", href: there });
          it.onload = () => done("done"); it.onerror = () => done("refused");
          document.head.append(it); });""",
    "frame": """
        return await new Promise((done) => {
          addEventListener("securitypolicyviolation", () => done("refused"), { once: true });
          const it = document.createElement("iframe");
          it.onload = () => setTimeout(() => done("done"), 500);
          it.src = there; document.body.append(it); });""",
    "form": """
        return await new Promise((done) => {
          addEventListener("securitypolicyviolation", () => done("refused"), { once: true });
          const inner = Object.assign(document.createElement("iframe"), { name: "inner" });
          const it = document.createElement("form");
          Object.assign(it, { action: there, target: "inner" });
          document.body.append(inner, it);
          it.submit(); setTimeout(() => done("done"), 1500); });""",
}
# Each tries to run a text, and tells whether that came to pass.
RUN = {
    "eval": "try { return (0, eval)('\"ran\"'); } catch { return 'refused'; }",
    "Function": "try { return new Function('return \"ran\"')(); } catch { return 'refused'; }",
    "timer": """
        window.ran = "refused"; try { setTimeout("window.ran = 'ran'", 0); } catch { }
        await new Promise((done) => setTimeout(done, 50)); return window.ran;""",
    "inline script": """
        window.ran = "refused"; const it = document.createElement("script");
        it.textContent = "window.ran = 'ran'"; document.body.append(it); return window.ran;""",
    "handler": """
        window.ran = "refused"; const it = document.createElement("b");
        it.setAttribute("onclick", "window.ran = 'ran'"); document.body.append(it); it.click();
        return window.ran;""",
    "script of a blob": """
        window.ran = "refused"; const it = document.createElement("script");
        it.src = URL.createObjectURL(new Blob(["window.ran = 'ran'"]));
        await new Promise((done) => { it.onload = it.onerror = done; document.body.append(it); });
        return window.ran;""",
    "inline style": """
        const it = document.createElement("b"); it.setAttribute("style", "width: 7px; float: left");
        document.body.append(it);
        return getComputedStyle(it).width === "7px" ? "ran" : "refused";""",
}
KEPT = """
const names = [];
try { names.push(...(await indexedDB.databases()).map((it) => it.name)); } catch { }
try { names.push(...await caches.keys()); } catch { }
const workers = navigator.serviceWorker
  ? await navigator.serviceWorker.getRegistrations().catch(() => []) : [];
return [localStorage.length, sessionStorage.length, document.cookie, names, workers.length,
  history.state];"""


class TestPolicy(PageCase):
    notes_requests = True

    def speak(self, sink: Sink) -> dict[str, str]:
        there = f"const there = 'http://{sink.address}/tried';"
        return {name: self.browser.run_async(there + way) for name, way in SPEAK.items()}

    def run_texts(self) -> dict[str, str]:
        # A job of its own: where a script of the driver begins, a text may be run.
        later = "await new Promise((done) => setTimeout(done));"
        return {name: self.browser.run_async(later + way) for name, way in RUN.items()}

    def test_refusals(self) -> None:
        """Each way to speak is refused, and to run a text; none of it reaches a listener."""
        with Sink() as sink:
            self.assertEqual(self.speak(sink), dict.fromkeys(SPEAK, "refused"))
            self.assertEqual(self.run_texts(), dict.fromkeys(RUN, "refused"))
            time.sleep(0.2)
            self.assertEqual(sink.seen, [])
            lines = self.browser.log()
            self.assertGreaterEqual(len(lines), len(SPEAK))
            self.check_without_policy(sink)

    def check_without_policy(self, sink: Sink) -> None:
        """In a page without a policy each of the ways comes through: so they are ways."""
        bare = self.folder() / "bare.html"
        bare.write_text("<!doctype html><title>bare</title><body>")
        self.browser.open(page_address(bare))
        spoken = self.speak(sink)
        # The listener speaks no WebSocket and no event stream, and has no image, script or style.
        done = "fetch", "XMLHttpRequest", "beacon", "frame", "form"
        self.assertEqual([spoken[it] for it in done], ["done"] * len(done))
        self.assertEqual(self.run_texts(), dict.fromkeys(RUN, "ran"))
        self.assertGreaterEqual(len(sink.seen), len(SPEAK))


class TestUse(PageCase):
    notes_requests = True

    def test_ordinary(self) -> None:
        """Use of all panels: no word on the console, no request, nothing kept."""
        for panel in PANELS:
            self.show(panel)
            for name in self.browser.run(
                    "return [...document.querySelectorAll(`#panel-${arguments[0]} :is(input:not("
                    "[type=file], [type=radio], [type=range]), textarea)`)].filter("
                    "(it) => it.checkVisibility() && it.maxLength < 0).map((it) => it.id);", panel):
                self.browser.element(f"#{name}").type("0" + BACKSPACE)
        self.show("tree")
        self.click("tree-take")
        self.show("block")
        self.click("wrap-random")
        self.browser.element("[data-copies=wrap-text]").click()
        self.click("link")
        self.browser.wait_until("return document.getElementById('said').textContent !== '';")
        self.assert_quiet()
        self.assertEqual(self.browser.run_async(KEPT), [0, 0, "", [], 0, None])
        asked = [it for it in self.browser.requests() if it != "about:blank"]
        self.assertEqual([it.split("#")[0] for it in asked], [page_address(self.path)])


class TestAddress(PageCase):
    """The fragment of the page's address."""

    def test_slider(self) -> None:
        """Many steps at once: no word on the console, and the address is that of the last one."""
        self.show("tree")
        self.set(tree_bdk=BASE, tree_ksn=serial_text(IKSN + 1))
        last = self.browser.run_async("""
            const slider = document.getElementById("tree-slider");
            for (let step = 1; step <= 400; step += 1) {
              slider.value = step * 2000;
              slider.dispatchEvent(new Event("input", { bubbles: true }));
              await new Promise((done) => requestAnimationFrame(() => setTimeout(done)));
            }
            return document.getElementById("tree-ksn").value;""")
        self.browser.wait_until("return location.hash.includes(arguments[0]);", last, seconds=20)
        self.assert_quiet()

    def test_fragment(self) -> None:
        """No key, PIN or PAN is ever in the address: of fields that follow the working set, and of
        those that do not."""
        self.check_fragments()
        self.open()
        self.unhook()
        self.check_fragments()

    def check_fragments(self) -> None:
        self.fill_secrets()
        fields = {name for name, _ in self.browser.run(TYPED)} | {""}
        texts = [it for it in self.browser.run(TYPED) if it[0] not in (*LINKED, "tree-place")]
        texts += self.browser.run(
            "return [...document.querySelectorAll('output')].map((it) => [it.id, it.textContent]);")
        for panel in PANELS:
            self.show(panel)
            time.sleep(0.3)
            address = self.browser.run("return location.href;")
            words = parse_qs(address.partition("#")[2])
            self.assertEqual(words.pop("panel"), [panel])
            for word in ("unhooked", "hooked"):
                self.assertLessEqual(set(words.pop(word, [""])[0].split(".")), fields)
            self.assertLessEqual(set(words), set(LINKED))
            for name, text in texts:
                if len(text) > 3:
                    self.assertNotIn(text.lower(), address.lower(), name)

    def test_pasted_key(self) -> None:
        """A key in the place of a number, or of a field of a header, is in no address."""
        key = upper(self.chance.randbytes(16))
        for name in LINKED[len(CHOICES) :]:
            self.show({"set": "derive", "wrap": "block", "make": "frame"}.get(
                name.split("-")[0], name.split("-")[0]))
            self.set(**{name: key})
            time.sleep(0.3)
            self.assertNotIn(key, self.browser.run("return location.href;").upper(), name)

    def fill_secrets(self) -> None:
        """Fills each field that may be secret with a value of its kind."""
        chance = Chance(self.chance)
        pins, pans = iter(chance.digits(10, range(8, 13))), iter(chance.pans(10))
        for name, _ in self.browser.run(TYPED):
            if name.endswith("-pin"):
                self.set(**{name: next(pins)})
            elif name.endswith("-pan"):
                self.set(**{name: next(pans)})
            elif name not in (*LINKED, "tree-place"):
                self.set(**{name: upper(chance.keys(1)[0])})

    def test_links(self) -> None:
        """An address brings its panel and numbers, and nothing else of what it names."""
        key = upper(self.chance.randbytes(16))
        serial = serial_text(IKSN + 0x1FF)
        self.open(f"panel=mac&derive-ksn={serial}&derive-bdk={key}&mac-key={key}&make-amount=77"
                  "&wrap-usage=K0&pin-pin=9999&make-ksn=zz")
        self.assertEqual(self.browser.element("#tab-mac").attribute("aria-selected"), "true")
        self.assertEqual(self.value("derive-ksn"), serial)
        self.assertEqual(self.value("make-amount"), "77")
        self.assertEqual(self.value("wrap-usage"), "K0")
        for name in ("derive-bdk", "mac-key", "pin-pin"):
            self.assertNotIn(self.value(name), (key, "9999"))
        self.assertNotEqual(self.value("make-ksn"), "zz")
        self.browser.run("location.hash = arguments[0];", f"panel=tree&tree-ksn={serial}")
        self.browser.wait_until(
            "return document.getElementById('tree-ksn').value === arguments[0];", serial,
            seconds=20)
        self.assertEqual(self.browser.element("#tab-tree").attribute("aria-selected"), "true")
        for fragment in ("panel=nothing", "panel=constructor", "%", "panel=%3Cimg%20src%3Dx%3E",
                         "&&==&=", "panel=derive&derive-ksn=%3Cb%3E", "derive-ksn=" + "0" * 5000):
            self.open(fragment)
            self.assertEqual(self.browser.run(
                "return document.querySelectorAll('[role=tabpanel]:not([hidden])').length;"), 1)
        self.assert_quiet()
