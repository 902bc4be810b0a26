"""The page of `report` as a person uses it: a real browser, real events of mouse and keys. Run by desk/test_pages.

After each test nothing stands on the console, and nothing was asked of anybody but the page itself.
"""
from __future__ import annotations

import base64
import json
import os
import re
import struct
import tempfile
import time
import unittest
import zlib
from pathlib import Path

from selenium import webdriver
from selenium.webdriver.chrome.service import Service
from selenium.webdriver.common.action_chains import ActionChains
from selenium.webdriver.common.by import By
from selenium.webdriver.common.keys import Keys
from selenium.webdriver.support.color import Color

from deltawobble import calls
from deltawobble.bits import ticks
from deltawobble.files import read
from deltawobble.netlist import Netlist
from deltawobble.runs import recorded

from .support import EXAMPLES, command

#: how long a large page may take to open, and a scrolled wave to be drawn, in milliseconds
OPEN, DRAW = 2000, 250


def chrome() -> webdriver.Chrome:
    options = webdriver.ChromeOptions()
    for word in ("--headless=new", "--disable-gpu", "--window-size=1400,1000", "--hide-scrollbars") + (("--no-sandbox",) if os.geteuid() == 0 else ()):
        options.add_argument(word)
    options.binary_location = "/usr/bin/chromium"
    options.set_capability("goog:loggingPrefs", {"browser": "ALL", "performance": "ALL"})
    return webdriver.Chrome(service=Service("/usr/bin/chromedriver"), options=options)


def pixels(png: bytes) -> list[list[tuple[int, int, int]]]:
    """The rows of a PNG of 8 bits a colour, as a browser's screenshots are."""
    wide, high, depth, kind = struct.unpack(">IIBB", png[16:26])
    assert depth == 8 and kind in (2, 6)
    size, at, data = 3 if kind == 2 else 4, 8, b""
    while at < len(png):
        length, name = struct.unpack(">I4s", png[at:at + 8])
        data += png[at + 8:at + 8 + length] if name == b"IDAT" else b""
        at += length + 12
    raw, before, rows = zlib.decompress(data), bytearray(wide * size), []
    for y in range(high):
        line = bytearray(raw[y * (wide * size + 1) + 1:(y + 1) * (wide * size + 1)])
        unfiltered(raw[y * (wide * size + 1)], line, before, size)
        rows.append([tuple(line[i:i + 3]) for i in range(0, len(line), size)])
        before = line
    return rows


def unfiltered(how: int, line: bytearray, before: bytearray, size: int) -> None:
    for i in range(len(line)):
        left = line[i - size] if i >= size else 0
        corner = before[i - size] if i >= size else 0
        line[i] = (line[i] + (0, left, before[i], (left + before[i]) // 2, nearest(left, before[i], corner))[how]) & 255


def nearest(a: int, b: int, c: int) -> int:
    p = a + b - c
    return min((abs(p - a), 0, a), (abs(p - b), 1, b), (abs(p - c), 2, c))[2]


class Browser(unittest.TestCase):
    """One browser for all tests of a class, and a folder for its pages."""

    @classmethod
    def setUpClass(cls):
        cls.driver = chrome()
        cls.addClassCleanup(cls.driver.quit)
        cls.folder = tempfile.TemporaryDirectory()
        cls.addClassCleanup(cls.folder.cleanup)

    def opened(self, *words: str, status: int = 0) -> str:
        """Makes a page and opens it."""
        page = str(Path(self.folder.name) / "page.html")
        self.assertEqual(command("report", *words, "-o", page)[0], status)
        self.quiet()
        self.driver.get(Path(page).as_uri())
        self.assertEqual(self.driver.find_element(By.TAG_NAME, "body").get_attribute("data-ready"), "yes")
        return page

    def tearDown(self):
        said, asked = self.quiet()
        self.assertEqual(said, [], "the console is empty")
        self.assertEqual([url for url in asked if not url.startswith("file://" + self.folder.name)], [], "nothing is asked of anybody")

    def quiet(self) -> tuple[list, list[str]]:
        """What has been said on the console and asked for since the last time."""
        said = self.driver.get_log("browser")
        events = [json.loads(entry["message"])["message"] for entry in self.driver.get_log("performance")]
        return said, [e["params"]["request"]["url"] for e in events if e["method"] == "Network.requestWillBeSent"]

    def one(self, selector: str):
        return self.driver.find_element(By.CSS_SELECTOR, selector)

    def all(self, selector: str):
        return self.driver.find_elements(By.CSS_SELECTOR, selector)

    def texts(self, selector: str) -> list[str]:
        return [e.text for e in self.all(selector)]

    def point(self, element, x: int = 0, y: int = 0) -> None:
        ActionChains(self.driver).move_to_element_with_offset(element, x, y).perform()

    def press(self, *keys: str) -> None:
        ActionChains(self.driver).send_keys(*keys).perform()

    def word(self, text: str, number: int = 0):
        return [w for w in self.all("#text .word") if w.text == text][number]

    def marked_gates(self, look: str = "marked") -> list[str]:
        return sorted(g.get_attribute("class").split()[1] for g in self.all("#picture svg:not([hidden]) .gate.%s" % look))

    def scheme(self, which: str) -> None:
        self.driver.execute_cdp_cmd("Emulation.setEmulatedMedia", {"features": [{"name": "prefers-color-scheme", "value": which}]})

    def shot(self, name: str) -> bytes:
        data = self.driver.get_screenshot_as_png()
        if os.environ.get("KEEP"):
            (Path(os.environ["KEEP"]) / (name + ".png")).write_bytes(data)
        return data


class Joined(Browser):
    """Text, picture and waves of examples/sticky.dw, and of others with boxes."""

    def sticky(self) -> None:
        self.opened(str(EXAMPLES / "sticky.dw"), str(EXAMPLES / "sticky.trace"))

    def test_what_is_on_it(self):
        self.sticky()
        self.assertEqual(self.texts("#text .line")[3].split(None, 1)[1], "main = fun x : 1. fun y : 1. sticky (xor (x, y))")
        self.assertIn("17 of 2,048 nodes", self.texts("#counts li"))
        self.assertIn("profile holds", self.one("#verdict").text)
        self.assertEqual(self.texts("#waves .names div"), ["tick 0", "", "x", "y", "out", "reg 11"])
        self.one("#more summary").click()
        self.assertEqual(self.one("#more pre").text.strip(), calls.verilog(read(str(EXAMPLES / "sticky.dw")).bytes).strip())

    def test_a_gate_marks_its_word_and_its_wave(self):
        self.sticky()
        for gate, word, wave in (("xor", "xor", "xor"), ("or", "or", "out"), ("reg", "reg", "reg 11")):
            self.point(self.one("#whole .gate.%s" % gate))
            self.assertEqual([w for w in self.texts("#text .word.marked") if w in ("xor", "or", "reg")], [word])
            self.assertEqual(self.texts("#waves .names .marked"), [wave])
            self.assertEqual(self.marked_gates(), [gate])
            self.assertTrue(self.all("#whole .net.marked"))

    def test_a_word_marks_its_gates(self):
        self.sticky()
        self.point(self.word("xor"))
        self.assertEqual(self.marked_gates(), ["xor"])
        self.point(self.word("sticky", 1))
        self.assertEqual((self.marked_gates(), self.marked_gates("way")), ([], ["or", "reg"]))
        self.point(self.word("set", 0))
        self.assertEqual({n.get_attribute("data-net") for n in self.all("#whole .net.marked")}, {self.one("#whole .gate.xor").get_attribute("data-out")})

    def test_a_word_marks_its_gates_by_keyboard(self):
        self.sticky()
        self.one("#text .scroll").click()
        seen = []
        for _ in range(len(self.all("#text .word"))):
            self.press(Keys.TAB)
            seen.append((self.driver.switch_to.active_element.text, tuple(self.marked_gates()), tuple(self.marked_gates("way"))))
        self.assertIn(("xor", ("xor",), ()), seen)
        self.assertIn(("sticky", (), ("or", "reg")), seen)

    def test_gates_by_keyboard(self):
        self.sticky()
        self.driver.execute_script("document.querySelector('#picture .view').focus()")
        seen = []
        for _ in range(5):
            self.press(Keys.TAB)
            seen.append((self.driver.switch_to.active_element.get_attribute("aria-label"), self.texts("#waves .names .marked")))
        self.assertIn(("xor", ["xor"]), seen)
        self.assertIn(("or s", ["out"]), seen)
        self.assertIn(("reg", ["reg 11"]), seen)

    def coloured(self) -> dict[int, int]:
        found = {}
        for net in self.all("#whole .net"):
            words = net.get_attribute("class").split()
            self.assertEqual(("one" in words) + ("zero" in words), 1)
            found[int(net.get_attribute("data-net"))] = int("one" in words)
        return found

    def test_the_cursor_colours_the_wires(self):
        for name in ("sticky", "accumulator"):
            self.opened(str(EXAMPLES / (name + ".dw")), str(EXAMPLES / (name + ".trace")))
            source = read(str(EXAMPLES / (name + ".dw")))
            lean = Netlist.parse(calls.translate(source.bytes, lean=True))
            ran, starts = recorded(source, lean, str(EXAMPLES / (name + ".trace")))
            wanted = [list(inside.bits) for inside in ticks(lean, starts, ran.rows)]
            track = self.one("#waves .track")
            wide = float(self.driver.execute_script("return parseFloat(document.querySelector('.length').style.width)")) / len(wanted)
            self.point(track, int(3.5 * wide - track.size["width"] / 2), 5)
            ActionChains(self.driver).click().perform()
            for tick, key in ((3, Keys.ARROW_RIGHT), (4, Keys.ARROW_RIGHT), (5, Keys.ARROW_LEFT), (4, Keys.END), (len(wanted) - 1, Keys.HOME), (0, None)):
                self.assertEqual((track.get_attribute("aria-valuenow"), self.one("#waves .names div").text), (str(tick), "tick %d" % tick))
                for net, bit in self.coloured().items():
                    self.assertEqual(bit, wanted[tick][net], (name, tick, net))
                if key:
                    self.press(key)

    def test_boxes_open_by_a_click_and_by_a_key(self):
        self.opened(str(EXAMPLES / "bitonic-sorter-8.dw"))
        self.all("#picture .tools button")[-1].click()
        self.assertEqual((self.all("#closed .gate"), len(self.all("#closed .box.closed"))), ([], 3))
        self.one("#closed .box[data-name=merge_inc3] rect").click()
        outer = {b.get_attribute("data-name"): b.get_attribute("aria-expanded") for b in self.all("#whole > .box")}
        self.assertEqual(outer, {"merge_inc3": "true", "sort_inc2": "false", "sort_dec2": "false"})
        self.assertTrue(self.one("#whole .box[data-name=merge_inc3] .gate").is_displayed())
        self.assertFalse(self.one("#whole .box[data-name=sort_inc2] .gate").is_displayed())
        self.press(Keys.ENTER)
        self.assertEqual(self.one("#whole > .box[data-name=merge_inc3]").get_attribute("aria-expanded"), "false")
        self.press(Keys.SPACE)
        self.assertEqual(self.one("#whole > .box[data-name=merge_inc3]").get_attribute("aria-expanded"), "true")

    def test_a_word_marks_the_closed_box_that_its_gates_are_in(self):
        self.opened(str(EXAMPLES / "bitonic-sorter-8.dw"))
        self.all("#picture .tools button")[-1].click()
        word = self.word("sort_dec2", -1)
        self.driver.execute_script("arguments[0].scrollIntoView({block: 'center'})", word)
        self.point(word)
        self.assertEqual([b.get_attribute("data-name") for b in self.all("#closed .box.marked")], ["sort_dec2"])

    def view(self) -> list[float]:
        return [float(x) for x in self.one("#picture svg:not([hidden])").get_dom_attribute("viewBox").split()]

    def test_zoom_and_pan(self):
        self.sticky()
        whole, panel = self.view(), self.one("#picture .view")
        ActionChains(self.driver).move_to_element_with_offset(panel, 0, 150).click_and_hold().move_by_offset(60, 30).release().perform()
        self.assertLess(self.view()[0], whole[0])
        self.press("+")
        self.assertAlmostEqual(self.view()[2], whole[2] * 0.8, 2)
        self.press(Keys.ARROW_RIGHT)
        before = self.view()
        ActionChains(self.driver).scroll_from_origin(webdriver.common.actions.wheel_input.ScrollOrigin.from_element(panel), 0, 120).perform()
        self.assertGreater(self.view()[2], before[2])
        self.press("0")
        self.assertEqual(self.view(), whole)

    def test_bytes_have_their_term(self):
        self.opened(str(EXAMPLES / "P3.hex"))
        self.assertEqual(self.one("#text h2").text, "Term, by nodes")
        self.point(self.one("#whole .gate.reg"))
        self.assertIn("reg", self.texts("#text .word.marked"))


class Refused(Browser):
    def test_a_refusal_stands_at_its_place(self):
        path = Path(self.folder.name) / "bad.dw"
        path.write_text((EXAMPLES / "sticky.dw").read_text().replace("xor (x, y)", "x, y"))
        self.opened(str(path), status=1)
        self.assertEqual(self.texts("#text .fault"), ["sticky"])
        self.assertIn("wants 1, and gets 1 * 1", self.one("#refusal pre").text)
        self.assertEqual(self.texts("#refusal .fault"), ["apply"])
        self.assertTrue(self.one("#verdict").text.startswith("refused 12 at node 2"))
        self.assertFalse(self.one("#picture").is_displayed())
        for name, fault in (("P8", ["f"]), ("fault-cut", ["1A"]), ("fault-kind", None)):
            self.opened(str(EXAMPLES / (name + ".hex")), status=1)
            self.assertEqual(len(self.all("#text .fault")), 1)
            if fault:
                self.assertEqual([t.strip() for t in self.texts("#text .fault")], fault)

    def test_a_run_that_is_refused(self):
        path, trace = Path(self.folder.name) / "ring.dw", Path(self.folder.name) / "ring.trace"
        path.write_text("main = fun x : 1. fix s : 1. and x s\n")
        trace.write_text("0\n1\n")
        self.opened(str(path), str(trace), status=1)
        self.assertIn("refused 19", self.one("#waves .fault").text)
        self.assertTrue(self.one("#whole .gate.and").is_displayed())


class Text(Browser):
    """Names from anywhere are text."""

    def test_markup_in_names_is_text(self):
        name = "<img src=x onerror=alert(1)>\"'&amp;<svg onload=alert(2)>\u202edw"
        sheet, trace = Path(self.folder.name) / (name + ".dw"), Path(self.folder.name) / (name + ".trace")
        comment = "-- </script><script>alert(3)</script> <b>\"'` \u202eabc\u2066 <!-- ]]>"
        sheet.write_text(comment + "\nmain = fun x : 1. inv x\n")
        trace.write_text("1\n0\n")
        self.opened(str(sheet), str(trace))
        shown = name.replace("\u202e", "\\u202E")
        self.assertEqual((self.one("h1").text, self.driver.title), (shown, shown))
        self.assertEqual(self.texts("#text .line .said")[0], comment.replace("\u202e", "\\u202E").replace("\u2066", "\\u2066"))
        self.assertIn(shown, self.one("#waves select").text)
        self.assertEqual((len(self.all("script")), self.all("img"), len(self.all("svg")), self.all("b")), (2, [], 1, []))

    def test_the_policy_lets_nothing_in(self):
        page = self.opened(str(EXAMPLES / "sticky.dw"))
        policy = re.search(r'Content-Security-Policy" content="([^"]*)"', Path(page).read_text())[1]
        rules = dict(rule.strip().split(" ", 1) for rule in policy.split(";"))
        self.assertEqual((rules.pop("default-src"), rules.pop("base-uri"), rules.pop("form-action")), ("'none'",) * 3)
        for rule in ("script-src", "style-src"):
            self.assertRegex(rules.pop(rule), r"^'sha256-[A-Za-z0-9+/]{43}='$")
        self.assertEqual(rules, {})
        blocked = self.driver.execute_async_script("""
            const done = arguments[0], seen = [];
            document.addEventListener("securitypolicyviolation", (e) => { seen.push(e.effectiveDirective); if (seen.length === 3) done(seen); });
            const script = document.createElement("script"); script.textContent = "document.title = 'taken'"; document.body.append(script);
            const style = document.createElement("style"); style.textContent = "body { display: none }"; document.body.append(style);
            const image = document.createElement("img"); image.src = "data:image/gif;base64,R0lGODlhAQABAAAAACw="; document.body.append(image);""")
        self.assertEqual(sorted(blocked), ["img-src", "script-src-elem", "style-src-elem"])
        self.assertEqual(self.driver.title, "sticky")
        # these three were asked for by the test, and each is refused on the console
        said = self.driver.get_log("browser")
        self.assertEqual((len(said), all("Content Security Policy" in s["message"] for s in said)), (3, True))
        self.driver.get_log("performance")


class Seen(Browser):
    """Screenshots against what the DOM says is marked, in both colour schemes."""

    def colour(self, element, name: str) -> tuple[int, int, int]:
        word = Color.from_string(element.value_of_css_property(name))
        return word.red, word.green, word.blue

    def seen(self, element) -> list[tuple[int, int, int]]:
        """The pixels at an element's place."""
        box = self.driver.execute_script("const r = arguments[0].getBoundingClientRect(); return [r.left, r.top, r.width, r.height]", element)
        clip = dict(zip(("x", "y", "width", "height"), box), scale=1)
        shot = self.driver.execute_cdp_cmd("Page.captureScreenshot", {"format": "png", "clip": clip})
        return [pixel for row in pixels(base64.b64decode(shot["data"])) for pixel in row]

    def share(self, element, wanted: tuple[int, int, int]) -> float:
        """How much of an element's place has a colour."""
        inside = self.seen(element)
        return sum(all(abs(a - b) <= 3 for a, b in zip(pixel, wanted)) for pixel in inside) / len(inside)

    def test_what_is_marked_is_seen(self):
        self.opened(str(EXAMPLES / "sticky.dw"), str(EXAMPLES / "sticky.trace"))
        papers = []
        for which in ("light", "dark"):
            self.scheme(which)
            self.point(self.one("h1"))
            self.point(self.word("reg"))
            gate, other = self.one("#whole .gate.xor"), self.one("#whole .gate.or")
            plain, plain_other = self.seen(gate), self.seen(other)
            self.point(gate)
            self.shot("marked-" + which)
            self.assertEqual((self.marked_gates(), [w.text for w in self.all("#text .word.marked") if w.text in ("xor", "or", "reg")]), (["xor"], ["xor"]))
            mark = self.colour(self.word("xor"), "background-color")
            self.assertGreater(self.share(self.word("xor"), mark), 0.3)
            self.assertLess(self.share(self.word("or"), mark), 0.01)
            self.assertGreater(self.share(self.one("#waves .names .marked"), mark), 0.3)
            changed = [sum(a != b for a, b in zip(before, self.seen(shape))) / len(before) for before, shape in ((plain, gate), (plain_other, other))]
            self.assertGreater(changed[0], 0.3)
            self.assertLess(changed[1], 0.1)
            papers.append(self.colour(self.one("body"), "background-color"))
            self.assertGreater(self.share(self.one("#waves canvas"), self.colour(self.one("body"), "color")), 0.002, "waves are drawn in the scheme's ink")
            self.assertGreater(self.share(self.one("#picture h2"), self.colour(self.one("section"), "background-color")), 0.5)
        self.assertGreater(sum(papers[0]), 700)
        self.assertLess(sum(papers[1]), 150)

    def test_ones_and_zeros_are_told_apart_in_grey(self):
        """A wire with 1 is wider than one with 0, whatever its colour."""
        self.opened(str(EXAMPLES / "sticky.dw"), str(EXAMPLES / "sticky.trace"))
        self.one("#waves .track").send_keys(Keys.END)
        wide = {look: {float(w.value_of_css_property("stroke-width").removesuffix("px")) for w in self.all("#whole .net.%s .wire" % look)} for look in ("one", "zero")}
        self.assertGreater(min(wide["one"]), 2 * max(wide["zero"]))


def large_text() -> str:
    """A sheet of 2,047 nodes and 1,024 parts, the most that there can be, with an input: an xor that waits for its second bit, and under it 32
    chains of registers and inverters, joined by a tree of xor."""
    def tree(chains: int) -> str:
        if chains == 1:
            return "".join(("reg" if i % 3 else "inv") + " (" for i in range(30)) + "zero" + ")" * 30
        return "xor (%s) (%s)" % (tree(chains // 2), tree(chains // 2))

    return "main = xor (%s)\n" % tree(32)


class Large(Browser):
    def test_a_large_sheet_opens_in_two_seconds(self):
        sheet, trace = Path(self.folder.name) / "large.dw", Path(self.folder.name) / "large.trace"
        sheet.write_text(large_text())
        lean = Netlist.parse(calls.translate(read(str(sheet)).bytes, lean=True))
        self.assertEqual((len(lean.parts), len(lean.input_pins)), (1024, 1))
        trace.write_text("".join("%d\n" % (i * i // 7 & 1) for i in range(65535)))
        start = time.monotonic()
        self.opened(str(sheet), str(trace))
        opened = self.driver.execute_script("""
            const found = performance.getEntriesByType("navigation")[0]; return found.domContentLoadedEventEnd""")
        print("large page: made and opened in %.1f s; open after %d ms" % (time.monotonic() - start, opened))
        self.assertLess(opened, OPEN)
        slowest = 0.0
        for place in (0.1, 0.5, 0.51, 0.99, 0.2):
            took = self.driver.execute_async_script("""
                const done = arguments[1], track = document.querySelector("#waves .track"), begun = performance.now();
                track.scrollLeft = arguments[0] * track.scrollWidth;
                requestAnimationFrame(() => requestAnimationFrame(() => done(performance.now() - begun)));""", place)
            slowest = max(slowest, took)
        first, last = (int(n) for n in self.one("body").get_attribute("data-painted").split("-"))
        self.assertLess(last - first, 400, "waves are drawn for what is seen")
        self.assertTrue(0.19 * 65535 < first < 0.21 * 65535)
        print("slowest scroll: %d ms" % slowest)
        self.assertLess(slowest, DRAW)
        self.one("#waves .track").send_keys(Keys.END)
        self.assertEqual(self.one("#waves .track").get_attribute("aria-valuenow"), "65534")
        self.shot("large")
