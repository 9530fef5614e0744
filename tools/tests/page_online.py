"""The page of tools/online in headless Chromium, by selenium: tools/tests/browser.sh runs it.

    page_online.py [--picture FILE]

With --picture it makes the picture of README instead.
"""

import os
import re
import signal
import subprocess
import sys
import time
import unittest

from common import TOP
from png import smaller

from selenium import webdriver
from selenium.webdriver.common.by import By
from selenium.webdriver.common.keys import Keys
from selenium.webdriver.support.ui import Select

CONVEYOR = f"{TOP}/examples/conveyor/project.json"
PATIENCE = 60


def browser(width=1400, height=1000):
    options = webdriver.ChromeOptions()
    for word in ("--headless=new", "--no-sandbox", "--disable-gpu", "--disable-dev-shm-usage", "--hide-scrollbars", f"--window-size={width},{height}"):
        options.add_argument(word)
    options.set_capability("goog:loggingPrefs", {"browser": "ALL"})
    return webdriver.Chrome(options=options, service=webdriver.ChromeService("/usr/bin/chromedriver") if hasattr(webdriver, "ChromeService") else
                            __import__("selenium.webdriver.chrome.service", fromlist=["Service"]).Service("/usr/bin/chromedriver"))


class Online:
    """tools/online as a process."""

    def __init__(self, *words):
        self.process = subprocess.Popen([f"{TOP}/tools/online", *words], stdout=subprocess.PIPE)
        self.address = self.process.stdout.readline().decode().strip()

    def end(self):
        self.process.send_signal(signal.SIGINT)
        self.process.wait(20)
        self.process.stdout.close()


class Page:
    """What one does with the page."""

    def __init__(self, driver, address):
        self.driver = driver
        driver.get(address)
        self.wait(lambda: self.script("return window.online && online.now() && document.querySelectorAll('.rung svg').length > 0"))

    def script(self, text, *words):
        return self.driver.execute_script(text, *words)

    def wait(self, holds, what="that"):
        end = time.monotonic() + PATIENCE
        while not holds():
            if time.monotonic() > end:
                raise AssertionError(f"not within {PATIENCE} s: {what}")
            time.sleep(0.02)

    def settled(self):
        self.wait(lambda: self.script("return online.waiting() === 0"), "an answer")

    def find(self, css):
        return self.driver.find_element(By.CSS_SELECTOR, css)

    def click(self, css):
        self.wait(lambda: self.find(css).is_enabled(), f"{css} can be clicked")
        self.script("arguments[0].scrollIntoView({block: 'nearest'})", self.find(css))
        self.find(css).click()
        self.settled()

    def type(self, css, text):
        field = self.find(css)
        field.clear()
        field.send_keys(text)

    def key(self, key):
        self.driver.switch_to.active_element.send_keys(key)
        self.settled()

    def now(self, field):
        return self.script("return online.now()[arguments[0]]", field)

    def value(self, name):
        return self.script("return online.values().get(arguments[0].toLowerCase())", name)

    def text(self, css):
        return self.find(css).text

    def is_on(self, rung, at=0):
        """Whether an instruction is green."""
        return self.script("return document.querySelectorAll('.rung')[arguments[0]].querySelectorAll('g.instruction')[arguments[1]].classList.contains('on')", rung, at)

    def marks(self):
        return self.script("return [...document.querySelectorAll('.rung .mark')].map((each) => each.textContent)")

    def shown(self, css):
        return self.find(css).is_displayed()

    def draft(self, button, rung, text):
        """A pending edit of a rung."""
        self.script("document.querySelectorAll('.rung')[arguments[0]].focus()", rung)
        self.click(button)
        if text is not None:
            self.type("#text", text)
            self.click("#editor button")
        self.settled()

    def stop(self, place, kind, value=0):
        Select(self.find("#stop-kind")).select_by_value(kind) if kind in ("fault", "overlap") else Select(self.find("#stop-kind")).select_by_visible_text(kind)
        self.type("#stop-place", place)
        self.type("#stop-value", str(value))
        self.click("#stop button")

    def started(self):
        """Run mode, the stop button closed, the start button pressed."""
        self.click("#run")
        self.click("[data-bit='In1.1.1']")
        self.click("[data-bit='In1.1.0']")
        return self


class PageTest(unittest.TestCase):
    words = (CONVEYOR,)

    @classmethod
    def setUpClass(cls):
        cls.driver = browser()

    @classmethod
    def tearDownClass(cls):
        cls.driver.quit()

    def setUp(self):
        self.online = Online(*self.words)
        self.addCleanup(self.online.end)
        self.page = Page(self.driver, self.online.address)

    def tearDown(self):
        told = [entry for entry in self.driver.get_log("browser") if "net::ERR" not in entry["message"] and "503" not in entry["message"]]
        self.assertEqual(told, [])


class Runs(PageTest):
    def test_play_toggle_to_green_and_back(self):
        page = self.page
        page.click("#run")
        page.click("[data-bit='In1.1.1']")
        page.click("#play")
        self.assertFalse(page.is_on(0, 3))
        page.click("[data-bit='In1.1.0']")
        page.wait(lambda: page.is_on(0, 3), "Run is green")
        page.wait(lambda: page.value("Motor") == 1, "Motor")
        self.assertEqual(page.find("[data-bit='In1.1.0']").get_attribute("aria-pressed"), "true")
        # Trend and lines go on while it plays.
        page.click("[data-bit='In1.1.2']")
        lines, trend = page.text("#lines"), page.find("#trend").get_attribute("innerHTML")
        page.click("[data-bit='In1.1.2']")
        page.wait(lambda: page.text("#lines") != lines and page.find("#trend").get_attribute("innerHTML") != trend, "lines and trend go on")
        page.click("#play")
        page.wait(lambda: not page.now("playing"), "it pauses")
        page.click("[data-key='back Motor']")
        page.wait(lambda: page.shown("#past-note") and page.value("Motor") == 1, "back at the change")
        page.wait(lambda: "Conveyor/Main rung 3" in page.text("#uses"), "who wrote it")
        page.click("#back")
        page.wait(lambda: page.value("Motor") == 0, "an event before")
        page.click("#check")
        page.wait(lambda: "the same" in page.text("#note"), "replay")

    def test_cut_and_restore(self):
        page = self.page.started()
        page.click("#scan")
        page.click("#scan")
        page.wait(lambda: page.now("versions"), "scans")
        length = page.now("length")
        page.click("#back-scan")
        page.wait(lambda: page.now("at") < length, "back")
        page.click("#cpu")
        page.wait(lambda: page.now("length") < length, "the rest is dropped")
        page.click("#restore")
        page.wait(lambda: page.now("length") == length, "it is put back")
        page.click("#last")
        page.wait(lambda: page.now("at") == length, "the end")

    def test_stops(self):
        page = self.page.started()
        page.stop("HornT.ACC", ">=", 12)
        page.stop("", "fault")
        self.assertEqual(len(page.driver.find_elements(By.CSS_SELECTOR, ".chip")), 2)
        page.click("#until")
        page.wait(lambda: page.value("HornT.ACC") == 12, "the stop")
        page.click(".chip button")
        page.wait(lambda: len(page.now("stops")) == 1, "one stop less")
        page.click(".chip button")
        page.wait(lambda: page.now("stops") == [], "no stop")

    def test_slider_and_lines_lead_to_places(self):
        page = self.page.started()
        page.click("#scan")
        page.script("const s = document.getElementById('scrub'); s.value = 2; s.dispatchEvent(new Event('change'))")
        page.settled()
        page.wait(lambda: page.now("at") == 2, "the slider's place")
        page.click("#last")
        at = int(page.find("#lines button").get_attribute("data-at"))
        page.script("document.querySelector('#lines button').click()")
        page.wait(lambda: page.now("at") == at, "the line's place")

    def test_keys(self):
        page = self.page
        page.click("#run")
        page.script("document.querySelector('.rung').focus()")
        at = page.now("at")
        page.key(".")
        page.wait(lambda: page.now("at") == at + 1, "a step")
        page.key("t")
        page.wait(lambda: page.now("tick") == 1, "a tick")
        page.key(",")
        page.wait(lambda: page.now("at") == at + 1, "a step back")
        page.key(Keys.ARROW_DOWN)
        self.assertEqual(page.script("return [...document.querySelectorAll('.rung')].indexOf(document.activeElement)"), 1)
        page.key("e")
        self.assertEqual(page.script("return document.activeElement.id"), "text")
        page.key(Keys.ESCAPE)
        self.assertFalse(page.shown("#editor"))
        page.key(" ")
        page.wait(lambda: page.now("playing"), "it plays")
        page.key(" ")
        page.wait(lambda: not page.now("playing"), "it pauses")

    def test_focus_stays(self):
        page = self.page.started()
        page.click("#play")
        for css in ("#add-place", "[data-key='trend Run']", ".rung", "#lane"):
            page.script("document.querySelector(arguments[0]).focus()", css)
            told = page.script("return document.activeElement.outerHTML.slice(0, 60)")
            time.sleep(0.3)
            self.assertEqual(page.script("return document.activeElement.outerHTML.slice(0, 60)"), told, css)
        page.script("document.querySelector(\"[data-key='trend Motor']\").focus()")
        page.key(Keys.ENTER)  # the panel is drawn anew
        page.wait(lambda: page.script("return document.activeElement.dataset.key") == "trend Motor", "the focus is where it was")

    def test_too_fast(self):
        page = self.page.started()
        page.type("#speed", "10000")
        page.click("#play")
        page.wait(lambda: page.now("length") > 100_000, "it plays as fast as it can")
        page.click("#play")
        page.wait(lambda: not page.now("playing"), "it pauses")


class Edits(PageTest):
    def test_all_letters(self):
        page = self.page.started()
        page.draft("#edit", 0, "XIC(StopPB)OTE(Run);")
        self.assertEqual(page.marks()[:2], ["i", "r"])
        page.draft("#delete", 3, None)
        page.draft("#insert", 5, "xic(Eye) MOV(Total,Last);")
        self.assertEqual([mark for mark in page.marks() if mark], ["i", "r", "d", "i"])
        page.click("#verify")
        page.wait(lambda: "answered ok" in page.text("#note"), "verified")
        page.click("#accept")
        page.wait(lambda: [mark for mark in page.marks() if mark] == ["I", "R", "D", "I"], "accepted")
        self.assertIn("accepted by lane 1, not tested", page.text("#edited"))
        page.click("#test")
        page.wait(lambda: "tested now" in page.text("#edited"), "tested")
        page.click("#untest")
        page.click("#test")
        page.click("#assemble")
        page.wait(lambda: not any(page.marks()), "assembled")
        self.assertIn("XIC(StopPB)OTE(Run);", page.find(".rung").get_attribute("aria-label"))

    def test_refusals_show_their_place(self):
        page = self.page
        page.draft("#edit", 0, "XIC(StopPB)OTX(Run);")
        page.click("#accept")
        self.assertEqual(page.find("#fault pre").get_attribute("textContent"), "XIC(StopPB)OTX(Run);\n" + " " * 11 + "▲")
        self.assertIn("E7", page.text("#fault"))
        page.click("#cancel")
        page.draft("#edit", 2, "XIC(Run)XIC(Nobody)OTE(Horn);")
        page.click("#accept")
        self.assertEqual(page.script("return [...document.querySelectorAll('.rung')].map((rung) => [...rung.querySelectorAll('g.instruction')].findIndex((each) => each.classList.contains('wrong')))"),
                         [-1, -1, 1, -1, -1, -1])
        self.assertIn("C4", page.text("#fault"))

    def test_forces(self):
        page = self.page.started()
        Select(page.find("[data-key='force Horn']")).select_by_visible_text("on")
        page.settled()
        page.wait(lambda: page.now("forces") == [["out1", 0, 2, 2]], "a force")
        page.script("document.querySelector('#io details:last-child').open = true")
        page.click("[data-key='force enable']")
        page.wait(lambda: "FORCED" in page.text("#io"), "enabled")
        page.click("[data-key='force remove']")
        page.wait(lambda: page.now("forces") == [], "removed")


class Ends(PageTest):
    def test_a_process_that_is_killed(self):
        page = self.page.started()
        child = subprocess.run(["ps", "--ppid", str(self.online.process.pid), "-o", "pid="], stdout=subprocess.PIPE, check=True).stdout.split()[0]
        os.kill(int(child), signal.SIGKILL)
        page.click("#cpu")
        page.wait(lambda: page.shown("#lost"), "the red line")
        self.assertIn("by signal 9", page.text("#lost"))
        page.click("#again")
        page.wait(lambda: not page.shown("#lost"), "it is back")
        page.click("#cpu")

    def test_two_pages(self):
        first = self.driver.current_window_handle
        self.driver.switch_to.new_window("tab")
        other = Page(self.driver, self.online.address)
        other.wait(lambda: other.shown("#take"), "it looks on")
        self.assertFalse(other.find("#run").is_enabled())
        other.click("#take")
        other.click("#run")
        self.driver.close()
        self.driver.switch_to.window(first)
        self.page.wait(lambda: self.page.now("mode") == "run" and self.page.shown("#take"), "the first page looks on")

    def test_the_end(self):
        page = self.page
        page.click("#end")
        page.click("#end")
        self.assertEqual(self.online.process.wait(20), 0)
        page.wait(lambda: page.shown("#gone"), "it is said")

    def test_a_fault_in_words(self):
        page = self.page
        page.draft("#insert", 0, "LBL(Again)JMP(Again);")
        page.click("#accept")
        page.click("#assemble")
        page.click("#run")
        page.stop("", "fault")
        page.click("#until")
        page.wait(lambda: page.shown("#faulted"), "the fault")
        self.assertIn("watchdog", page.text("#faulted"))


class Looks(PageTest):
    def overlaps(self):
        return self.page.script("""
            const found = [];
            document.querySelectorAll('.rung svg').forEach((svg, rung) => {
                const boxes = [...svg.querySelectorAll('g.instruction')].map((each) => each.querySelector('.glow').getBBox());
                const width = svg.viewBox.baseVal.width;
                boxes.forEach((a, at) => {
                    if (a.x < 50 || a.x + a.width > width - 12) found.push([rung, at, 'rail']);
                    boxes.slice(at + 1).forEach((b) => { if (a.x < b.x + b.width && b.x < a.x + a.width && a.y < b.y + b.height && b.y < a.y + a.height) found.push([rung, at]); });
                });
                for (const box of svg.querySelectorAll('rect.box')) {
                    const own = box.getBBox();
                    for (const text of box.parentNode.querySelectorAll(':scope > text')) {
                        const said = text.getBBox();
                        if (said.width && (said.x < own.x || said.x + said.width > own.x + own.width)) found.push([rung, text.textContent]);
                    }
                }
            });
            return found;""")

    def test_nothing_overlaps_and_it_folds(self):
        for width in (1400, 1000, 420):
            self.driver.set_window_size(width, 1000)
            time.sleep(0.4)
            self.page.settled()
            self.assertEqual(self.overlaps(), [], width)
            self.assertLessEqual(self.page.script("return document.documentElement.scrollWidth - window.innerWidth"), 0, width)
        self.driver.set_window_size(1400, 1000)

    def test_dark(self):
        self.driver.execute_cdp_cmd("Emulation.setEmulatedMedia", {"features": [{"name": "prefers-color-scheme", "value": "dark"}]})
        back = self.page.script("return getComputedStyle(document.body).backgroundColor")
        self.driver.execute_cdp_cmd("Emulation.setEmulatedMedia", {"features": []})
        self.assertLess(sum(map(int, re.findall(r"\d+", back)[:3])), 150)


class Names(PageTest):
    """Tags that JavaScript has names of."""

    @classmethod
    def setUpClass(cls):
        super().setUpClass()
        names = ["constructor", "toString", "valueOf", "hasOwnProperty"]
        cls.path = f"/tmp/names_{os.getpid()}.json"
        rungs = [f"XIC({name})OTE(out{at});" for at, name in enumerate(names)]
        with open(cls.path, "w", encoding="utf-8") as file:
            file.write(__import__("json").dumps({
                "schema": 1, "controller": "constructor", "tags": [{"name": "In", "type": "DINT"}, *[{"name": name, "alias": f"In.{at}"} for at, name in enumerate(names)],
                                                                  *[{"name": f"out{at}", "type": "BOOL"} for at in range(4)]],
                "programs": [{"name": "toString", "main": "constructor", "routines": [{"name": "constructor", "rungs": rungs}]}],
                "tasks": [{"name": "T", "kind": "continuous", "programs": ["toString"]}], "connections": [{"name": "valueOf", "tag": "In", "direction": "in"}], "watch": names}))
        cls.words = (cls.path,)

    @classmethod
    def tearDownClass(cls):
        os.unlink(cls.path)
        super().tearDownClass()

    def test_they_are_tags(self):
        page = self.page
        page.click("#run")
        page.click("[data-bit='valueOf.0.0']")
        page.wait(lambda: page.is_on(0), "constructor is green")
        self.assertFalse(page.is_on(1))
        page.click("[data-key='trend hasOwnProperty']")
        page.click("#scan")
        self.assertEqual(page.text("#watch td.n"), "1")


def picture(path):
    """The picture of README: the conveyor, an edit tested, and the way back to a change."""
    driver, online = browser(1280, 900), Online(CONVEYOR)
    try:
        driver.execute_cdp_cmd("Emulation.setDeviceMetricsOverride", {"width": 1280, "height": 830, "deviceScaleFactor": 1, "mobile": False})
        page = Page(driver, online.address).started()
        page.click("[data-key='trend Motor']")
        page.draft("#edit", 3, "XIC(HornT.DN)XIO(Horn)OTE(Motor);")
        page.click("#accept")
        page.click("#test")
        page.type("#speed", "0.2")
        page.click("#play")
        time.sleep(1)
        page.click("[data-bit='In1.1.0']")
        page.click("[data-bit='In1.1.1']")
        page.click("[data-bit='In1.1.1']")
        time.sleep(0.6)
        page.click("[data-bit='In1.1.0']")
        page.wait(lambda: page.value("Motor") == 1, "Motor")
        time.sleep(1)
        page.click("#play")
        page.click("[data-key='back Motor']")
        Select(page.find("#span")).select_by_value("all")
        page.settled()
        page.script("document.activeElement.blur(); document.getElementById('ladder').scrollTop = 0")
        page.wait(lambda: not page.script("return document.getElementById('note').classList.contains('shown')"), "the note is gone")
        time.sleep(0.5)
        with open(path, "wb") as file:
            file.write(smaller(driver.get_screenshot_as_png()))
    finally:
        driver.quit()
        online.end()


if __name__ == "__main__":
    if sys.argv[1:2] == ["--picture"]:
        picture(sys.argv[2])
    else:
        unittest.main()
