"""The pages of `tools/study --html` and `tools/compare --html`, in a headless Chromium (apt-get install chromium); skipped where there is none."""
import base64
import hashlib
import os
import pathlib
import re
import shutil
import subprocess
import tempfile
import unittest

from browser import Browser, chromium
from large import write_large
from support import PROGRAM, TOP, call, stored
from xensched_tools.machine import read_machine
from xensched_tools.timeline import Timeline

MOST_BYTES = 20_000_000
LEFT, RIGHT = 132, 12


class Page(unittest.TestCase):
    """A page, its browser, and what the timeline has to show."""

    @classmethod
    def setUpClass(cls):
        if chromium() is None:
            raise unittest.SkipTest("there is no Chromium: apt-get install chromium")
        cls.folder = tempfile.TemporaryDirectory()
        cls.browser = Browser()

    @classmethod
    def tearDownClass(cls):
        cls.browser.close()
        cls.folder.cleanup()

    def open(self, domains, work, lines):
        """Makes the page of a schedule, and opens it."""
        folder = pathlib.Path(self.folder.name)
        (folder / "schedule.txt").write_text("".join(f"{line}\n" for line in lines))
        self.page = folder / "page.html"
        done = call("tools/study", domains, folder / "schedule.txt", "--work", work, "--html", self.page)
        self.assertEqual(done.returncode, 0, done.stderr)
        self.timeline = Timeline(read_machine(domains)).follow(lines)
        self.browser.load(self.page)
        self.assertEqual(self.browser.errors(), [])
        self.measure()

    def measure(self):
        """Where the timeline is: its left, top, width and height in pixels."""
        self.box = self.browser.value("(() => { const it = canvas.getBoundingClientRect(); return [it.left, it.top, it.width, it.height]; })()")

    def view(self):
        """What is drawn: the count of bars, of those merged, and the moments of the two ends."""
        return [int(self.browser.value(f"canvas.dataset.{name}")) for name in ("shown", "merged", "from", "to")]

    def place(self, moment, row=44):
        """The pixel of a moment in the whole view, in the first processor's row."""
        self.measure()
        left, top, wide, _ = self.box
        return left + LEFT + (wide - LEFT - RIGHT) * moment / self.timeline.end, top + row

    def check_whole(self):
        """All bars are there, and nothing is fetched."""
        self.assertEqual(int(self.browser.value("document.documentElement.dataset.boxes")), len(self.timeline.bars()))
        text = self.page.read_text()
        self.assertEqual(re.findall(r"https?://(?!www\.w3\.org)|<link|<img|@import|src=", text), [])
        self.assertLess(len(text), MOST_BYTES)


class Small(Page):
    def setUp(self):
        example = TOP / "examples" / "measures"
        self.open(example / "domains.toml", example / "work.txt", (example / "schedule.txt").read_text().splitlines())

    def test_all_bars_are_shown(self):
        # a runs 4 times; b goes on at 8, 16, 20 and 29, so its 3 stays are 7 bars
        self.check_whole()
        self.assertEqual(self.view(), [11, 0, 0, 32_000_000])

    def test_the_wheel_zooms_at_the_pointer(self):
        # 1.0015 ^ -462 is a half; from 4.5 to 20.5 ms there are b, b, a, b, b and b
        self.browser.mouse("mouseWheel", *self.place(9_000_000), deltaX=0, deltaY=-462)
        shown, merged, begin, end = self.view()
        self.assertEqual((shown, merged), (6, 0))
        self.assertAlmostEqual(end - begin, 16_000_000, delta=100_000)
        self.assertAlmostEqual(begin, 4_500_000, delta=100_000)
        self.browser.mouse("mouseWheel", *self.place(9_000_000), deltaX=0, deltaY=2000)
        self.assertEqual(self.view(), [11, 0, 0, 32_000_000])

    def test_dragging_moves(self):
        self.browser.key("0")
        self.browser.mouse("mouseWheel", *self.place(16_000_000), deltaX=0, deltaY=-462)
        _, _, before, _ = self.view()
        x, y = self.place(16_000_000)
        self.browser.mouse("mousePressed", x, y, button="left", clickCount=1)
        self.browser.mouse("mouseMoved", x - 200, y, button="left", buttons=1)
        self.browser.mouse("mouseReleased", x - 200, y, button="left", clickCount=1)
        _, _, begin, end = self.view()
        self.assertAlmostEqual(begin - before, 200 / (self.box[2] - LEFT - RIGHT) * 16_000_000, delta=100_000)
        self.assertAlmostEqual(end - begin, 16_000_000, delta=100_000)

    def test_the_keys(self):
        self.browser.value("timeline.focus()")
        self.browser.key("+")
        self.assertEqual(self.view()[2:], [8_000_000, 24_000_000])
        self.browser.key("ArrowRight")
        self.assertEqual(self.view()[2:], [11_200_000, 27_200_000])
        self.browser.key("-")
        self.assertEqual(self.view()[2:], [0, 32_000_000])

    def test_a_bar_says_what_it_is(self):
        self.browser.mouse("mouseMoved", *self.place(1_000_000))
        self.assertEqual(self.browser.value("tip.textContent"), "p0: a d0v0, 0 ms to 2 ms (2 ms)")
        self.browser.mouse("mouseMoved", *self.place(20_500_000, 34 + 26 + 8 + 5))
        self.assertEqual(self.browser.value("tip.textContent"), "a d0v0 waits, 20 ms to 21 ms (1 ms)")

    def test_a_moment_of_a_table_is_gone_to(self):
        self.browser.value("(show(0, data.end), document.querySelector('#waits a[data-at=\"21000000\"]').click())")
        _, _, begin, end = self.view()
        self.assertTrue(begin < 21_000_000 < end and end - begin < 3_000_000)

    def test_a_link_names_the_view(self):
        self.browser.value("(location.hash = '#10-12')")
        self.assertEqual(self.view()[2:], [10_000_000, 12_000_000])

    def click(self, moment, row=44, **more):
        x, y = self.place(moment, row)
        for kind in ("mousePressed", "mouseReleased"):
            self.browser.mouse(kind, x, y, button="left", clickCount=1, **more)

    def told(self):
        return self.browser.value("told.textContent")

    def test_the_words_on_dimmed_bars_can_be_read(self):
        seen = self.browser.value("""(() => { const seen = [], plain = paper.fillText;
            paper.fillText = function (text, ...more) { seen.push([text, paper.fillStyle]); plain.call(paper, text, ...more); };
            data.domains[1].text = "#ffffff"; dimOthers(0); draw(); delete paper.fillText; return seen; })()""")
        self.assertLessEqual({("b d1v0", "#000000")}, {tuple(it) for it in seen})
        self.assertNotIn("#ffffff", [fill for _, fill in seen])

    def test_headings_roles_and_labels(self):
        for selector, count in {"h1": 1, "h2": 3, "header": 1, "main": 1, "section[aria-labelledby]": 3, "canvas[role=img][aria-label]": 1, "#status[aria-live=polite]": 1, "label input": 1,
                                "meta[name=viewport]": 1, "meta[name=color-scheme]": 1, "th:not([scope=col])": 0, "button[data-domain]:not([aria-pressed])": 0}.items():
            with self.subTest(selector=selector):
                self.assertEqual(self.browser.value(f"document.querySelectorAll('{selector}').length"), count)
        self.assertIn("0 ms to 32 ms", self.browser.value("canvas.getAttribute('aria-label')"))
        pressed = "[...document.querySelectorAll('[data-domain]')].map((it) => it.getAttribute('aria-pressed')).join()"
        self.assertEqual(self.browser.value(pressed), "false,false")
        self.browser.value("document.querySelector('[data-domain=\"1\"]').click()")
        self.assertEqual(self.browser.value(pressed), "false,true")

    def test_two_fingers_zoom_and_one_moves(self):
        self.assertEqual(self.browser.value("getComputedStyle(canvas).touchAction"), "none")
        (x, y), (other, _) = self.place(12_000_000), self.place(20_000_000)
        self.touch("touchStart", (x, y), (other, y))
        self.touch("touchMove", (x - (other - x) / 2, y), (other + (other - x) / 2, y))
        self.touch("touchEnd")
        _, _, begin, end = self.view()
        self.assertAlmostEqual(begin, 8_000_000, delta=100_000)
        self.assertAlmostEqual(end, 24_000_000, delta=100_000)
        self.touch("touchStart", (x, y))
        self.touch("touchMove", (x - (self.box[2] - LEFT - RIGHT) / 4, y))
        self.touch("touchEnd")
        self.assertAlmostEqual(self.view()[2], 12_000_000, delta=100_000)

    def touch(self, kind, *points):
        self.browser.call("Input.dispatchTouchEvent", type=kind, touchPoints=[{"x": x, "y": y, "id": k} for k, (x, y) in enumerate(points)])

    def test_the_head_has_the_files_and_the_command(self):
        text = self.page.read_text()
        for path in (TOP / "examples" / "measures" / "domains.toml", TOP / "examples" / "measures" / "work.txt", self.page.parent / "schedule.txt"):
            self.assertIn(f"<dt>{path}</dt><dd>{hashlib.sha256(path.read_bytes()).hexdigest()}</dd>", text)
        self.assertIn(f"<dt>command</dt><dd>tools/study {TOP}/examples/measures/domains.toml", text)
        self.setUp()
        self.assertEqual(self.page.read_text(), text)

    def test_search(self):
        for words, told in {"d0v0": "0 ms: a d0v0 runs", "B": "0 ms: b d1v0 waits", "pool-0": "0 ms: p0: a d0v0", "9ms": "9 ms: p0: b d1v0", "zed": "nothing here is called zed"}.items():
            with self.subTest(words=words):
                self.browser.value(f"(search('{words}'), 0)")
                self.assertTrue(self.told().startswith(told), self.told())
                if words == "9ms":
                    _, _, begin, end = self.view()
                    self.assertAlmostEqual((begin + end) / 2, 9_000_000, delta=2)

    def test_two_markers(self):
        self.click(4_000_000, modifiers=8)
        self.click(16_000_000, modifiers=8)
        found = re.search(r"marker 1 at ([\d.]+) ms; marker 2 at ([\d.]+) ms; their distance ([\d.]+) ms", self.told())
        for text, right in zip(found.groups(), (4, 16, 12)):
            self.assertAlmostEqual(float(text), right, delta=0.1)
        self.browser.value("(timeline.focus(), goTo(5e6))")
        self.browser.key("m")
        self.browser.value("goTo(8e6)")
        self.browser.key("n")
        self.assertIn("marker 1 at 5 ms; marker 2 at 8 ms; their distance 3 ms", self.told())

    def test_steps_from_event_to_event(self):
        # p0 has a from 0 to 2 ms, b to 8 and on to 10 ms
        self.browser.value("timeline.focus()")
        self.click(1_000_000)
        for key, told in (("]", "2 ms: p0: b"), ("]", "8 ms: p0: b"), ("]", "10 ms: p0: a"), ("[", "8 ms: p0: b"), ("j", "8 ms: a d0v0 sleeps"), ("]", "10 ms: a d0v0 runs")):
            self.browser.key(key)
            self.assertTrue(self.told().startswith(told), self.told())

    def test_releases_and_deadlines_are_arrows(self):
        # the lines `repl`: those of a have the deadlines 20 and 30 ms, those of b 30 ms; what is behind the end is not drawn
        starts_and_ends = [int(word) for line in (TOP / "examples" / "measures" / "schedule.txt").read_text().splitlines() if " repl " in line for word in (line.split()[4], line.split()[6])]
        self.assertEqual(int(self.browser.value("canvas.dataset.arrows")), sum(at <= 32_000_000 for at in starts_and_ends))


class Compared(Page):
    PROGRAM_TEXT = '#!/bin/sh\nif [ "$1" = --version ]; then echo "xensched 9 of a test"; else cat {}; fi\n'

    def test_two_machines_have_one_axis(self):
        folder, example = pathlib.Path(self.folder.name), TOP / "examples" / "measures"
        program, other, page = folder / "program", folder / "other.toml", folder / "compared.html"
        program.write_text(self.PROGRAM_TEXT.format(example / "schedule.txt"))
        program.chmod(0o755)
        other.write_text((example / "domains.toml").read_text())
        done = subprocess.run([TOP / "tools" / "compare", "--html", page, example / "domains.toml", other], capture_output=True, text=True, env={**os.environ, "XENSCHED_PROGRAM": str(program)})
        self.assertEqual(done.returncode, 0, done.stderr)
        self.browser.load(page)
        self.assertEqual(self.browser.errors(), [])
        # twice the 11 bars; each machine has a title, p0, a and b, and what is under one another is the same moment
        self.assertEqual(self.view(), [22, 0, 0, 32_000_000])
        self.assertEqual(self.browser.value("rows.map((it) => it.name).join()"), "domains.toml,p0,a d0v0,b d1v0,other.toml,p0,a d0v0,b d1v0")
        self.assertEqual(self.browser.value("[wordsOf(rows[1], 1e6), wordsOf(rows[5], 1e6)].join('|')"), "p0: a d0v0, 0 ms to 2 ms (2 ms)|p0: a d0v0, 0 ms to 2 ms (2 ms)")
        self.assertIn("<dt>program</dt><dd>xensched 9 of a test</dd>", page.read_text())


class Stored(Page):
    def test_a_realistic_run(self):
        domains, work, lines = stored("realistic")
        self.open(domains, work, lines)
        self.check_whole()
        shown, merged, begin, end = self.view()
        self.assertEqual((shown + merged, begin, end), (len(self.timeline.bars()), 0, self.timeline.end))
        self.assertGreater(merged, 0)
        self.browser.value("show(500e6, 510e6)")
        shown, merged, *_ = self.view()
        inside = [leg for leg in self.timeline.bars() if leg.end > 500_000_000 and leg.begin < 510_000_000]
        self.assertEqual((shown, merged), (len(inside), 0))

    @unittest.skipUnless(shutil.which("pdftotext"), "there is no pdftotext: apt-get install poppler-utils")
    def test_it_prints_whole(self):
        self.open(*stored("realistic"))
        before = self.view()
        pdf = pathlib.Path(self.folder.name) / "page.pdf"
        pdf.write_bytes(base64.b64decode(self.browser.call("Page.printToPDF", timeout=300)["data"]))
        text = subprocess.run(["pdftotext", "-layout", pdf, "-"], capture_output=True, text=True).stdout
        names, last = self.browser.value("rows.map((it) => it.name.slice(0, 22))"), self.browser.value("ms(ticks().at(-1))")
        self.assertEqual([name for name in names if name not in text], [])
        self.assertRegex(text, rf"(?<![\d.]){re.escape(last)}\b")
        for word in ("Search", "Wheel or pinch"):
            self.assertNotIn(word, text)
        # and the screen is as it was
        self.assertEqual((self.view(), self.browser.value("printed.childElementCount")), (before, 0))

    def test_marks_have_their_words(self):
        domains, work, lines = stored("replies-and-refusals")
        self.open(domains, work, lines)
        x, y = self.place(0)
        self.browser.mouse("mouseMoved", x + 1, y - 44 + 24)
        self.assertIn("cpupool-cpu-remove Pool-0 5: refused 5 NoCpu cpu 5", self.browser.value("tip.textContent"))


@unittest.skipUnless(PROGRAM.exists(), "the program is not built")
class Run(Page):
    def open_run(self, domains, work):
        done = subprocess.run([PROGRAM, "run", "--ordered", domains, work], capture_output=True, text=True)
        self.assertEqual(done.returncode, 0)
        self.open(domains, work, done.stdout.splitlines())

    def test_the_first_example(self):
        example = TOP / "examples" / "two-pools"
        self.open_run(example / "domains.toml", example / "work.txt")
        self.check_whole()
        self.assertEqual(self.view()[0], len(self.timeline.bars()))

    def test_the_large_input(self):
        self.open_run(*write_large(self.folder.name))
        self.assertGreater(self.timeline.entries, 500_000)
        self.check_whole()
        took = self.browser.value("(() => { const begin = performance.now(); draw(); return performance.now() - begin; })()")
        self.assertLess(took, 1000)


if __name__ == "__main__":
    unittest.main()
