#!/usr/bin/python3
"""Tries the page in headless Chromium, in front of the built server and nginx as README's lines start them.

    web/test_page.py PROGRAM [--shots]

The lines below README's heading `Look at it` are run in a copy of the tree, on free ports, and the time from there to a
picture of a coverage is printed. With --shots the pictures in web/pictures are made anew. It needs Debian's packages
nginx-light, curl, openssl, chromium, chromium-driver, python3-numpy and python3-gdal, and says so where one is missing.
"""

import contextlib
import http.client
import http.server
import os
import random
import re
import shutil
import ssl
import subprocess
import sys
import tempfile
import threading
import time
import unittest
import urllib.parse

sys.dont_write_bytecode = True
try:
    import numpy
    from osgeo import gdal  # for rasterd-load and for looks
except ImportError as missing:
    sys.exit(f"{missing}: install python3-numpy and python3-gdal, and run this with /usr/bin/python3")
os.environ["PATH"] += ":/usr/sbin"
for name, package in [("nginx", "nginx-light"), ("curl", "curl"), ("openssl", "openssl")]:
    if not shutil.which(name):
        sys.exit(f"there is no {name}: install {package}")

TOP = os.path.dirname(os.path.dirname(os.path.abspath(__file__)))
sys.path[:0] = [f"{TOP}/web", f"{TOP}/clients/python", f"{TOP}/examples", f"{TOP}/scripts"]
import data
import looks
import rasterd
from page_site import FAR, Site, load
from served import LONGEST, connected, free_port, served, until
from webdriver import Browser

SHOTS = "--shots" in sys.argv
if SHOTS:
    sys.argv.remove("--shots")
PROGRAM = os.path.abspath(sys.argv.pop(1)) if len(sys.argv) > 1 else sys.exit(__doc__)
WIDE = (1440, 900)
SHOT = (1280, 800)
PHONE = (390, 844)

# Scripts for the browser: whether the first picture is README's, a place in the answer's picture, the text that is
# selected, which of some texts are read as queries, a list of what the progress was, a dot of the first picture, and
# whether an address was asked, whose answer a page of another site is not shown.
PICTURE = "return document.querySelector('#first canvas')?.height == 480"
CORNER = """
const it = document.querySelector('#answer canvas');
it.scrollIntoView();
const box = it.getBoundingClientRect();
return [box.left + 2, box.top + 2];
"""
SELECTED = "const it = document.getElementById('text'); return it.value.slice(it.selectionStart, it.selectionEnd)"
FITTING = """
const [texts, done] = arguments;
import('./syntax.js').then(({ parsed }) => done(texts.map(it => { try { parsed(it); return true; } catch { return false; } })));
"""
WATCH_PROGRESS = """
window.seen = [];
const it = document.getElementById('progress');
new MutationObserver(() => seen.push(it.value)).observe(it, { attributes: true });
"""
DOT = """
const context = document.querySelector('#first canvas').getContext('2d');
return [...context.getImageData(arguments[0], arguments[1], 1, 1).data];
"""
SENT = """
const [address, done] = arguments;
fetch(address, { mode: 'no-cors' }).then(() => done(true), () => done(false));
"""


class Elsewhere(http.server.BaseHTTPRequestHandler):
    """A page of another site."""

    def do_GET(self):
        self.send_response(200)
        self.send_header("Content-Type", "text/html")
        self.end_headers()
        self.wfile.write(b"<title>elsewhere</title>")

    def log_message(self, *_):
        pass


class Scripted(http.server.SimpleHTTPRequestHandler):
    """The page's files, with a server behind them that has one coverage and says of jobs what is wanted."""

    def __init__(self, *words):
        super().__init__(*words, directory=f"{TOP}/web")

    def do_POST(self):
        pairs = dict(urllib.parse.parse_qsl(self.rfile.read(int(self.headers["Content-Length"])).decode()))
        name = pairs["request"]
        status, text = 200, {"ListCoverages": "w\n", "DescribeCoverage": "axis x 0 0\nfield v i16\n"}.get(name, "7\n")
        if self.path == "/job/ows":
            self.server.asked.append(name)
            status, text = self.server.said[name].pop(0)
            self.server.go.wait(LONGEST)
        if status:
            self.send_response(status)
            self.send_header("Content-Length", str(len(text)))
            self.end_headers()
            self.wfile.write(text.encode())

    def log_message(self, *_):
        pass


def shown(browser, url, script):
    """What a script soon gives in the page, which is opened again, as a person would; or nothing."""
    with contextlib.suppress(AssertionError):
        browser.go(url)
        return browser.wait(script, seconds=2)


class Page(unittest.TestCase):
    @classmethod
    def setUpClass(cls):
        cls.site, cls.browser = Site(PROGRAM), Browser(*WIDE)
        cls.addClassCleanup(cls.site.stop)
        cls.addClassCleanup(cls.browser.close)
        began = time.monotonic()
        cls.url = cls.site.start()
        try:
            until(lambda: shown(cls.browser, cls.url, PICTURE), "a picture")
        except AssertionError as late:
            with open(f"{cls.site.folder}/log", encoding="utf-8") as file:
                raise SystemExit(f"{late}: {file.read()}") from late
        print(f"from README's lines to a picture: {time.monotonic() - began:.1f} s", file=sys.stderr)
        cls.heights, cls.classes = load(cls.site.port)

    def setUp(self):
        self.browser.screen(*WIDE)

    # What a person does

    def open(self, name="terrain"):
        self.browser.go(f"{self.url}#{name}")
        self.looks("rain.mm" if name == "rain" else name)

    def looks(self, title):
        """Waits until the picture is that of a coverage."""
        self.browser.wait(
            "return document.querySelector('#first figcaption')?.textContent.startsWith(arguments[0] + ':')"
            " && !document.querySelector('.busy')",
            title,
        )

    def caption(self, figure="#first"):
        return self.browser.text(f"{figure} figcaption")

    def ask(self, query, button="#ask"):
        """What is told of a query that is asked in the page."""
        self.browser.run(
            "const it = document.getElementById('text'); it.value = arguments[0]; it.dispatchEvent(new Event('input'));"
            " document.getElementById('told').textContent = ''",
            query,
        )
        self.browser.click(button)
        return self.told()

    def view(self, kind):
        self.browser.run(
            "[...document.querySelectorAll('#views button')].find(it => it.textContent == arguments[0]).click()", kind
        )

    def told(self):
        return self.browser.wait(
            "return !document.getElementById('ask').disabled && document.getElementById('told').textContent"
        )

    def lines(self, css="#answer table"):
        return self.browser.run(
            "const lines = [...document.querySelectorAll(arguments[0] + ' tr')];"
            " return lines.map(it => [...it.children].map(cell => cell.textContent))",
            css,
        )

    def middle(self, down=0.5, across=0.5):
        return self.browser.run(
            "const it = document.querySelector('#first canvas'); it.scrollIntoView({ block: 'center' });"
            " const box = it.getBoundingClientRect();"
            " return [box.left + box.width * arguments[1], box.top + box.height * arguments[0]]",
            down,
            across,
        )

    def dots(self, figure="#first"):
        """How many lines and columns a picture has."""
        return self.browser.run(
            "const it = document.querySelector(arguments[0] + ' canvas'); return [it.height, it.width]", figure
        )

    # The tests

    def test_readme_lines_show_a_picture(self):
        self.open("relief")
        self.assertEqual(self.dots()[0], 480)

    def test_coverages(self):
        self.open("rain")
        names = self.browser.run("return [...document.querySelectorAll('#list b')].map(it => it.textContent)")
        self.assertEqual(names, ["relief", "terrain", "cover", "later", "far", "rain", "line", "large"])
        self.assertEqual(self.browser.text("[aria-current] span"), "3 × 4 × 5")
        self.assertEqual(
            self.lines("#shape-tables table:first-child")[1:],
            [["t", "1", "3", "3"], ["y", "-2", "1", "4"], ["x", "0", "4", "5"]],
        )
        self.assertEqual(self.lines("#shape-tables table:last-child")[1:], [["mm", "i16"], ["wet", "bool"]])
        self.browser.click("#list button[value=cover]")
        self.looks("cover")
        self.assertEqual(self.browser.text("#shape-head"), "cover")

    def test_an_address_with_a_query(self):
        self.browser.go(f"{self.url}#cover|for%20c%20in%20(cover)%20return%20max(c)")
        self.looks("cover")
        self.assertEqual(self.browser.property("#text", "value"), "for c in (cover) return max(c)")
        self.browser.go(f"{self.url}#%zz")
        self.looks("relief")

    def test_a_number(self):
        self.open()
        self.assertRegex(self.ask("for c in (terrain) return max(c)"), r"^1 item, 1 cell, \d+ ms$")
        self.assertEqual(self.browser.text("#answer .number"), str(self.heights.max()))

    def test_a_table_has_the_heads_of_its_axes(self):
        self.open("rain")
        self.ask("for c in (rain) return encode(c.mm[t(2), y(-1:0)], csv)")
        self.assertEqual(
            self.lines(),
            [["y \\ x", "0", "1", "2", "3", "4"], ["-1", "5", "6", "7", "8", "9"], ["0", "10", "11", "12", "13", "14"]],
        )
        self.ask("for c in (rain) return encode({least: min(c.mm); most: max(c.mm)}, csv)")
        self.assertEqual(self.lines(), [["least", "-20"], ["most", "39"]])
        self.ask("for c in (rain) return encode(c[t(1:2), y(0), x(0:1)], csv)")
        self.assertEqual(
            self.lines(), [["t \\ x", "0", "1"], ["1", "-10 · false", "-9 · false"], ["2", "10 · true", "11 · false"]]
        )
        self.assertEqual(self.browser.text("#answer caption"), "Each cell: mm · wet")
        self.ask("for c in (terrain, cover) return min(c)")
        self.assertEqual(self.browser.run("return document.querySelectorAll('#answer table').length"), 2)
        self.assertEqual(self.titles(), ["terrain", "cover"])
        self.ask("for c in (terrain, cover), d in (later, relief) return min(c) + max(d)")
        self.assertEqual(self.titles(), ["terrain, later", "terrain, relief", "cover, later", "cover, relief"])
        self.ask("for c in (terrain, cover, later) where min(c) < 10 return min(c)")
        self.assertEqual(self.titles(), ["item 1", "item 2"])

    def titles(self):
        return self.browser.run("return [...document.querySelectorAll('#answer h3')].map(it => it.textContent)")

    def test_an_answer_as_a_picture_and_as_text(self):
        self.open()
        self.ask("for c in (terrain) return encode(c[y(10:49), x(20:79)] + 1, csv)")
        self.assertEqual(self.dots("#answer"), [40, 60])
        box = self.browser.run(CORNER)
        self.browser.move(*box)
        self.assertEqual(self.caption("#answer"), f"y 10, x 20: {self.heights[10, 20] + 1}")
        self.browser.run("[...document.querySelectorAll('#views button')].at(-1).click()")
        self.assertTrue(self.browser.text("#answer .plain").startswith(f"{self.heights[10, 20] + 1},"))

    def test_no_item(self):
        self.open()
        self.assertRegex(self.ask("for c in (terrain) where false return max(c)"), "^0 items")
        self.assertIn("No item", self.browser.text("#answer"))

    def test_refusals_say_what_to_change_and_where(self):
        self.open()
        for query, told, place in [
            ("for c in (terrain) return sum(c)", "refused 32.*line 1, column 27.*write add", "sum"),
            ("for c in (terrain)\nreturn encode(c + , csv)", "refused 32.*line 2, column 19.*an expression", ","),
            ("for c in (terrain) return max(c) % 2", "refused 30.*no remainder", "%"),
            ("for c in (terrain) return max(c", "refused 32.*ends too early", ""),
            ("for c in (hills) return max(c)", "refused 20.*There are relief, terrain", "hills"),
            ("for c in (terrain) return max(d)", "refused 40.*no variable here; there are c", "d"),
            ("for c in (rain) return max(c.snow)", "refused 42.*fields mm, wet", "snow"),
            ("for c in (terrain) return max(c[t(0)])", "refused 43.*axes y, x", "t"),
            ("for c in (terrain) return encode(c[y(0:200)], csv)", r"refused 46.*y\(0:159\)", "y"),
            ("for c in (terrain) return encode(c[y(0:1)] + c[y(1:2)], csv)", "refused 45.*Left y", "+"),
            ("for c in (terrain) return c + 1", "refused 52.*encode", "return"),
            ("for c in (terrain) return max(c) / 0", "refused 61.*divisor", "/"),
            ("for c in (terrain) return max(c) * 9223372036854775807", "refused 60.*64 bits", None),
            ("for c in (terrain) return c[y(159), x(160)]", r"refused 62.*x\(0:159\)", "x"),
            (f"for c in (terrain) return {20000 * '-'}1", "refused 33.*brackets", None),
        ]:
            with self.subTest(query=query):
                found = self.ask(query)
                self.assertRegex(found.replace("\n", " "), told)
                if place is not None:
                    selected = self.browser.run(SELECTED)
                    self.assertEqual(selected, place)
        self.assertEqual(self.browser.property("#told", "className"), "bad")

    def test_the_grammar_is_the_servers(self):
        """Mutated queries of the documents: page and server refuse the same ones for their spelling."""
        with open(f"{TOP}/docs/LANGUAGE.md", encoding="utf-8") as file:
            known = re.findall(r"\$ ask '(.*)'", file.read())
        numbers, queries = random.Random(5), []
        for _ in range(400):
            words = re.findall(r"\$?\w+|\s+|[<>!]=|.", numbers.choice(known))
            for _ in range(numbers.randint(0, 2)):
                at = numbers.randrange(len(words))
                other = numbers.choice(
                    ["+", ")", "[", "3", "sum", "%", ";", "and", "encode", '"csv"', "$a", numbers.choice(words)]
                )
                words[at : at + 1] = numbers.choice([[], [words[at]] * 2, [other]])
            queries.append("".join(words))
        self.open()
        fits = self.browser.run_async(FITTING, queries)
        with rasterd.Session(port=self.site.port, timeout=600) as session:
            for query, is_read in zip(queries, fits):
                number = None
                try:
                    session.query(query)
                except rasterd.Refused as refusal:
                    number = refusal.number
                self.assertEqual(is_read, number not in (30, 31, 32, 33), (query, number))
        self.assertGreater(sum(fits), 50)
        self.assertGreater(len(fits) - sum(fits), 50)

    def test_each_example_is_answered(self):
        for name in ["terrain", "cover", "far", "rain", "line", "large"]:
            self.open(name)
            for title in self.browser.run(
                "return [...document.getElementById('examples').options].slice(1).map(it => it.text)"
            ):
                with self.subTest(coverage=name, example=title):
                    self.browser.run("document.getElementById('text').value = ''")
                    self.browser.choose("#examples", title)
                    query = self.browser.wait("return document.getElementById('text').value")
                    told = self.ask(query)
                    # a sum of numbers near 2^63 leaves 64 bits, and a mean of them too
                    self.assertRegex(told, "^refused 60|^1 item" if name == "far" else "^1 item")

    def test_a_job(self):
        self.open()
        self.browser.run(WATCH_PROGRESS)
        query = "for c in (terrain) return encode(coverage h over $k class(0:15) values count(c / 100 = $k), csv)"
        self.assertRegex(self.ask(query, "#job"), "^1 item, 16 cells")
        self.view("Table")
        self.assertEqual(self.lines()[1][1:], [str(int((self.heights // 100 == k).sum())) for k in range(16)])
        self.assertEqual(self.lines()[0], ["class", *map(str, range(16))])
        self.view("Picture")
        self.assertEqual(self.browser.run("return document.querySelectorAll('.bars i').length"), 16)
        self.assertTrue(any(it > 0 for it in self.browser.run("return seen")))

    LONG = f"for c in (large) return {' + '.join(f'add(c * {k})' for k in range(1, 41))}"

    def long_job(self):
        self.browser.run("document.getElementById('text').value = arguments[0]", self.LONG)
        self.browser.click("#job")
        self.browser.wait("return document.getElementById('progress').value > 0")

    def job(self):
        """The number of the page's job, as the page tells it."""
        told = self.browser.wait(
            "const it = document.getElementById('told').textContent; return it.startsWith('Job ') && it"
        )
        return int(told.split()[1].rstrip(":"))

    def is_at_hand(self, job):
        """Whether a job is there that has units left."""
        with rasterd.Session(port=self.site.port, timeout=LONGEST) as session:
            try:
                session.fetch(job)
            except rasterd.Refused as refusal:
                self.assertIn(refusal.number, (70, 71))
                return refusal.number == 71
        return False

    def test_a_job_is_cancelled(self):
        self.open()
        self.long_job()
        job = self.job()
        self.assertTrue(self.is_at_hand(job))
        if SHOTS:
            self.picture("job", *SHOT)
        self.browser.click("#cancel")
        self.assertEqual(
            self.browser.wait(
                "const it = document.getElementById('told').textContent; return it.startsWith('The job') && it"
            ),
            "The job is cancelled.",
        )
        self.assertFalse(self.is_at_hand(job))

    def test_a_job_is_cancelled_with_its_page_and_with_its_tab(self):
        self.open()
        self.long_job()
        job = self.job()
        self.assertTrue(self.is_at_hand(job))
        self.browser.send(f"{self.browser.base}/url", {"url": "about:blank"})
        until(lambda: not self.is_at_hand(job), "the end of a job")
        with self.browser.another_tab():
            self.browser.screen(*WIDE)
            self.open()
            self.long_job()
            job = self.job()
            self.assertTrue(self.is_at_hand(job))
        until(lambda: not self.is_at_hand(job), "the end of a job")

    def test_templates(self):
        self.open("cover")
        self.browser.choose("#template", "FocalMaximum")
        self.assertTrue(self.browser.property("#second-label", "hidden"))
        self.browser.click("#use")
        self.browser.wait("return document.getElementById('told').textContent.includes('25,600 cells')")
        self.browser.move(*self.browser.run(CORNER))
        self.assertEqual(self.caption("#answer"), f"y 0, x 0: {self.classes[:2, :2].max()}")
        self.assertTrue(self.browser.property("#text", "value").startswith("for "))
        self.browser.choose("#template", "LocalSum")
        self.browser.choose("#second", "later")
        self.browser.click("#expand")
        self.browser.wait("return document.getElementById('told').textContent == 'The query of the template.'")
        self.assertEqual(
            self.browser.property("#text", "value"), "for a in (cover), b in (later) return encode(a + b, csv)"
        )
        self.browser.choose("#second", "far")
        self.browser.click("#use")
        self.browser.wait("return document.getElementById('told').textContent.startsWith('refused 45')")

    def test_looking_around(self):
        self.open("large")
        self.assertEqual(self.dots(), [512, 512])
        self.assertIn("one cell in 8", self.caption())
        x, y = self.middle(0.25, 0.5)
        self.browser.move(x, y)
        self.assertRegex(self.caption(), r"^y 102[0-9]+, x 204[0-9]+: 1[56]$|^y 10[0-9]{2}, x 20[0-9]{2}: 1[56]$")
        self.browser.wheel(x, y, -100)
        self.looks("large")
        self.assertIn("one cell in 4", self.caption())
        for _ in range(5):
            self.browser.click("#closer")
            self.looks("large")
        self.assertIn("each cell", self.caption())
        self.assertEqual(self.dots(), [64, 64])
        before = self.at_corner()
        x, y = self.middle()
        side = self.browser.property("#first canvas", "clientWidth") / 64
        self.browser.drag(x, y, x - 10 * side, y - 5 * side)
        self.looks("large")
        self.assertEqual(self.at_corner(), (before[0] + 5, before[1] + 10))
        self.browser.click("#whole")
        self.looks("large")
        self.assertEqual(self.dots(), [512, 512])

    def test_two_fingers_zoom(self):
        self.browser.screen(*PHONE, phone=True)
        self.open("terrain")
        self.browser.pinch(*self.middle(), 60, 120)
        self.browser.wait(
            "return document.querySelector('#first canvas').width == 80 && !document.querySelector('.busy')"
        )
        self.assertEqual(self.browser.run("return document.querySelector('#first canvas').style.transform"), "")
        self.browser.pinch(*self.middle(), 120, 60)
        self.browser.wait("return document.querySelector('#first canvas').width == 160")

    def at_corner(self):
        """The coordinates of the picture's first cell, by the pointer."""
        x, y = self.middle(0, 0)
        self.browser.move(x + 2, y + 2)
        return tuple(map(int, re.match(r"y (-?\d+), x (-?\d+): ", self.caption()).groups()))

    def test_a_view_never_leaves_the_coverage(self):
        self.open("terrain")
        x, y = self.middle()
        self.browser.wheel(x, y, -100)
        self.looks("terrain")
        self.browser.drag(x, y, WIDE[0] - 5, y)
        self.looks("terrain")
        self.assertEqual(self.at_corner()[1], 0)
        for _ in range(3):
            self.browser.click("#farther")
            self.looks("terrain")
        self.assertEqual(self.dots(), [160, 160])

    def test_pictures_of_other_coverages(self):
        self.open("line")
        self.assertEqual(self.dots(), [1, 10])
        self.browser.move(*self.middle(0.5, 0.35))
        self.assertEqual(self.caption(), "x 3: 3")
        self.open("rain")
        self.browser.run(
            "const it = document.querySelector('#sliders input'); it.value = 3; it.dispatchEvent(new Event('change'))"
        )
        self.browser.wait("return document.querySelector('#first .legend').textContent.startsWith('20')")
        self.browser.choose("#field", "wet")
        self.looks("rain.wet")
        self.assertEqual(self.browser.text("#first .legend"), "falsetrue")

    def test_colours(self):
        self.open("cover")
        self.assertEqual(self.browser.text("#first .legend"), "12345")
        self.browser.choose("#colours", "grey")
        self.assertEqual(self.browser.text("#first .legend"), "15")
        row, column = map(int, numpy.argwhere(self.classes == 1)[0])
        self.assertEqual(self.browser.run(DOT, column, row), [20, 20, 20, 255])

    def test_two_coverages(self):
        self.open("cover")
        self.browser.choose("#other", "later")
        self.browser.wait("return document.querySelector('#beside figcaption')?.textContent.startsWith('later:')")
        self.browser.click("#closer")
        self.browser.wait(
            "return document.querySelectorAll('#pictures canvas')[1].width == 80 && !document.querySelector('.busy')"
        )
        self.assertEqual((self.dots(), self.dots("#beside")), ([80, 80], [80, 80]))
        self.at_corner()
        self.assertEqual(self.caption()[:10], self.caption("#beside")[:10])
        self.browser.choose("#how", "a difference")
        self.looks("cover less later")
        self.browser.click("#whole")
        self.looks("cover less later")
        less = abs(self.classes.astype(int) - data.later(self.classes)).max()
        self.assertEqual(self.browser.text("#first .legend"), f"{-less}{less}")
        self.browser.choose("#other", "far")
        self.browser.wait("return document.querySelector('#beside figcaption')?.textContent.startsWith('far:')")
        self.assertTrue(self.browser.property("#how-label", "hidden"))

    def test_numbers_past_2_53_stay_exact(self):
        self.open("far")
        self.browser.choose("#colours", "viridis")
        self.assertEqual(self.browser.text("#first .legend"), f"{-2**63}{2**63 - 1}")
        self.browser.move(*self.middle(0.25, 0.1))
        self.assertEqual(self.caption(), f"y 0, x 0: {FAR}")
        self.ask("for c in (far) return encode(c, csv)")
        self.assertEqual(
            self.lines()[1:], [["0", str(FAR), str(FAR + 1), str(-FAR)], ["1", "0", str(2**63 - 1), str(-(2**63))]]
        )
        self.browser.choose("#colours", "classes")
        self.assertIn(str(FAR), self.browser.text("#first .legend"))
        # neighbours past 2^53 have different colours in a picture of the two
        self.ask("for c in (far) return encode(coverage m over $i y(0:1), $j x(0:1) values c[y(0), x($j)], csv)")
        self.browser.run(
            "[...document.querySelectorAll('#views button')].find(it => it.textContent == 'Picture').click()"
        )
        self.browser.choose("#colours", "grey")
        dots = self.browser.run(
            "return [...document.querySelector('#answer canvas').getContext('2d').getImageData(0, 0, 2, 1).data]"
        )
        self.assertEqual([dots[0], dots[4]], [20, 250])

    def test_pages_of_other_sites_reach_no_server(self):
        """They ask to delete a coverage, as the page itself may."""
        elsewhere = http.server.ThreadingHTTPServer(("127.0.0.1", 0), Elsewhere)
        self.addCleanup(elsewhere.server_close)
        self.addCleanup(elsewhere.shutdown)
        threading.Thread(target=elsewhere.serve_forever, daemon=True).start()
        session = rasterd.Session(port=self.site.port)
        session.insert("fleeting", {"x": (0, 9)}, {"v": "u8"})
        for site, is_there in [
            (f"http://localhost:{elsewhere.server_port}/", True),
            (f"http://127.0.0.1:{elsewhere.server_port}/", True),
            (self.url, False),
        ]:
            self.browser.go(site)
            address = f"{self.url}ows?request=DeleteCoverage&coverage=fleeting"
            self.assertTrue(self.browser.run_async(SENT, address))
            self.assertEqual("fleeting" in session.list(), is_there, site)

    def test_under_another_name_nothing_is_served(self):
        """A page of another site, whose name leads here, is of the same site for a browser (DNS rebinding)."""
        port = self.site.front
        for host, status in [
            (f"127.0.0.1:{port}", 200),
            (f"localhost:{port}", 200),
            ("localhost", 200),
            (f"elsewhere.example:{port}", 403),
            ("127.0.0.1.elsewhere.example", 403),
        ]:
            for path in ("/", "/ows?request=ListCoverages", "/job/ows?request=ListCoverages"):
                client = http.client.HTTPConnection("127.0.0.1", port, timeout=LONGEST)
                client.request("GET", path, headers={"Host": host, "Sec-Fetch-Site": "same-origin"})
                self.assertEqual(client.getresponse().status, status, (host, path))
                client.close()

    def test_csv_is_saved(self):
        folder = self.enterContext(tempfile.TemporaryDirectory())
        self.browser.devtools("Browser.setDownloadBehavior", behavior="allow", downloadPath=folder)
        self.open()
        self.ask("for c in (terrain) return encode(c[y(0:1), x(0:2)], csv)")
        self.browser.click("#save")
        until(lambda: os.listdir(folder) == ["answer.csv"], "a file")
        with open(f"{folder}/answer.csv", encoding="utf-8") as file:
            self.assertEqual(file.read(), "".join(",".join(map(str, line)) + "\n" for line in self.heights[:2, :3]))

    def test_the_keyboard_alone(self):
        self.open()
        reached = set()
        self.browser.run("document.activeElement.blur(); scrollTo(0, 0)")
        for _ in range(60):
            self.browser.press("Tab")
            reached.add(self.browser.run("const it = document.activeElement; return it.id || it.value || it.tagName"))
        wanted = "cover reload template layer second use expand examples text ask job"
        wanted += " field colours other CANVAS closer farther whole"
        self.assertEqual(set(wanted.split()) - reached, set())
        self.browser.run("document.querySelector('#list button[value=cover]').focus()")
        self.browser.press("Enter")
        self.looks("cover")
        self.browser.run("document.querySelector('#first canvas').focus()")
        self.browser.press("Right")
        self.assertEqual(self.caption(), f"y 80, x 81: {self.classes[80, 81]}")
        self.browser.press("+")
        self.looks("cover")
        self.browser.press("Right", hold="Shift")
        self.looks("cover")
        self.assertEqual(self.at_corner(), (40, 60))
        self.browser.press("0")
        self.looks("cover")
        self.browser.run(
            "const it = document.getElementById('text'); it.value = 'for c in (cover) return min(c)'; it.focus()"
        )
        self.browser.press("Enter", hold="\ue009")
        self.browser.wait("return document.querySelector('#answer .number')?.textContent == '1'")

    def test_sizes_and_contrast(self):
        for width, height in [WIDE, (1024, 768), PHONE, (320, 640)]:
            for dark in (False, True):
                with self.subTest(width=width, dark=dark):
                    self.browser.screen(width, height, dark, phone=width < 600)
                    self.open()
                    self.ask("for c in (terrain) return encode(c[y(0:159), x(0:40)], csv)")
                    self.ask("for c in (terrain) return encode(c[y(0:20), x(0:40)], csv)")
                    self.assertLessEqual(self.browser.run("return document.documentElement.scrollWidth"), width)
                    self.assertEqual(self.browser.run(looks.LOW_CONTRAST), [])
                    self.ask("for c in (terrain) return sum(c)")
                    self.assertEqual(self.browser.run(looks.LOW_CONTRAST), [])
                    self.assertEqual(self.browser.run(looks.CUT_OFF), [])

    def picture(self, name, width, height, dark=False, phone=False, scale=1, full=False):
        """A screenshot of less than 100 KB."""
        self.browser.screen(width, height, dark, phone)
        time.sleep(0.5)
        tall = self.browser.run("return document.documentElement.scrollHeight") if full else height
        looks.keep(self.browser, name, width, tall, scale)

    @unittest.skipUnless(SHOTS, "--shots makes the pictures")
    def test_shots(self):
        self.open("terrain")
        self.browser.choose("#examples", "least, greatest")
        self.browser.click("#ask")
        self.told()
        self.browser.run("document.activeElement.blur()")
        self.picture("page", *SHOT)
        self.picture("small", *SHOT, scale=0.42)
        self.picture("dark", *SHOT, dark=True)
        self.ask("for c in (terrain)\nreturn encode(c[y(0:15), x(0:19)] + , csv)")
        self.picture("refusal", *SHOT)
        self.open("cover")
        self.browser.choose("#other", "later")
        self.browser.wait("return document.querySelector('#beside figcaption')?.textContent.startsWith('later:')")
        self.ask("for c in (cover) return encode(c[y(0:9), x(0:9)], csv)")
        self.browser.run("document.activeElement.blur()")
        self.picture("beside", *SHOT)
        self.browser.screen(*PHONE, phone=True)
        self.open("terrain")
        self.ask("for c in (terrain)\nreturn encode({least: min(c); greatest: max(c); mean: avg(c)}, csv)")
        self.browser.run("document.activeElement.blur(); scrollTo(0, 0)")
        self.picture("phone", *PHONE, phone=True, full=True)
        self.picture("small-phone", *PHONE, phone=True, scale=0.48)
        self.picture("phone-dark", *PHONE, phone=True, dark=True, full=True)


class Troubles(unittest.TestCase):
    """An empty store, a server that is away, and a proxy that is away."""

    def test_all(self):
        site, browser = Site(PROGRAM), Browser(*WIDE)
        self.addCleanup(site.stop)
        self.addCleanup(browser.close)
        url = site.start()
        listed = "return document.querySelectorAll('#list li').length == 1"
        until(lambda: shown(browser, url, listed), "the coverage of README's lines")
        with rasterd.Session(port=site.port) as session:
            session.delete("relief")
        browser.screen(*WIDE)
        browser.go(url)
        browser.wait("return !document.getElementById('none').hidden")
        self.assertIn("rasterd-load", browser.text("#none"))
        for part in ("look", "query", "shape", "templates"):
            self.assertTrue(browser.property(f"#{part}", "hidden"))
        if SHOTS:
            browser.screen(*SHOT)
            looks.keep(browser, "empty", *SHOT)
        site.stop_server()
        browser.click("#reload")
        self.assertIn(
            "HTTP 502",
            browser.wait("const it = document.getElementById('trouble'); return !it.hidden && it.textContent"),
        )
        if SHOTS:
            looks.keep(browser, "away", *SHOT)
        site.nginx("-s", "stop")
        browser.run("document.getElementById('trouble').textContent = ''")
        browser.click("#reload")
        told = "return document.getElementById('trouble').textContent"
        self.assertIn("No answer from", browser.wait(told))


class JobsThatFail(unittest.TestCase):
    """What the page asks of a job, and tells, where a step is not answered as it is to be."""

    @classmethod
    def setUpClass(cls):
        cls.browser = Browser(*WIDE)
        cls.addClassCleanup(cls.browser.close)
        cls.server = http.server.ThreadingHTTPServer(("127.0.0.1", 0), Scripted)
        cls.addClassCleanup(cls.server.server_close)
        cls.addClassCleanup(cls.server.shutdown)
        threading.Thread(target=cls.server.serve_forever, daemon=True).start()

    def begin(self, **said):
        """Asks a query as a job, whose requests are answered so, one after the other."""
        self.server.asked, self.server.said, self.server.go = [], said, threading.Event()
        self.browser.go(f"http://127.0.0.1:{self.server.server_port}/")
        self.browser.wait("return !document.getElementById('query').hidden")
        self.browser.run("document.getElementById('text').value = 'for c in (w) return max(c)'")
        self.browser.click("#job")

    def told(self, **said):
        self.begin(**said)
        self.server.go.set()
        return self.browser.wait(
            "return !document.getElementById('job').disabled && document.getElementById('told').textContent"
        )

    def test_a_number_that_may_be_another_clients_is_asked_for_once_and_not_cancelled(self):
        submitted, bad = [(200, "job 1 left 5\n")], (502, "<html>")
        for said, steps in [
            ("The server's run has ended, and job 1 with it.", [bad]),
            ("Job 1 is another one now: the server's run has ended.", [(200, "left 5\n")]),
            ("No answer from 127.0.0.1", [(None, "")]),
            ("answers HTTP 504 in place of the server.", [(504, "<html>")]),
            ("refused 70 NoSuchJob", [(404, "refused 70 NoSuchJob\n")]),
        ]:
            with self.subTest(said):
                self.assertIn(said, self.told(SubmitQuery=[*submitted], StepJob=steps))
                self.assertEqual(self.server.asked, ["SubmitQuery", "StepJob"])
        for said, fetched in [("run has ended, and job 1", bad), ("refused 61", (400, "refused 61 DivideByZero\n"))]:
            with self.subTest(said):
                found = self.told(
                    SubmitQuery=[(200, "job 1 left 1\n")], StepJob=[(200, "left 0\n")], FetchJob=[fetched]
                )
                self.assertIn(said, found)
                self.assertEqual(self.server.asked, ["SubmitQuery", "StepJob", "FetchJob"])

    def test_a_job_that_the_device_refuses_is_cancelled(self):
        refused = (503, "refused 90 NoMemory\n")
        told = self.told(SubmitQuery=[(200, "job 1 left 5\n")], StepJob=[refused], CancelJob=[(200, "ok\n")])
        self.assertIn("refused 90 NoMemory", told)
        until(lambda: self.server.asked == ["SubmitQuery", "StepJob", "CancelJob"], "the end of a job")

    def test_a_submission_is_sent_again_between_two_runs(self):
        submitted = [(502, "<html>"), (502, "<html>"), (200, "job 3 left 1\n")]
        told = self.told(SubmitQuery=submitted, StepJob=[(200, "left 0\n")], FetchJob=[(200, "7\n")])
        self.assertIn("1 item, 1 cell", told)
        self.assertEqual(self.server.asked, ["SubmitQuery"] * 3 + ["StepJob", "FetchJob"])

    def test_a_job_whose_page_is_left_before_its_number_comes_is_cancelled(self):
        self.begin(SubmitQuery=[(200, "job 1 left 5\n")], CancelJob=[(200, "ok\n")])
        until(lambda: self.server.asked == ["SubmitQuery"], "a submission")
        self.browser.run("window.dispatchEvent(new Event('pagehide'))")
        self.server.go.set()
        until(lambda: self.server.asked == ["SubmitQuery", "CancelJob"], "the end of a job")
        self.browser.wait("return document.getElementById('told').textContent == 'The job is cancelled.'")

    def test_a_job_is_cancelled_before_its_number_comes(self):
        self.begin(SubmitQuery=[(200, "job 1 left 5\n")], CancelJob=[(200, "ok\n")])
        until(lambda: self.server.asked == ["SubmitQuery"], "a submission")
        self.browser.click("#cancel")
        self.server.go.set()
        self.browser.wait("return document.getElementById('told').textContent == 'The job is cancelled.'")
        self.assertEqual(self.server.asked, ["SubmitQuery", "CancelJob"])


class Deployed(unittest.TestCase):
    """deploy/nginx.conf, with other ports and places: the page over TLS, and the paths behind it."""

    def setUp(self):
        self.folder = self.enterContext(tempfile.TemporaryDirectory())
        os.chmod(self.folder, 0o755)
        self.front, self.readers = free_port(), [self.enterContext(served(PROGRAM)) for _ in range(2)]
        for name, port in zip(["one", "two"], self.readers):
            with rasterd.Session(port=port) as session:
                session.insert(name, {"x": (0, 9)}, {"v": "u8"})
        made = ["openssl", "req", "-x509", "-newkey", "rsa:2048", "-nodes", "-days", "1", "-subj", "/CN=localhost"]
        made += ["-keyout", f"{self.folder}/key.pem", "-out", f"{self.folder}/certificate.pem"]
        subprocess.run(made, check=True, capture_output=True)
        open(f"{self.folder}/passwords", "w", encoding="utf-8").close()
        with open(f"{self.folder}/nginx.conf", "w", encoding="utf-8") as file:
            file.write(self.configuration())
        words = ["nginx", "-p", self.folder, "-c", f"{self.folder}/nginx.conf", "-e", f"{self.folder}/error.log"]
        nginx = subprocess.Popen(words)
        self.addCleanup(nginx.wait)
        self.addCleanup(nginx.terminate)
        self.context = ssl.create_default_context(cafile=f"{self.folder}/certificate.pem")
        self.context.check_hostname = False
        connected(self.front, nginx).close()

    def configuration(self):
        with open(f"{TOP}/deploy/nginx.conf", encoding="utf-8") as file:
            text = file.read()
        for number in range(1, 5):
            text = text.replace(f"127.0.0.1:{8000 + number}", f"127.0.0.1:{self.readers[number % 2]}")
        text = text.replace("listen 443", f"listen 127.0.0.1:{self.front}").replace("/etc/rasterd", self.folder)
        text = text.replace("/run/nginx.pid", f"{self.folder}/pid").replace("/var/log/nginx", self.folder)
        text = text.replace("/opt/rasterd/web", f"{TOP}/web")
        kinds = ["client_body", "proxy", "fastcgi", "uwsgi", "scgi"]
        places = "".join(f"    {kind}_temp_path {self.folder}/{kind};\n" for kind in kinds)
        user = "user root;\n" if os.geteuid() == 0 else ""
        return f"daemon off;\n{user}" + text.replace("http {\n", "http {\n" + places, 1)

    def got(self, path, **head):
        """The head and the body of what is at a path."""
        client = http.client.HTTPSConnection("127.0.0.1", self.front, timeout=LONGEST, context=self.context)
        client.request("GET", path, headers=head)
        reply = client.getresponse()
        found = reply.status, dict(reply.getheaders()), reply.read().decode()
        client.close()
        return found

    def test_the_page_and_its_paths(self):
        status, head, body = self.got("/")
        self.assertEqual((status, head["Content-Type"]), (200, "text/html"))
        self.assertEqual(head["Content-Security-Policy"], "default-src 'self'")
        self.assertIn("<title>rasterd</title>", body)
        self.assertIn("javascript", self.got("/page.js")[1]["Content-Type"])
        self.assertEqual(self.got("/icon.svg")[1]["Content-Type"], "image/svg+xml")
        self.assertEqual(self.got("/other")[0], 404)
        jobs = {self.got("/job/ows?request=ListCoverages")[2] for _ in range(20)}
        self.assertEqual(len(jobs), 1)

    def test_changes_need_the_password(self):
        for path in ("/ows", "/1/ows", "/2/ows", "/3/ows", "/4/ows", "/job/ows"):
            self.assertEqual(self.got(f"{path}?request=DeleteCoverage&coverage=one")[0], 403, path)
            self.assertEqual(self.got(f"{path}?request=DescribeCoverage&coverage=none")[0], 404, path)
        self.assertEqual(self.got("/edit/ows?request=DeleteCoverage&coverage=one")[0], 401)
        for name, port in zip(["one", "two"], self.readers):
            self.assertEqual(rasterd.Session(port=port).list(), [name])

    def test_pages_of_other_sites_reach_no_server(self):
        for site, is_foreign in [("cross-site", True), ("same-site", True), ("same-origin", False), ("none", False)]:
            head = {"Sec-Fetch-Site": site}
            for path in ("/ows", "/1/ows", "/2/ows", "/3/ows", "/4/ows", "/job/ows"):
                status = self.got(f"{path}?request=ListCoverages", **head)[0]
                self.assertEqual(status, 403 if is_foreign else 200, (path, site))
            self.assertEqual(self.got("/edit/ows?request=ListCoverages", **head)[0], 403 if is_foreign else 401)
            self.assertEqual(self.got("/", **head)[0], 200)


if __name__ == "__main__":
    unittest.main(verbosity=2)
