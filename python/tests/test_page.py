"""The HTML page: what is embedded is what the library says, nothing escapes, and a browser shows it, where there is one."""

import base64
import json
import random
import re
import shutil
import struct
import subprocess
import tempfile
import time
import unittest
from html import unescape
from html.parser import HTMLParser
from pathlib import Path

from clearance import page, picture
from clearance.job import Job
from clearance.lengths import millimetres
from tests.samples import EDGE, EXAMPLES, MAP, SHEET, Folder, command

BROWSERS = ("chromium", "chromium-browser", "google-chrome", "google-chrome-stable")
BROWSER = next(filter(None, map(shutil.which, BROWSERS)), None)
# The plate reaches beyond the coordinates that a point may have.
BEYOND = SHEET.replace(b"(plate -8 -8 4)", b"(plate 999997 -8 3)")
BAFFLE = next(path for path in EXAMPLES if path.stem == "baffle")


class Elements(HTMLParser):
    """The elements of a page: how often each tag comes, every attribute, and the text of those with an id."""

    def __init__(self, text):
        super().__init__()
        self.tags, self.attributes, self.texts, self.name = [], [], {}, None
        self.feed(text)
        self.close()

    def handle_starttag(self, tag, attrs):
        self.tags.append(tag)
        self.attributes += attrs
        self.name = dict(attrs).get("id") or (tag if tag in ("title", "h1") else None)

    def handle_endtag(self, tag):
        self.name = None

    def handle_data(self, data):
        if self.name:
            self.texts[self.name] = self.texts.get(self.name, "") + data


def made(sheet, rows=None, name="a sheet", width=picture.DEFAULT_WIDTH):
    drawn = Job.from_sheet(sheet).drawn()
    rows = rows or drawn.map.rows
    return page.page(name, "Source.", picture.picture(drawn.job, rows, width), width, drawn, rows)


def embedded(text):
    """What the page's script reads."""
    return json.loads(re.search('<script type="application/json" id="data">(.*?)</script>', text, re.S).group(1))


def pairs(data):
    raw = base64.b64decode(data["bounds"])
    numbers = struct.unpack(f"<{len(raw) // 4}i", raw)
    return list(zip(numbers[0::2], numbers[1::2]))


def told(drawn, column, row):
    """What the page has to say of a cell, from the library, one point asked alone."""
    x, y = page.spot(drawn.job, column, row)
    nearest = drawn.point(millimetres(x), millimetres(y))
    letter, side = drawn.map.at(column, row), 1 << drawn.job.m
    left, low = drawn.job.x + column * side, drawn.job.y + row * side
    return {
        "cell": f"column {column}, row {row}",
        "letter": f"{letter}, {picture.NAMES[letter]}: {picture.MEANINGS[letter]}",
        "across": f"{millimetres(left)} to {millimetres(left + side)} mm",
        "up": f"{millimetres(low)} to {millimetres(low + side)} mm",
        "spot": f"x {millimetres(x)} mm, y {millimetres(y)} mm",
        "distance": f"{nearest.lo} to {nearest.hi} mm (rounded outwards)",
    }


class Bounds(unittest.TestCase):
    def test_every_cell_of_the_sample(self):
        drawn = Job.from_sheet(SHEET).drawn()
        data = embedded(made(SHEET))
        self.assertEqual((data["side"], data["cell"], data["half"], data["x"], data["y"]), (8, 2, 1, -8, -8))
        self.assertEqual(data["letters"], "".join(drawn.map.rows))
        for index, (lo, hi) in enumerate(pairs(data)):
            row, column = divmod(index, 8)
            nearest = drawn.point(millimetres(-7 + 2 * column), millimetres(-7 + 2 * row))
            self.assertEqual((lo, hi), (int(nearest.lo * 10_000), int(nearest.hi * 10_000)))

    def test_cells_of_one_hundredth(self):
        sheet = SHEET.replace(b"(cell 1)", b"(cell 0)")
        drawn = Job.from_sheet(sheet).drawn()
        text = made(sheet)
        self.assertIn("distance of the cell's lower left corner from the outline", text)
        self.assertNotIn("centre", Elements(text).texts.get("notes", "") + text[text.index("<dl") : text.index("</main>")])
        nearest = drawn.point(millimetres(-8 + 3), millimetres(-8 + 15))
        self.assertEqual(pairs(embedded(text))[15 * 16 + 3], (int(nearest.lo * 10_000), int(nearest.hi * 10_000)))

    def test_cells_out_of_the_coordinates(self):
        """Centres at 10,000 mm are answered for, and none beyond."""
        found = pairs(embedded(made(BEYOND)))
        self.assertEqual(page.spot(Job.from_sheet(BEYOND), 1, 0)[0], 1_000_000)
        for row in range(4):
            self.assertTrue(all(lo > 0 for lo, _ in found[4 * row : 4 * row + 2]))
            self.assertEqual(found[4 * row + 2 : 4 * row + 4], [(page.NONE, page.NONE)] * 2)

    def test_the_farthest_fits(self):
        edge = b"(line (1000000 1000000) (1000000 1000000))\n"
        sheet = SHEET.replace(b"(plate -8 -8 4)", b"(plate -1000000 -1000000 20)").replace(b"(cell 1)", b"(cell 12)")
        for grain in (b"1", b"100000"):
            job = sheet.replace(EDGE, edge).replace(b"(grain 1)", b"(grain " + grain + b")")
            self.assertTrue(0 < max(max(pairs(embedded(made(job))))) < 312_000_000)


class Text(unittest.TestCase):
    def test_nothing_from_anywhere(self):
        found = Elements(made(SHEET))
        self.assertFalse({"link", "img", "iframe", "object", "embed", "base"} & set(found.tags))
        self.assertFalse({"src", "href", "action", "onclick"} & {name for name, _ in found.attributes})
        self.assertIn("default-src 'none'", dict(found.attributes)["content"] + str(found.attributes))
        self.assertEqual(found.tags.count("script"), 2)

    def test_names_are_escaped(self):
        name = "</title><script>alert(1)</script>&amp;\"'@DATA@@PICTURE@"
        found = Elements(made(SHEET, name=name))
        self.assertEqual(found.tags.count("script"), 2)
        self.assertEqual(found.texts["title"], f"{name}: clearance map")
        self.assertEqual(found.texts["h1"], f"Clearance map of {name}")

    def test_it_says_what_the_numbers_are(self):
        text = " ".join(made(SHEET).split())
        for sentence in (
            "distance of the cell's centre from the outline",
            "No point of the outline is nearer to the cell's centre than the first distance",
            "some point of the outline is within the second",
            "C does not tell part from stock",
        ):
            self.assertIn(sentence, text)
        self.assertIn("(rounded outwards)", text)

    def test_size_and_time_of_the_largest(self):
        start = time.monotonic()
        text = made(BAFFLE.read_bytes())
        self.assertLess(time.monotonic() - start, 10)
        self.assertEqual(embedded(text)["side"], 256)
        self.assertLess(len(text.encode("utf-8")), 1_500_000)


class Look(unittest.TestCase):
    def setUp(self):
        self.folder = Folder()
        self.addCleanup(self.folder.cleanup)

    def test_the_verb(self):
        path = self.folder.file("my.sheet", SHEET)
        status, text, error = command("look", path, "--html")
        self.assertEqual((status, error), (0, ""))
        self.assertEqual(Elements(text).texts["title"], "my.sheet: clearance map")
        self.assertIn("The letters are the library&#x27;s.", text)
        given = self.folder.file("m", MAP.replace(b"D", b"I"))
        text = command("look", path, given, "--html")[1]
        self.assertIn("The letters are those of the map file that was given.", text)
        self.assertEqual(embedded(text)["letters"].count("D"), 0)
        self.assertIn("standard input", command("look", "-", "--html", stdin=SHEET)[1])

    def test_a_name_that_is_no_text(self):
        path = self.folder.file("sheet\udcff", SHEET)
        status, text, _ = command("look", path, "--html")
        self.assertEqual((status, Elements(text).texts["title"]), (0, "sheet?: clearance map"))


@unittest.skipUnless(BROWSER, "no browser that writes out a page is on the path")
class Browser(unittest.TestCase):
    """Each page is loaded without a window; a script that the test adds acts as a hand would."""

    @classmethod
    def setUpClass(cls):
        cls.folder = tempfile.mkdtemp()
        # A browser may still write there as it ends.
        cls.addClassCleanup(shutil.rmtree, cls.folder, ignore_errors=True)
        try:
            works = "<p>works</p>" in cls.document("<p>works</p>")
        except (subprocess.SubprocessError, OSError):
            works = False
        if not works:
            raise unittest.SkipTest(f"{BROWSER} does not start here")

    @classmethod
    def document(cls, text, address=""):
        """The page as it stands once it is loaded."""
        path = Path(cls.folder) / "page.html"
        path.write_text(text, encoding="utf-8")
        options = ["--headless", "--no-sandbox", "--disable-gpu", f"--user-data-dir={cls.folder}/profile", "--window-size=1300,1100"]
        command_line = [BROWSER, *options, "--dump-dom", path.as_uri() + address]
        return subprocess.run(command_line, capture_output=True, timeout=60, check=True).stdout.decode("utf-8")

    def shown(self, text, address="", action=""):
        """The texts of the page's lines."""
        document = self.document(text.replace("</body>", f"<script>{action}</script></body>"), address)
        lines = re.findall('<dd [^>]*id="([a-z]+)">(.*?)</dd>', document)
        return {name: unescape(words) for name, words in lines}

    def test_the_address(self):
        drawn = Job.from_sheet(BAFFLE.read_bytes()).drawn()
        text = made(BAFFLE.read_bytes())
        chance = random.Random(5)
        for column, row in [(255, 0), (chance.randrange(256), chance.randrange(256))]:
            self.assertEqual(self.shown(text, f"#{column},{row}"), told(drawn, column, row))

    def test_the_pointer_and_the_keys(self):
        """The middle of column 5, row 2 of the sample, three keys from there, and the frame's outside, which changes nothing."""
        drawn = Job.from_sheet(SHEET).drawn()
        point = """
          const box = document.getElementById("frame").getBoundingClientRect();
          const at = (column, row) => new PointerEvent("pointermove", {bubbles: true,
            clientX: box.left + box.width * (column + 0.5) / 8, clientY: box.bottom - box.height * (row + 0.5) / 8});
          const map = document.getElementById("map");
          const press = (key, shiftKey) => map.dispatchEvent(new KeyboardEvent("keydown", {key, shiftKey, bubbles: true}));
          map.dispatchEvent(at(5, 2));
          map.dispatchEvent(at(5, -1));
        """
        text = made(SHEET)
        self.assertEqual(self.shown(text, action=point), told(drawn, 5, 2))
        keys = 'press("ArrowUp"); press("ArrowUp"); press("ArrowLeft"); press("x");'
        self.assertEqual(self.shown(text, action=point + keys), told(drawn, 4, 4))
        ends = 'press("ArrowUp", true); press("Home"); press("ArrowLeft"); press("ArrowDown");'
        self.assertEqual(self.shown(text, action=point + ends), told(drawn, 0, 6))

    def test_out_of_the_coordinates(self):
        self.assertIn("from -10000 to 10000 mm only", self.shown(made(BEYOND), "#2,0")["distance"])


if __name__ == "__main__":
    unittest.main()
