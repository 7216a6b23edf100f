"""Tests of tools/view-map: boards as text, and the page as a browser draws it."""
import html
import json
import os
import re
import shutil
import subprocess
import sys
import tempfile
import unittest

TOP = os.path.dirname(os.path.dirname(os.path.abspath(__file__)))
sys.path.insert(0, f"{TOP}/tools")

import maps  # noqa: E402
import statements  # noqa: E402
from present import draws_pages, wants, wants_pcc, wants_preprocessor  # noqa: E402

wants_browser = wants(draws_pages(), "chromium isn't on this machine, or draws no page")

PCC = os.environ.get("PCC", f"{TOP}/bin/pcc")
SOURCE = f"{TOP}/tools/every_op.c"
# The ops whose first points are looked at.
OPS = ("mark", "const", "shl", "sar", "div", "rem", "call", "putchar", "getchar", "exit", "set", "store", "low", "branch")
COLUMNS = ("al", "ah", "bl", "bh", "cl", "ch", "dl", "dh")
# Goes to each point by the page's own handler, then presses keys, each from one point on, and leaves what was drawn then as the page's whole text.
COLLECT = """<script>
const drawn = [];
for (const [where, key] of %s) {
  history.replaceState(null, "", "#" + where);
  onhashchange();
  if (key) dispatchEvent(new KeyboardEvent("keydown", { key }));
  drawn.push(document.getElementById("board").outerHTML + (document.querySelector("#source .chosen")?.outerHTML ?? ""));
}
document.body.replaceChildren();
make(document.body, "pre", JSON.stringify(drawn));
</script>"""


class Drawn:
    """What a page shows: its board's heading, each cell's text and classes, the spilled, and the line of the source that is chosen."""

    def __init__(self, text):
        found = re.findall(r'<td(?: class="([^"]*)")? data-cell="([^"]*)"[^>]*>([^<]*)</td>', text)
        self.cells = {cell: (name, set(classes.split())) for classes, cell, name in found}
        self.head = re.search(r"<h2>(point [^<]*)</h2>", text)[1]
        self.spilled = re.findall(r'<tr class="red"><td><span class="name"[^>]*>([^<]*)</span>', text)
        self.line = re.search(r'<div class="line chosen"><span class="n">([0-9]+)', text)


def name_of(f, v):
    return f.variables[v][1] if f.variables[v][1] != "-" else f"t{v}"


def columns_of(place):
    """The byte columns of a register's name, or none of a slot."""
    return [place[1] + side for side in "lh"] if len(place) == 3 else [place] * (place in COLUMNS)


@wants_pcc
@wants_preprocessor
class Pages(unittest.TestCase):
    @classmethod
    def setUpClass(cls):
        cls.room = tempfile.mkdtemp()
        cls.image, cls.page = f"{cls.room}/every_op", f"{cls.room}/page.html"
        subprocess.run([f"{TOP}/bin/pcc-cc", "-o", cls.image, SOURCE], env={**os.environ, "PCC": PCC}, check=True)
        cls.map = maps.read_file(f"{cls.image}.map")
        cls.view("-o", cls.page, f"{cls.image}.map", cls.image, SOURCE)

    @classmethod
    def tearDownClass(cls):
        shutil.rmtree(cls.room)

    @classmethod
    def view(cls, *words):
        return subprocess.run([f"{TOP}/tools/view-map", *words], env={**os.environ, "PCC": PCC}, capture_output=True, text=True, check=True).stdout

    def points(self):
        """The first point of each of OPS, with its function."""
        every = [(f, p) for f in self.map.functions for p in f.points()]
        return [next(it for it in every if it[1].op.name == name) for name in OPS]

    def draw(self, page, where):
        """The page's tree as a browser has it, at a point."""
        words = ["chromium", "--headless", "--no-sandbox", "--disable-gpu", f"--user-data-dir={self.room}/browser", "--dump-dom", f"file://{page}#{where}"]
        with open(f"{self.room}/drawn", "w+", encoding="utf-8") as file:
            subprocess.run(words, stdin=subprocess.DEVNULL, stdout=file, stderr=subprocess.DEVNULL, timeout=100, check=True)
            file.seek(0)
            return file.read()

    def check(self, f, point, text):
        drawn, where = Drawn(text), f"{f.name}:{point.number}"
        self.assertEqual(drawn.head, f"point {point.number} of {f.name} at 0x{point.address:08x}")
        self.assertEqual(len(drawn.cells), 16)
        for side, places, row in (("before", point.before, "u"), ("after", point.after, "l")):
            wanted = {column: name_of(f, v) for v, place in places.items() for column in columns_of(place)}
            for k, column in enumerate(COLUMNS):
                name, classes = drawn.cells[f"{side}:{column}"]
                is_free = point.areas[k // 2][k % 2] in ("b", row)
                self.assertEqual((name, not classes & {"taken", "fixed"}), (wanted.get(column, ""), is_free), f"{where} {side}:{column}")
        self.assertEqual(drawn.spilled, [name_of(f, v) for v in point.spilled], where)
        if point.op.name == "mark":
            self.assertEqual(int(drawn.line[1]), statements.statements_of([SOURCE])[int(point.op.words[1])].line)

    @wants_browser
    def test_page_opens_at_a_point(self):
        f, point = self.points()[-1]
        self.check(f, point, self.draw(self.page, f"{f.name}:{point.number}"))

    @wants_browser
    def test_cells_are_drawn_as_the_map_has_them(self):
        f = next(f for f in self.map.functions if f.name == "mix")
        listed, marks = f.points(), [p for p in f.points() if p.op.name == "mark"]
        at = listed.index(marks[1])
        keys = [(f, p, key) for key, p in (("ArrowDown", listed[at + 1]), ("ArrowUp", listed[at - 1]), ("ArrowRight", marks[2]), ("ArrowLeft", marks[0]))]
        points = [*((*it, "") for it in self.points()), *keys]
        asked = [(f"mix:{marks[1].number}" if key else f"{f.name}:{p.number}", key) for f, p, key in points]
        with open(self.page, encoding="utf-8") as file:
            text = file.read()
        with open(f"{self.room}/all.html", "w", encoding="utf-8") as file:
            file.write(text.replace("</html>", COLLECT % json.dumps(asked) + "</html>"))
        found = re.search("<pre>(.*)</pre>", self.draw(f"{self.room}/all.html", asked[0][0]), re.DOTALL)
        drawn = json.loads(html.unescape(found[1]))
        self.assertEqual(len(drawn), len(points))
        for (f, point, key), text in zip(points, drawn):
            with self.subTest(f"{f.name}:{point.number} {key}"):
                self.check(f, point, text)

    def test_one_function_alone(self):
        page = f"{self.room}/fill.html"
        self.view("-o", page, "-f", "fill", f"{self.image}.map", self.image, SOURCE)
        with open(page, encoding="utf-8") as file:
            text = file.read()
        self.assertNotIn("DATA</script>", text)
        self.assertEqual(re.findall(r'"name":"(\w+)","points"', text), ["fill"])

    def test_boards_are_shown(self):
        for f, point in self.points():
            rows = self.view("-p", f"{f.name}:{point.number}", f"{self.image}.map").split("\n")
            self.assertTrue(rows[0].startswith(f"point {point.number} of {f.name} at {point.address:08x}: {point.op.name}"), rows[0])
            for row, places, side in ((rows[2], point.before, "before"), (rows[3], point.after, "after")):
                words = row.split()
                wanted = {column: name_of(f, v) for v, place in places.items() for column in columns_of(place)}
                self.assertEqual(words[0], side)
                self.assertEqual([it.strip("()") for it in words[1:]], [wanted.get(c, it) for c, it in zip(COLUMNS, words[1:])])
            self.assertEqual(sum(row.endswith("spilled") for row in rows[5:]), len(point.spilled))

    def test_solved_board_file(self):
        with open(f"{self.room}/board", "w", encoding="ascii") as file:
            file.write("areas bb bu\npieces X2 Z2 Y1\n")
        rows = [row.split() for row in self.view("--board", f"{self.room}/board").split("\n")]
        self.assertEqual(rows[:3], [["0.low", "0.high", "1.low", "1.high"], ["upper", "X0", "X0", "Y2", "."], ["lower", "Z1", "Z1", "Y2", "///"]])


if __name__ == "__main__":
    unittest.main()
