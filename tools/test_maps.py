"""Tests of the scripts that read maps: which texts are maps, what the auditor finds, and the numbers of statements."""
import importlib.machinery
import importlib.util
import os
import re
import shutil
import subprocess
import sys
import tempfile
import unittest

TOP = os.path.dirname(os.path.dirname(os.path.abspath(__file__)))
sys.path.insert(0, f"{TOP}/tools")

import graphs  # noqa: E402
import machine  # noqa: E402
import maps  # noqa: E402
import statements  # noqa: E402
from present import wants_kernel, wants_pcc, wants_preprocessor, wants_tool  # noqa: E402

PCC = os.environ.get("PCC", f"{TOP}/bin/pcc")

SMALL = """pcc map 1
object 0 0804a008 4 1
function 0 main frame 28
array 0 -24 1 4
var 0 2 x
var 1 1 c
var 2 2 p.base
var 3 2 p.index
var 4 2 -
block 0
point 0 08048023 mark 0
board bb bb bb bb pieces
before
after
spilled
point 3 08048024 const 0 -2147483648
board bb bb bb bb pieces Z2:0
before
after 0=eax
spilled
point 1 08048029 return 0
board bb bb bb bb pieces X2:0
before 0=eax
after
spilled
end
"""

# Words of SMALL and what stands in their place, where the text is still a map's.
MAPS = (
    ("object 0 0804a008 4 1\n", ""), ("frame 28", "frame 4294967295"), ("point 3 ", "point 4294967295 "), ("const 0 -2147483648", "const 0 2147483647"),
    ("0=eax", "0=[ebp-2147483648]"), ("pieces Z2:0", "pieces"), ("spilled\npoint 3", "spilled 4 2\npoint 3"), ("mark 0", "same 0 4"), ("mark 0", "wide 0 1"),
    ("mark 0", "copy 1 1"), ("mark 0", "call - 0 2 3"), ("mark 0", "load 16 0 2 3"), ("08048023", "ffffffff"), ("pieces Z2:0", "pieces X2:0 Z2:0 Y1:1"),
    ("mark 0", "zero 0 1"), ("mark 0", "shr 0 4 1"), ("mark 0", "udiv 0 3 4"), ("mark 0", "urem 0 3 4"), ("mark 0", "setu lt 0 3 4"), ("mark 0", "setu ge 0 3 4"),
    ("return 0", "branchu le 0 4 0 0"), ("return 0", "branchu gt 0 4 0 0"),
)
# And where it is none.
NO_MAPS = (
    ("pcc map 1", "pcc map 2"), ("end\n", "end"), ("end\n", ""), ("end\n", "end\nend\n"), ("const 0 -2147483648", "const 0 -0"), ("const 0 -2147483648", "const 0 07"),
    ("const 0 -2147483648", "const 0 -2147483649"), ("const 0 -2147483648", "const 0 2147483648"), ("frame 28", "frame 4294967296"), ("frame 28", "frame 028"),
    ("0804a008", "0804A008"), ("0804a008", "804a008"), ("0=eax", "0=[ebp-0]"), ("0=eax", "0=al"), ("0=eax", "0=esi"), ("0=eax", "0=[ebp-2147483649]"),
    ("before 0", "before  0"), ("before\n", "before \n"), ("pieces X2:0", "pieces X1:0"), ("pieces X2:0", "pieces Y2:0 Z2:0"), ("pieces X2:0", "pieces Z2:0 X2:0"),
    ("board bb bb bb bb", "board bb bb bb"), ("-24 1 4", "-24 1 3"), ("-24 1 4", "-24 0 4"), ("-24 1 4", "0 1 4"), ("return 0", "jump 1"), ("return 0", "mark 1"),
    ("mark 0", "return -"), ("point 1 ", "point 3 "), ("mark 0", "load 64 0 2 3"), ("mark 0", "turn 0"), ("mark 0", "copy 0 1"), ("mark 0", "wide 1 1"), ("mark 0", "static 0 1"),
    ("mark 0", "frame 0 1"), ("mark 0", "call - 1"), ("var 0 2 x", "var 0 2 9x"), ("var 0 2 x", "var 0 3 x"), ("var 2 2 p.base", "var 2 2 .base"), ("var 1 ", "var 2 "),
    ("block 0\n", "block 0\nblock 1\n"), ("spilled\nend", "spilled 5\nend"), ("spilled\nend", "spilled 1 1\nend"), ("function 0 main frame", "function 0 main"),
    ("mark 0", "zero 0 4"), ("mark 0", "zero 1 1"), ("mark 0", "shr 0 4 3"), ("mark 0", "udiv 0 3 1"), ("mark 0", "urem 0 3"), ("mark 0", "setu eq 0 3 4"),
    ("mark 0", "setu 0 3 4"), ("mark 0", "branchu lt 0 4 0 0"), ("return 0", "branchu ne 0 4 0 0"), ("return 0", "branchu lt 0 4 0 1"), ("return 0", "branchu lt 0 1 0 0"),
    ("return 0", "setu lt 0 3 4"),
)

# Ops that a map may have and the compiler makes none of.
UNMADE = {"zero", "shr", "udiv", "urem", "setu", "branchu"}


def tool(name):
    loader = importlib.machinery.SourceFileLoader(name.replace("-", "_"), f"{TOP}/tools/{name}")
    module = importlib.util.module_from_spec(importlib.util.spec_from_loader(loader.name, loader))
    loader.exec_module(module)
    return module


class Texts(unittest.TestCase):
    def test_maps_are_read(self):
        for old, new in (("", ""), *MAPS):
            with self.subTest(new):
                self.assertEqual(SMALL.count(old) > 0, True)
                maps.read(SMALL.replace(old, new, 1))

    def test_other_texts_are_refused(self):
        for old, new in NO_MAPS:
            with self.subTest(new):
                self.assertIn(old, SMALL)
                with self.assertRaises(maps.NotMap):
                    maps.read(SMALL.replace(old, new, 1))

    def test_no_beginning_is_a_map(self):
        for length in range(len(SMALL)):
            with self.assertRaises(maps.NotMap):
                maps.read(SMALL[:length])


class Boards(unittest.TestCase):
    def test_areas(self):
        areas = lambda text, **more: " ".join(graphs.areas_of(graphs.free_cells(maps.Op(text.split(), **more))))
        self.assertEqual(areas("add 0 1 2", reads=[1, 2], writes=0), "bb bb bb bb")
        self.assertEqual(areas("shl 0 1 2", reads=[1, 2], writes=0), "bb bb lb bb")
        self.assertEqual(areas("div 0 1 2", reads=[1, 2], writes=0), "nn bb bb nn")
        self.assertEqual(areas("rem 0 1 2", reads=[1, 2], writes=0), "nn bb bb nn")
        self.assertEqual(areas("shr 0 1 2", reads=[1, 2], writes=0), "bb bb lb bb")
        self.assertEqual(areas("udiv 0 1 2", reads=[1, 2], writes=0), "nn bb bb nn")
        self.assertEqual(areas("urem 0 1 2", reads=[1, 2], writes=0), "nn bb bb nn")
        self.assertEqual(areas("getchar 0", writes=0), "uu bb uu uu")
        self.assertEqual(areas("call - 0"), "uu bb uu uu")
        self.assertEqual(areas("exit 0", reads=[0]), "uu bb uu uu")

    def test_solvable(self):
        audit = tool("audit-map")
        free = lambda words: frozenset((k, c, row) for k, word in enumerate(words.split()) for c in (0, 1) for row in "ul"
                                       if word[c] in ("b", row))
        pieces = lambda words: [(word[0], int(word[1]), k) for k, word in enumerate(words.split())]
        for areas, board, holds in (("bb bu nn nn", "X2 Z2 Y1", True), ("bb nn nn nn", "Y2 X1 Z1", False), ("ub nn nn nn", "X2 Z1 Z1", False),
                                    ("bb bb bb bb", "Y2 Y2 Y2 Y2", True), ("bb bb bb bb", "Y2 Y2 Y2 Y2 X1", False), ("uu ll nn nn", "X2 Z2", True)):
            self.assertEqual(audit.solvable(free(areas), pieces(board), set()), holds, board)


class Numbers(unittest.TestCase):
    def test_statements(self):
        text = """int x = 1, y;
static int f(int a)
{
    for (int i = 0, k; i < a; i++)
        if (i) { static int s = 3; int t[2] = {1, 2}, u = i ? s : a; }
        else
            ;
    switch (a) { case 1 ? 2 : 3: case 4: x = 1; break; default: { y = 2; } }
    do x++; while (x < 3);
    return x;
}
int main(void) { return f(3); }
"""
        with tempfile.TemporaryDirectory() as room:
            path = f"{room}/a.c"
            with open(path, "w", encoding="ascii") as file:
                file.write(text)
            found = [(it.line, it.function) for it in statements.statements_of([path])]
        lines = [4, 4, 4, 5, 5, 5, 7, 8, 8, 8, 8, 9, 9, 10, 12]
        self.assertEqual(found, [(line, "f" if line < 12 else "main") for line in lines])


# Of the map of examples/strings.c, words of some line and what stands in their place: each makes it untrue. The first are found by the map alone.
CHANGES = (
    (r"^before (\d+)=(\w+)", r"before"), (r"^after (\d+)=ebx\b", r"after \1=ecx"), (r"^before (\d+)=ecx\b", r"before \1=ebx"),
    (r"^board bb bb bb bb", "board bb bb bb bu"), (r"^board uu", "board bb"), (r"pieces X", "pieces Y"), (r"pieces Y", "pieces X"), (r" Z2:\d+$", ""), (r"pieces$", "pieces X2:0"),
    (r"^spilled (\d+)$", "spilled"), (r"^spilled$", "spilled 0"), (r"^spilled (\d+) (\d+)", r"spilled \2 \1"), (r"(\d+)=\[ebp-20\]", r"\1=[ebp-24]"),
    (r"frame (\d+)$", "frame 4"), (r" mark (\d+)$", " turn"), (r" turn$", " mark 4000"), (r" mark 7$", " mark 8"), (r" add (\d+) (\d+) (\d+)$", r" add \1 \2 \2"),
    (r" const (\d+) ", " const 0 "), (r" branch (\w+) (\d+) (\d+) ", r" branch \1 \2 \2 "), (r" jump (\d+)$", " jump 0"), (r" call (\d+) (\d+) (\d+)", r" call - \2 \3"),
    (r" return (\d+)$", " return -"), (r" copy (\d+) (\d+)$", r" copy \2 \2"), (r" rem ", " div "),
    # And these leave another legal map, which the image isn't one of.
    (r"^point (\d+) 08048(\w)", r"point \1 08049\2"), (r"^point (\d+) (\w+) mark 3$", r"point \1 08048000 mark 3"), (r"^after (\d+)=eax\b", r"after \1=edx"),
    (r"^object 1 (\w+) 7", r"object 1 \1 6"), (r"^object 1 0804920c", "object 1 08049210"), (r"^function 0 length", "function 0 main"),
    (r" const (\d+) 40$", r" const \1 41"), (r" const (\d+) 1$", r" const \1 -1"), (r" copy (\d+) (\d+)$", r" neg \1 \2"), (r" param (\d+) 1$", r" param \1 0"),
    (r" add (\d+ \d+ \d+)$", r" sub \1"), (r" add (\d+ \d+ \d+)$", r" xor \1"), (r" sub (\d+) (\d+) (\d+)$", r" sub \1 \3 \2"), (r" set lt", " set ge"),
    (r" static (\d+) 1$", r" static \1 2"), (r" load 8 (\d+) (\d+) (\d+)$", r" load 8 \1 \3 \2"), (r" load 8 ", " load 16 "), (r" store 8 ", " store 32 "),
    (r" store 8 (\d+) (\d+) (\d+)$", r" store 8 \2 \1 \3"), (r" branch (\w+ \d+ \d+) (\d+) (\d+)$", r" branch \1 \3 \2"),
    (r" branch (\w+ \d+ \d+) (\d+) (\d+)$", r" branch \1 \3 \3"), (r" branch lt", " branch le"), (r" jump 2$", " jump 1"), (r" call (\d+) 0 ", r" call \1 1 "),
    (r" call - 2 3 4 8 9", " call - 2 3 4 9 8"),
)


@wants_pcc
@wants_preprocessor
class Programs(unittest.TestCase):
    @classmethod
    def setUpClass(cls):
        cls.room = tempfile.mkdtemp()
        cls.image, cls.text = cls.compiled("examples/strings.c")

    @classmethod
    def compiled(cls, source):
        """The image of a source, and the text of its map."""
        image = f"{cls.room}/{os.path.basename(source)[:-2]}"
        subprocess.run([f"{TOP}/bin/pcc-cc", "-o", image, f"{TOP}/{source}"], env={**os.environ, "PCC": PCC}, check=True)
        with open(f"{image}.map", encoding="ascii") as file:
            return image, file.read()

    @classmethod
    def tearDownClass(cls):
        shutil.rmtree(cls.room)

    def test_changed_maps_are_found(self):
        audit = tool("audit-map")
        with open(self.image, "rb") as file:
            image = file.read()
        self.assertRegex(audit.audit(self.text, image), r"\d+ points")
        for old, new in CHANGES:
            with self.subTest(new):
                changed, many = re.subn(old, new, self.text, count=1, flags=re.MULTILINE)
                self.assertEqual(many, 1, old)
                self.assertNotEqual(changed, self.text)
                with self.assertRaises((maps.NotMap, audit.Untrue)):
                    audit.audit(changed, image)

    def test_every_op_is_followed(self):
        image, text = self.compiled("tools/every_op.c")
        ops = {p.op.name for f in maps.read(text).functions for p in f.points()}
        self.assertEqual(ops, {*maps.OPS, "call", "return"} - UNMADE)
        with open(image, "rb") as file:
            self.assertRegex(tool("audit-map").audit(text, file.read()), r"\d+ points")

    @wants_kernel
    def test_every_op_is_run(self):
        image, _ = self.compiled("tools/every_op.c")
        done = subprocess.run([image], input=b"", capture_output=True, check=False)
        self.assertEqual((done.stdout, done.returncode), (b"acbacb:\n", 37))

    @wants_tool("objdump")
    def test_instructions_begin_where_objdump_has_them(self):
        with open(self.image, "rb") as file:
            image = file.read()
        self.assertEqual(sorted(tool("view-map").instructions(image)), sorted(machine.instructions_of(image)))


if __name__ == "__main__":
    unittest.main()
