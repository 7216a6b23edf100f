"""Tests of tools/gdb-pcc.py in gdb: what it says of tools/debugged.c, whose values are known from the source."""
import os
import re
import shutil
import subprocess
import sys
import tempfile
import unittest

TOP = os.path.dirname(os.path.dirname(os.path.abspath(__file__)))
sys.path.insert(0, f"{TOP}/tools")

from present import debugs_images, wants, wants_pcc, wants_preprocessor  # noqa: E402

PCC = os.environ.get("PCC", f"{TOP}/bin/pcc")
SOURCE = f"{TOP}/tools/debugged.c"


def line_of(text):
    """The number of the line of the source that holds a text."""
    with open(SOURCE, encoding="ascii") as file:
        return next(k for k, row in enumerate(file, 1) if text in row)


@wants_pcc
@wants_preprocessor
@wants(debugs_images(), "gdb isn't on this machine, or runs no executables for i386")
class Debugging(unittest.TestCase):
    @classmethod
    def setUpClass(cls):
        cls.room = tempfile.mkdtemp()
        cls.image = f"{cls.room}/debugged"
        subprocess.run([f"{TOP}/bin/pcc-cc", "-o", cls.image, SOURCE], env={**os.environ, "PCC": PCC}, check=True)

    @classmethod
    def tearDownClass(cls):
        shutil.rmtree(cls.room)

    def debug(self, given, *commands):
        """What gdb says to these commands, where the program's input is this text, from the line behind the breakpoints on."""
        with open(f"{self.room}/given", "w", encoding="ascii") as file:
            file.write(given)
        with open(f"{self.room}/commands", "w", encoding="ascii") as file:
            file.write("\n".join([f"source {TOP}/tools/gdb-pcc.py", f"pcc-sources {SOURCE}", *commands]).replace("RUN", f"run < {self.room}/given"))
        words = ["gdb", "-nx", "-q", "-batch", "-x", f"{self.room}/commands", self.image]
        done = subprocess.run(words, stdin=subprocess.DEVNULL, capture_output=True, text=True, timeout=100, check=False)
        self.refused = done.stderr
        return [row for row in done.stdout.split("\n") if row and not re.match(r"Breakpoint|0x|\[Inferior|Using host|warning|Download", row)]

    def test_locals_and_places(self):
        at, inner = line_of("if (got == 't')"), line_of("total += a[k]")
        first = [f"pcc-break debugged.c:{at - 1}", "RUN", "pcc-where", "pcc-locals"]
        then = [f"pcc-break debugged.c:{inner}", "continue", "continue", "continue", "pcc-where", "pcc-locals"]
        said = self.debug("x", *first, *then)
        where = next(k for k, row in enumerate(said) if row.startswith("main, point"))
        self.assertRegex(said[where - 1], rf"statement \d+ of main, debugged.c:{at}, at 0x0804")
        self.assertRegex(said[where], rf"main, point \d+, statement \d+, {re.escape(SOURCE)}:{at}$")
        values = ["none = null", "c = -7", "s = -300", "big = -2000000000", "second = d1.0[1]", "last = o0[3]", "got = 120"]
        self.assertEqual(said[where + 1:where + 8], values)
        self.assertRegex(said[where + 8], rf"statement \d+ of sum, debugged.c:{inner}, at")
        behind = next(k for k, row in enumerate(said) if row.startswith("sum, point"))
        self.assertRegex(said[behind], rf"sum, point \d+, statement \d+, {re.escape(SOURCE)}:{inner}$")
        self.assertEqual(said[behind + 1:], ["a = o0[0]", "n = 4", "total = 5", "k = 2"])

    def test_failed_checks(self):
        called, inner = line_of("sum(room + 1, 4)"), line_of("total += a[k]")
        self.assertRegex(self.debug("t", "RUN", "pcc-where")[-1], rf"^a check failed in sum, called by statement \d+, {re.escape(SOURCE)}:{called};")
        self.assertRegex(self.debug("t", "pcc-trace", "RUN", "pcc-where")[-1], rf"^a check failed in sum, statement \d+, {re.escape(SOURCE)}:{inner}$")

    def test_divisions(self):
        said = self.debug("d", "RUN", "pcc-where")
        self.assertIn("Program received signal SIGFPE, Arithmetic exception.", said)
        self.assertRegex(said[-1], rf"share, point \d+, statement \d+, {re.escape(SOURCE)}:{line_of('return half / of')}$")

    def test_other_words_are_refused(self):
        for words, said in (("pcc-break debugged.c:900", "no statement begins on line 900 of debugged.c"), ("pcc-break debugged.c", "pcc-break FILE:LINE"),
                            (f"pcc-sources {TOP}/examples/return.c", "they don't belong together")):
            self.debug("", words)
            self.assertIn(said, self.refused)


if __name__ == "__main__":
    unittest.main()
