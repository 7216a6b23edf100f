"""Which crates a change touches, and which stand above them."""
import importlib.machinery
import importlib.util
import os
import unittest

PATH = f"{os.path.dirname(os.path.abspath(__file__))}/check"
LOADER = importlib.machinery.SourceFileLoader("check", PATH)
check = importlib.util.module_from_spec(importlib.util.spec_from_loader("check", LOADER))
LOADER.exec_module(check)

ROWS = {"base": [], "lex": ["base"], "parse": ["base", "lex"], "board": ["base"], "top": ["parse", "board"]}


class Changes(unittest.TestCase):
    def test_names_the_crates_of_files(self):
        paths = ["crates/parse/src/lib.rt", "crates/lex/specs/Tokens.antt", "docs/USING.md", "crates/board/README.md"]
        self.assertEqual(check.changed_crates(paths, ROWS), ["lex", "parse"])

    def test_takes_all_where_the_crates_change(self):
        self.assertEqual(check.changed_crates(["crates.txt"], ROWS), list(ROWS))

    def test_leaves_pages_alone(self):
        self.assertEqual(check.changed_crates(["README.md", "tools/check"], ROWS), [])

    def test_names_what_stands_above(self):
        self.assertEqual(check.above(["lex"], ROWS), ["parse", "top"])
        self.assertEqual(check.above(["board", "parse"], ROWS), ["top"])
        self.assertEqual(check.above(["top"], ROWS), [])


if __name__ == "__main__":
    unittest.main()
