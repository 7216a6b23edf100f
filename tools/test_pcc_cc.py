"""Tests of bin/pcc-cc: what it answers on mistakes that people make, and what it writes."""
import os
import resource
import shutil
import stat
import subprocess
import sys
import tempfile
import unittest

TOP = os.path.dirname(os.path.dirname(os.path.abspath(__file__)))
sys.path.insert(0, f"{TOP}/tools")

from present import wants_own_pcc, wants_pcc, wants_preprocessor  # noqa: E402

# A file, where its fault is told, the fault, and words of the sentence.
MISTAKES = (
    ("int main(void)\n{\n    int x = 5\n    int y = 6;\n    return x + y;\n}\n", "4:5", "5 Syntax", "a `;` is missing behind `5`, on the line before"),
    ("int main(void)\n{\n    int count = 5;\n    coutn = count + 1;\n    return count;\n}\n", "4:5", "9 Undeclared", "did you mean `count`?"),
    ("int main(void)\n{\n    unsigned int x = 5;\n    return x;\n}\n", "3:5", "6 Unsupported unsigned", "write `int`"),
    ("struct point { int x; int y; };\nint main(void)\n{\n    struct point p;\n    p.x = 1;\n    return p.x;\n}\n", "1:1", "6 Unsupported struct", "a variable or an array for each member"),
    ("int main(void)\n{\n    int x = 2.5 * 3;\n    return x;\n}\n", "3:13", "2 BadNumber", "floating point is left out"),
    ("int main(void)\n{\n    float x = 5;\n    return x;\n}\n", "3:5", "6 Unsupported float", "count in `int`"),
    ("int main(void)\n{\n    long x = 5;\n    return x;\n}\n", "3:5", "6 Unsupported long", "types of more than 32 bits"),
    ('int main(void)\n{\n    printf("%d\\n", 5);\n    return 0;\n}\n', "3:5", "9 Undeclared", "of C's library there are `putchar`, `getchar` and `exit`"),
    ("int main(int argc, char **argv)\n{\n    return argc;\n}\n", "1:26", "5 Syntax", "write `int main(void)`"),
    ("int main(int argc, char *argv[])\n{\n    return argc;\n}\n", "1:26", "17 PointerUse", "write `int main(void)`"),
    ("void main(void)\n{\n}\n", "4:1", "18 NoMain", "`main` isn't `int main(void)`"),
    ("int foo(void)\n{\n    return 1;\n}\n", "5:1", "18 NoMain", "no function `main` is defined"),
    ("int main(void)\n{\n    int a[4];\n    char *p = a;\n    return p[0];\n}\n", "4:15", "17 PointerUse", "a pointer to the very same type, or 0"),
    ("int main(void)\n{\n    int a[4];\n    int p = a;\n    return p;\n}\n", "4:13", "17 PointerUse", "a number takes a number"),
    ("int main(void)\n{\n    char *names[3];\n    return 0;\n}\n", "3:11", "17 PointerUse", "arrays of pointers are left out"),
    ('static const char *message = "hello";\nint main(void)\n{\n    putchar(message[0]);\n    return 0;\n}\n', "1:20", "17 PointerUse", "write an array, as `message[]`"),
    ("int m[3][3];\nint main(void)\n{\n    return m[1][1];\n}\n", "1:9", "5 Syntax", "arrays have one dimension"),
    ("int main(void)\n{\n    int x = 5;\n    int *p = &x;\n    *p = 6;\n    return x;\n}\n", "4:14", "17 PointerUse", "`&` takes an element"),
    ("int add(int a, int b)\n{\n    return a + b;\n}\nint main(void)\n{\n    return add(1, 2, 3);\n}\n", "7:12", "12 ArgumentCount",
     "`add` has 2 parameters, and is called with 3 arguments"),
    ('int main(void)\n{\n    return "abc";\n}\n', "3:5", "17 PointerUse", "a function's result is a number"),
    ("void f(void)\n{\n    return 1;\n}\nint g(void)\n{\n    return;\n}\nint main(void)\n{\n    f();\n    return g();\n}\n", "3:5", "10 Type", "a `void` function has no result"),
    ("int g(void)\n{\n    return;\n}\nint main(void) { return 0; }\n", "3:5", "10 Type", "this function has a result"),
    ("int main(void)\n{\n    if (1) {\n        return 1;\n    return 0;\n}\n", "7:1", "5 Syntax", "the file ends inside a block: a `}` is missing"),
    ("int main(void)\n{\n    putchar((1 + 2);\n    return 0;\n}\n", "3:20", "5 Syntax", "a `)` is missing before this `;`"),
    ("int main(void)\n{\n    switch (1) {\n        int x;\n    case 1:\n        x = 1;\n        return x;\n    }\n    return 0;\n}\n", "4:9", "5 Syntax",
     "no declaration stands directly in a switch's block"),
    ("int main(void)\n{\n    int x = 1;\n    int x = 2;\n    return x;\n}\n", "4:9", "8 Redeclared", "`x` is declared already"),
    ("int main(void)\n{\n    int m = 0xFFFFFFFF;\n    return m;\n}\n", "3:13", "2 BadNumber", "the same 32 bits are `-1`"),
    ("int main(void)\n{\n    int m = -2147483648;\n    return m;\n}\n", "3:14", "2 BadNumber", "`(-2147483647 - 1)`"),
    ("int main(void) { int a[4]; return sizeof a; }\n", "1:35", "6 Unsupported sizeof", "write the number"),
    ("int main(void) { bool b = 1; return b; }\n", "1:23", "5 Syntax", "`bool` is no type"),
    ("int f(int x);\nint main(void) { return f(3); }\n", "2:25", "19 NoBody", "no file that was given defines it"),
    ("int main(void)\n{\n    putchar('ab');\n    return 0;\n}\n", "3:13", "4 BadEscape", "a character constant holds one character"),
    ('int main(void)\n{\n    char s[6] = "hello;\n    return 0;\n}\n', "3:17", "3 Unclosed", "the string isn't closed on its line"),
    ("int main(void)\n{\n    retrun 0;\n}\n", "3:12", "5 Syntax", "did you mean `return`?"),
    ("int f(int n) { int a[n]; return 0; }\nint main(void) { return f(3); }\n", "1:21", "13 ArraySize", "a constant of at least 1"),
    ("int main(void) { again: putchar(65); goto again; }\n", "1:38", "6 Unsupported goto", "a loop with `break` and `continue`"),
    ("int main(void)\n{\n    int x = 3;\n    if (x == 3);\n        x = 4;\n    else\n        x = 5;\n    return x;\n}\n", "6:5", "5 Syntax",
     "no `if` is free here"),
    ("int main(void)\n{\n    return 10L;\n}\n", "3:12", "2 BadNumber", "a constant has no suffix, as all have type int: write `10`"),
    ("int main(void)\n{\n    int *p = 0;\n    int **q = 0;\n    return 0;\n}\n", "4:10", "5 Syntax", "pointers to pointers are left out"),
    ("int main(void)\n{\n    int (*f)(int) = 0;\n    return 0;\n}\n", "3:9", "5 Syntax", "pointers to functions are left out"),
    ("int *f(void);\nint main(void) { return 0; }\n", "1:6", "17 PointerUse", "a function's result is no pointer"),
    ("int main(void)\n{\n    void *p;\n    return 0;\n}\n", "3:11", "17 PointerUse", "pointers to `void` are left out"),
    ("int main(void)\n{\n    5 = 6;\n    return 0;\n}\n", "3:7", "11 NotAssignable", "the left of `=`"),
    ("int a[2] = {1, 2, 3};\nint main(void) { return 0; }\n", "1:19", "14 Initialiser", "a list has at most as many values"),
    ("int main(void)\n{\n    break;\n    return 0;\n}\n", "3:5", "15 Jump", "`break` stands in no loop and no switch"),
    ("int main(void)\n{\n    switch (1) { case 1: case 1: ; }\n    return 0;\n}\n", "3:26", "16 CaseLabel", "stands once in its switch"),
)
# The same where no preprocessor is there.
PLAIN = (
    ("#include <stdio.h>\nint main(void) { return 0; }\n", "1:1", "1 BadByte", "is for a preprocessor, and none was run"),
    ("#define N 10\nint a[N];\nint main(void) { return 0; }\n", "1:1", "1 BadByte", "is for a preprocessor, and none was run"),
    ("int main(void)\n{\n    /* oops\n    return 0;\n}\n", "3:5", "3 Unclosed", "a `*/` is missing"),
    ("int main(void)\n{\n    int gr\u00f6\u00dfe = 3;\n    return gr\u00f6\u00dfe;\n}\n", "3:11", "1 BadByte", "names have the letters a to z"),
)
MACROS = "#define TWICE(x) ((x) + (x))\nint main(void)\n{\n    int   one = 1; /* spaces */ int    two = TWICE(one) + three;\n    return two;\n}\n"
FIRST = '#include <stdio.h>\n\nint main(void)\n{\n    int c;\n\n    while ((c = getchar()) != EOF)\n        putchar(c);\n    return 0;\n}\n'


@wants_pcc
class Compiling(unittest.TestCase):
    def setUp(self):
        self.room = tempfile.mkdtemp(prefix="pcc-cc-test-")
        self.addCleanup(shutil.rmtree, self.room)

    def call(self, text, *words, path=None):
        with open(f"{self.room}/a.c", "w", encoding="utf-8") as file:
            file.write(text)
        env = dict(os.environ, **({"PATH": path} if path else {}))
        return subprocess.run([f"{TOP}/bin/pcc-cc", *words, "a.c"], cwd=self.room, env=env, capture_output=True, text=True, check=False)

    def expect(self, rows, path=None):
        for text, place, fault, words in rows:
            with self.subTest(fault=fault, words=words):
                done = self.call(text, path=path)
                first = done.stderr.split("\n")[0]
                self.assertEqual(done.returncode, 1)
                self.assertTrue(first.startswith(f"a.c:{place}: error: ") and first.endswith(f" [{fault}]"), first)
                self.assertIn(words, first)
                self.assertEqual(sorted(os.listdir(self.room)), ["a.c"])

    @wants_preprocessor
    def test_mistakes_are_told_at_their_place(self):
        self.expect(MISTAKES)

    def test_mistakes_without_a_preprocessor(self):
        folder = f"{self.room}-bin"
        os.mkdir(folder)
        self.addCleanup(shutil.rmtree, folder)
        for name in ("env", "python3", "sh", "dirname", "readlink", "find", "touch", "mkdir", "mv"):
            os.symlink(shutil.which(name), f"{folder}/{name}")
        self.expect(PLAIN, path=folder)

    @wants_preprocessor
    def test_mark_stands_under_the_token_that_was_written(self):
        lines = self.call(MACROS).stderr.split("\n")
        self.assertEqual(lines[1][8:], MACROS.split("\n")[3])
        self.assertEqual(lines[2].index("^") - 8, MACROS.split("\n")[3].index("three"))

    @wants_preprocessor
    def test_mark_stands_under_the_letter_behind_others(self):
        lines = self.call('int main(void)\n{\n    char s[9] = "\u00f6\u00f6"; three();\n    return 0;\n}\n').stderr.split("\n")
        self.assertEqual(lines[2].index("^"), lines[1].index("three"))

    @wants_preprocessor
    def test_image_is_executable_and_has_its_map(self):
        done = self.call(FIRST, "-o", "copy")
        self.assertEqual((done.returncode, done.stderr), (0, ""))
        self.assertEqual(sorted(os.listdir(self.room)), ["a.c", "copy", "copy.map"])
        self.assertTrue(os.stat(f"{self.room}/copy").st_mode & stat.S_IXUSR)
        with open(f"{self.room}/copy.map", encoding="ascii") as file:
            self.assertEqual(file.readline(), "pcc map 1\n")

    @wants_preprocessor
    def test_macros_and_folders_go_to_the_preprocessor(self):
        os.mkdir(f"{self.room}/headers")
        with open(f"{self.room}/headers/own.h", "w", encoding="ascii") as file:
            file.write("#define SEVEN 7\n")
        done = self.call('#include "own.h"\nint main(void) { return SEVEN + SIX; }\n', "-I", "headers", "-D", "SIX=6")
        self.assertEqual((done.returncode, done.stderr), (0, ""))

    def test_other_statuses_are_those_of_pcc(self):
        self.assertEqual(self.call("int main(void) { return 0; }\n", "-o").returncode, 2)
        self.assertEqual(self.call("int main(void) { return 0; }\n", "-o", "a.c").returncode, 2)
        self.assertEqual(self.call("int main(void) { return 0; }\n", "b.c").returncode, 6)
        limit = self.call("int main(void) { char a[16221]; return 0; }\n")
        self.assertEqual((limit.returncode, limit.stderr), (3, "pcc-cc: limit 22 Frame main 16388\n"))
        with open(f"{self.room}/a.c", encoding="utf-8") as file:
            self.assertIn("main", file.read())

    @wants_own_pcc
    def test_limit_on_the_size_of_a_file_refuses_a_write(self):
        self.call("int main(void) { return 0; }\n", "-o", "copy")
        size = os.path.getsize(f"{self.room}/copy.map")
        for least, name in ((size - 1, "copy.map"), (size, "copy")):
            limits = (least, resource.RLIM_INFINITY)
            done = subprocess.run([f"{TOP}/bin/pcc", "compile", "-o", "copy", "a.c"], cwd=self.room, capture_output=True, text=True, check=False,
                                  preexec_fn=lambda: resource.setrlimit(resource.RLIMIT_FSIZE, limits))
            self.assertEqual((done.returncode, done.stderr), (5, f"write fault {name}\n"))


if __name__ == "__main__":
    unittest.main()
