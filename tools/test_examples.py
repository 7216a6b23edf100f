"""Tests of the programs in examples/: what each writes and ends with, by gcc, on the kernel as `bin/pcc-cc` makes it, in the machine of
`bin/pcc run` and by `bin/pcc eval`; and that the auditor finds its map true.

Beside NAME.c stands NAME.out, what it writes, and where it reads its input NAME.in.
"""
import glob
import os
import shutil
import subprocess
import sys
import tempfile
import unittest

TOP = os.path.dirname(os.path.dirname(os.path.abspath(__file__)))
sys.path.insert(0, f"{TOP}/tools")

from present import wants_gcc, wants_kernel, wants_pcc, wants_preprocessor  # noqa: E402

PCC = os.environ.get("PCC", f"{TOP}/bin/pcc")

# The statuses that aren't 0.
STATUSES = {
    "bits": 208, "calculator": 3, "collatz": 237, "counts": 64, "divisors": 72, "locals": 2, "loops": 192, "matrix": 232, "return": 44, "strings": 204,
}


def examples():
    return sorted(os.path.basename(path)[:-2] for path in glob.glob(f"{TOP}/examples/*.c"))


def read(path):
    with open(path, "rb") as file:
        return file.read()


class Examples(unittest.TestCase):
    def setUp(self):
        self.room = tempfile.mkdtemp()
        self.addCleanup(shutil.rmtree, self.room)

    def check(self, name, words, given=True):
        path = f"{TOP}/examples/{name}"
        text = read(f"{path}.in") if os.path.exists(f"{path}.in") else b""
        done = subprocess.run(words, input=text, capture_output=True, timeout=120, check=False)
        self.assertEqual(done.stdout, read(f"{path}.out"), name)
        if given:
            self.assertEqual(done.returncode, STATUSES.get(name, 0), name)
        return done

    @wants_gcc
    def test_by_gcc(self):
        for name in examples():
            with self.subTest(name):
                subprocess.run(["gcc", "-w", "-fsigned-char", "-fwrapv", "-o", f"{self.room}/{name}", f"{TOP}/examples/{name}.c"], check=True)
                self.check(name, [f"{self.room}/{name}"])

    def compiled(self, name):
        """The image of an example."""
        image = f"{self.room}/{name}"
        subprocess.run([f"{TOP}/bin/pcc-cc", "-o", image, f"{TOP}/examples/{name}.c"], env={**os.environ, "PCC": PCC}, check=True)
        return image

    @wants_pcc
    @wants_preprocessor
    @wants_kernel
    def test_on_the_kernel(self):
        for name in examples():
            with self.subTest(name):
                self.check(name, [self.compiled(name)])

    @wants_pcc
    @wants_preprocessor
    def test_by_pcc(self):
        for name in examples():
            with self.subTest(name):
                image = self.compiled(name)
                done = self.check(name, [PCC, "run", "--", image], given=False)
                self.assertEqual(done.stderr, f"exit {STATUSES.get(name, 0)}\n".encode(), name)
                audit = subprocess.run([f"{TOP}/tools/audit-map", f"{image}.map", image], capture_output=True, text=True, check=False)
                self.assertEqual(audit.returncode, 0, f"{name}: {audit.stdout}")


if __name__ == "__main__":
    unittest.main()
