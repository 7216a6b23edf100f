"""What of other tools is on this machine, for the tests of the scripts: a test that wants what isn't there says that it was left out."""
import os
import shutil
import struct
import subprocess
import tempfile
import unittest

# MOV EAX, 1; MOV EBX, 7; INT 0x80: an executable for i386 that ends with 7
CODE = bytes.fromhex("b801000000 bb07000000 cd80")
START, HEADERS = 0x08048000, 52 + 32
IMAGE = (
    b"\x7fELF\x01\x01\x01".ljust(16, b"\0") + struct.pack("<2H5I6H", 2, 3, 1, START + HEADERS, 52, 0, 0, 52, 32, 1, 0, 0, 0)
    + struct.pack("<8I", 1, 0, START, START, HEADERS + len(CODE), HEADERS + len(CODE), 5, 4096) + CODE
)


def done(words):
    """The status of a command and what it writes, or nothing where it can't be called or takes too long."""
    try:
        ran = subprocess.run(words, stdin=subprocess.DEVNULL, capture_output=True, timeout=60, check=False)
        return ran.returncode, ran.stdout
    except (OSError, subprocess.TimeoutExpired):
        return None, b""


def tried(name, content, words):
    """What a command does over a file of this content, whose path takes the place of FILE."""
    with tempfile.TemporaryDirectory() as room:
        path = f"{room}/{name}"
        with open(path, "wb") as file:
            file.write(content)
        os.chmod(path, 0o755)
        return done([word.replace("FILE", path) for word in words])


def runs_images():
    """Whether the kernel runs executables for i386."""
    return tried("image", IMAGE, ["FILE"])[0] == 7


def debugs_images():
    """Whether gdb is there, and may run such an executable."""
    return b"exited with code 07" in tried("image", IMAGE, ["gdb", "-nx", "-q", "-batch", "-ex", "run", "FILE"])[1]


def links_by_gcc():
    """Whether gcc makes a program of C's library."""
    text = b"#include <stdio.h>\nint main(void) { return putchar(0); }\n"
    return tried("a.c", text, ["gcc", "-o", "FILE.made", "FILE"])[0] == 0


def draws_pages():
    """Whether Chromium is there, and may draw a page."""
    words = ["chromium", "--headless", "--no-sandbox", "--disable-gpu", "--user-data-dir=FILE.browser", "--dump-dom", "file://FILE"]
    return b"drawn" in tried("page.html", b"<p>drawn</p>", words)[1]


def wants(is_there, what):
    return unittest.skipUnless(is_there, f"left out: {what}")


TOP = os.path.dirname(os.path.dirname(os.path.abspath(__file__)))
wants_pcc = wants("PCC" in os.environ or os.path.exists(f"{TOP}/crates/pcc/out/pcc"), "bin/pcc isn't built")
wants_own_pcc = wants(os.path.exists(f"{TOP}/crates/pcc/out/pcc.built"), "bin/pcc wasn't called yet")
wants_preprocessor = wants(any(map(shutil.which, ("gcc", "cpp", "clang", "tcc"))), "there is no preprocessor on this machine")
wants_kernel = wants(runs_images(), "the kernel runs no executables for i386")
wants_gcc = wants(links_by_gcc(), "gcc isn't on this machine")


def wants_tool(name):
    """One that can be asked whether it is there by its name alone."""
    return wants(shutil.which(name), f"{name} isn't on this machine")
