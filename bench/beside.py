"""What a program does by gcc or tcc, by the evaluator of pcc, in its machine and on the kernel, for the scripts here."""
import os
import signal
import subprocess
from dataclasses import dataclass

BENCH = os.path.dirname(os.path.abspath(__file__))
INCLUDE = os.path.join(os.path.dirname(BENCH), "include")
SECONDS = 600

# The meaning that pcc has: char is signed, sums wrap, and what no initialiser sets is 0. The program has nothing of a C
# library but the three functions of start_i386.s.
GCC = "gcc -m32 -std=c99 -w -O0 -fwrapv -fsigned-char -ftrivial-auto-var-init=zero -ffreestanding -fno-builtin".split()
LINKED = "-nostdlib -static -no-pie -fno-pic -fno-stack-protector -fcf-protection=none".split()
LINKED += "-fno-asynchronous-unwind-tables -Wl,-z,noexecstack".split()
# Its sums wrap and its char is signed as they are; what no initialiser sets it leaves as it is.
TCC = "i386-tcc -w -c".split()

# How pcc tells the end of a program that a signal of the kernel ends
SIGNALS = {signal.SIGFPE: "trap divide", signal.SIGILL: "trap check"}


@dataclass(frozen=True)
class Ran:
    """How a program ended, and what it wrote."""

    end: str
    written: bytes

    def __str__(self):
        return f"{self.end}, {len(self.written)} bytes {self.written[-40:]!r}"


def done(words, entered=b""):
    """A command over this input; one that takes longer than the seconds has no status."""
    try:
        return subprocess.run(words, input=entered, capture_output=True, timeout=SECONDS)
    except subprocess.TimeoutExpired as late:
        return subprocess.CompletedProcess(words, None, late.stdout or b"", b"still running\n")


def by_pcc(words, entered):
    """What `pcc eval` or `pcc run` tells of a program: the line on standard error is its end."""
    it = done(words, entered)
    return Ran(it.stderr.decode(errors="replace").strip(), it.stdout)


def on_kernel(path, entered):
    """What an executable does on the kernel."""
    it = done([path], entered)
    if it.returncode is None:
        return Ran("still running", it.stdout)
    if it.returncode >= 0:
        return Ran(f"exit {it.returncode}", it.stdout)
    return Ran(SIGNALS.get(-it.returncode, f"signal {-it.returncode}"), it.stdout)


def compile_by_gcc(sources, made, flags=()):
    """Makes an executable of these sources, or of objects, with gcc, for i386 as pcc does. A flag is behind those here."""
    start = f"{made}.start.o"
    subprocess.run(["as", "--32", "-o", start, f"{BENCH}/start_i386.s"], check=True)
    subprocess.run([*GCC, *flags, *LINKED, "-o", made, *sources, start], check=True)


def compile_by_tcc(sources, made):
    """Makes an executable of these sources with tcc, whose objects are linked as those of gcc are."""
    objects = [f"{made}.{number}.o" for number in range(len(sources))]
    for source, object_file in zip(sources, objects):
        subprocess.run([*TCC, "-o", object_file, source], check=True)
    compile_by_gcc(objects, made)


def compile_by_pcc(program, sources, made):
    """Makes an image of these sources; what pcc says where it refuses them, and else nothing."""
    it = done([program, "compile", "-o", made, *sources])
    if it.returncode != 0:
        return it.stderr.decode(errors="replace").strip()
    os.chmod(made, 0o755)
    return ""


def preprocess(source, made):
    """The text of a source for pcc, with the declarations of `include/`."""
    subprocess.run(["gcc", "-E", "-nostdinc", "-I", INCLUDE, "-o", made, source], check=True)
