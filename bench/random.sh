#!/bin/sh
# Runs drawn programs and the examples by `pcc eval`, by `pcc compile` and `pcc run`, and as images on the kernel of
# this computer, which has to run i386 executables, and compares what they write and how they end; where C99 gives them
# one meaning, also with what gcc makes of them. Each difference is printed with the words that draw the program again.
#
# usage: bench/random.sh [KIND FIRST COUNT]
#
# With words so many programs of one kind are drawn, from this number on; bench/random_programs.py tells of the kinds.
# With none they are 500 scalars, 500 arrays, 200 faults and 300 files, from number 1 on, and the examples. It wants
# python3, gcc and GNU as and ld for i386. What it makes stands in a temporary folder, which is removed at the end.
. "$(dirname "$(readlink -f "$0")")/start.sh"
build_pcc

PYTHONPATH=$top/bench python3 -B - "$top" "$room" "$@" <<'PYTHON'
import collections
import glob
import os
import sys

from beside import Ran, by_pcc, compile_by_gcc, compile_by_pcc, on_kernel, preprocess
from random_programs import KINDS, write_program

TOP, ROOM, *WORDS = sys.argv[1:]
PROGRAM = f"{TOP}/crates/pcc/out/pcc"
COUNTS = {"scalars": 500, "arrays": 500, "faults": 200, "files": 300}
TEXT = b"one two\n(three) [four {five}]\n" * 3 + b")"


def runs(sources, entered, with_gcc):
    """What the program of these sources does in each of the ways, by the name of the way."""
    image, made = f"{ROOM}/image", f"{ROOM}/gcc"
    found = {"eval": by_pcc([PROGRAM, "eval", *sources], entered)}
    refused = compile_by_pcc(PROGRAM, sources, image)
    if refused:
        return found | {"compile": Ran(refused, b"")}
    found |= {"machine": by_pcc([PROGRAM, "run", image], entered), "kernel": on_kernel(image, entered)}
    os.remove(image)
    if with_gcc:
        compile_by_gcc(sources, made)
        found["gcc"] = on_kernel(made, entered)
    return found


def judge(name, found):
    """Prints what differs, with what is written from the first difference on, and says how the program ended."""
    if len(set(found.values())) == 1:
        end = found["eval"].end
        return "exit" if end.startswith("exit") else end
    same = len(os.path.commonprefix([it.written for it in found.values()]))
    print(f"random: {name} differs behind {same} bytes:", flush=True)
    for way, it in found.items():
        print(f"    {way}: {it.end}, {len(it.written)} bytes, {it.written[same:same + 40]!r}", flush=True)
    return "different"


def summary(what, ends):
    told = ", ".join(f"{ends[end]} {end}" for end in sorted(ends) if end != "different")
    print(f"{sum(ends.values())} {what}, {ends['different']} of them different; ends: {told}", flush=True)
    return ends["different"]


def drawn(kind, first, count):
    """Runs the programs of a kind; how many are different."""
    ends = collections.Counter()
    for number in range(first, first + count):
        sources, entered = write_program(kind, number, f"{ROOM}/{kind}-{number}")
        with open(entered, "rb") as file:
            found = runs(sources, file.read(), kind != "faults")
        ends[judge(f"{kind} {number}", found)] += 1
    return summary(f"programs of {kind}", ends)


def examples():
    """Runs the programs in examples/; how many are different."""
    ends = collections.Counter()
    for path in sorted(glob.glob(f"{TOP}/examples/*.c")):
        source = f"{ROOM}/{os.path.basename(path)}"
        preprocess(path, source)
        ends[judge(os.path.basename(path), runs([source], TEXT, True))] += 1
    return summary("examples", ends)


if not WORDS:
    different = sum(drawn(kind, 1, count) for kind, count in COUNTS.items()) + examples()
elif len(WORDS) == 3 and WORDS[0] in KINDS and WORDS[1].isdecimal() and WORDS[2].isdecimal():
    different = drawn(WORDS[0], int(WORDS[1]), int(WORDS[2]))
else:
    sys.exit("usage: bench/random.sh [KIND FIRST COUNT]\nKIND is one of " + ", ".join(KINDS))
sys.exit(1 if different else 0)
PYTHON
