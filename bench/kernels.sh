#!/bin/sh
# Counts the instructions that compiled programs execute, and the bytes of their text, beside those that
# `gcc -m32 -O0`, the same with -O1, and `i386-tcc` make of the same source, and prints all with their ratios. The
# programs are some of `examples/`, and have to do the same each way. Instructions are counted by valgrind, and a system
# call as one. The text of each has its start and its routines for input and output in it.
#
# A second table has the instructions that an image executes for each step of its graphs, which are the points of its map
# that are met, and of these the moves between registers, the loads from slots and the stores into slots.
#
# usage: bench/kernels.sh
#
# It wants python3, valgrind, gcc and GNU as, ld and objdump for i386, and a kernel that runs i386 executables; where
# there is no i386-tcc, its columns are left out.
. "$(dirname "$(readlink -f "$0")")/start.sh"
build_pcc

PYTHONPATH=$top/bench:$top/tools python3 -B - "$top" "$room" <<'PYTHON'
import collections
import math
import re
import shutil
import struct
import sys

import maps
from beside import compile_by_gcc, compile_by_pcc, compile_by_tcc, done, on_kernel, preprocess

TOP, ROOM = sys.argv[1:]
PROGRAM = f"{TOP}/crates/pcc/out/pcc"
WORDS = b"one two three, four\n" * 50
KERNELS = [
    ("fibonacci", "Fibonacci numbers by recursion"), ("collatz", "Collatz chains"),
    ("divisors", "greatest common divisors"), ("bits", "counts of bits"), ("loops", "nested loops"),
    ("sort", "insertion sort of 1,000 bytes"), ("words", "counts of words in 1,000 bytes"),
    ("counts", "counts of divisors by a sieve"), ("matrix", "product of matrices"), ("strings", "strings"),
]


# What an instruction of two operands moves, as objdump prints them: the source stands first
REGISTER, SLOT = r"%[a-d][xlh]|%e[a-d]x|%e[sd]i", r"-0x[0-9a-f]+\(%ebp\)"
MOVES = {
    "register moves": re.compile(rf"(mov|xchg) +({REGISTER}),({REGISTER})$"),
    "loads": re.compile(rf"(mov|movsbl|movsx) +({SLOT}),({REGISTER})$"),
    "stores": re.compile(rf"mov +({REGISTER}),({SLOT})$"),
}


def executed(path, *flags):
    """How many instructions the executable makes over the input."""
    it = done(["valgrind", "--tool=callgrind", *(flags or ["--callgrind-out-file=/dev/null"]), path], WORDS)
    found = re.search(rb"Collected : (\d+)", it.stderr)
    if not found:
        sys.exit(f"kernels: valgrind says of {path}: {it.stderr.decode(errors='replace')}")
    return int(found[1])


def executed_at(path):
    """How often the instruction at each address of the executable is met."""
    counts, is_inclusive, name = collections.Counter(), False, f"{ROOM}/executed.out"
    executed(path, "--dump-instr=yes", "--compress-pos=no", f"--callgrind-out-file={name}")
    with open(name, encoding="ascii", errors="replace") as file:
        for line in file:
            cost = re.match(r"0x([0-9a-f]+) \d+ (\d+)$", line)
            if cost and not is_inclusive:
                counts[int(cost[1], 16)] += int(cost[2])
            # The cost behind such a line is that of what is called
            is_inclusive = line.startswith("calls=")
    return counts


def code_of(path):
    """Where the file's bytes that are run begin, where they begin in memory, and how many there are."""
    with open(path, "rb") as file:
        image = file.read()
    at, size, count = struct.unpack_from("<I", image, 28)[0], *struct.unpack_from("<2H", image, 42)
    headers = [struct.unpack_from("<8I", image, at + size * number) for number in range(count)]
    return [(offset, address, filled) for kind, offset, address, _, filled, _, flags, _ in headers if kind == 1 and flags & 1]


def text_bytes(path):
    """The bytes in the file of its segments that are run."""
    return sum(filled for _, _, filled in code_of(path))


def steps(path):
    """The steps of the graphs that the image makes, its instructions, and how many of each kind of move are met."""
    counts, found = executed_at(path), collections.Counter()
    (offset, address, _), = code_of(path)
    points = {point.address for function in maps.read_file(f"{path}.map").functions for point in function.points()}
    listing = done(["objdump", "-D", "-b", "binary", "-m", "i386", f"--adjust-vma={address - offset}",
                    f"--start-address={min(counts)}", path]).stdout.decode()
    for line in listing.splitlines():
        cells = line.split("\t")
        if len(cells) == 3:
            for kind, form in MOVES.items():
                if form.match(cells[2].strip()):
                    found[kind] += counts[int(cells[0].strip(" :"), 16)]
    return sum(counts[point] for point in points), sum(counts.values()), found


OTHERS = {
    "gcc's": compile_by_gcc,
    "gcc -O1's": lambda sources, made: compile_by_gcc(sources, made, ["-O1"]),
    "tcc's": compile_by_tcc,
}
if not shutil.which("i386-tcc"):
    del OTHERS["tcc's"]
IMAGES = {}


def row(name, what):
    """The row of a program, once all of its executables do the same."""
    source, image = f"{ROOM}/{name}.c", f"{ROOM}/{name}"
    preprocess(f"{TOP}/examples/{name}.c", source)
    refused = compile_by_pcc(PROGRAM, [source], image)
    if refused:
        sys.exit(f"kernels: {refused}")
    IMAGES[name] = image
    own = on_kernel(image, WORDS)
    figures = {of: [of(image)] for of in (executed, text_bytes)}
    for other, compile_by_other in OTHERS.items():
        made = f"{image}.other"
        compile_by_other([source], made)
        if on_kernel(made, WORDS) != own:
            sys.exit(f"kernels: {name} does something else by {other} compiler")
        for of, counts in figures.items():
            counts.append(of(made))
    for total, counts in zip(LOGARITHMS, list(figures.values())[0][1:]):
        total.append(math.log(figures[executed][0] / counts))
    cells = [f"{counts[0]:,}" + "".join(f" | {count:,} | {counts[0] / count:.2f}" for count in counts[1:])
             for counts in figures.values()]
    return f"| {what}, `{name}.c` | {' | '.join(cells)} |"


LOGARITHMS = [[] for _ in OTHERS]
others = "".join(f" | of {other} | ratio" for other in OTHERS)
print(f"| program | instructions of pcc's{others} | bytes of pcc's text{others} |")
print("|---" * (3 + 4 * len(OTHERS)) + "|")
for name, what in KERNELS:
    print(row(name, what), flush=True)
for other, total in zip(OTHERS, LOGARITHMS):
    print(f"the geometric mean of the instructions beside {other}: {math.exp(sum(total) / len(total)):.2f}")
print()
print("| program | steps | instructions a step | " + " | ".join(f"{kind} a step" for kind in MOVES) + " |")
print("|---" * (3 + len(MOVES)) + "|")
for name, image in IMAGES.items():
    count, whole, found = steps(image)
    cells = " | ".join(f"{found[kind] / count:.2f}" for kind in MOVES)
    print(f"| `{name}.c` | {count:,} | {whole / count:.2f} | {cells} |", flush=True)
PYTHON
