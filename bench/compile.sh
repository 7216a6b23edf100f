#!/bin/sh
# Measures `pcc compile` at about 6,000 and 60,000 tokens, and on the generated program of 230 functions, beside
# `i386-tcc -c`, `gcc -m32 -O0 -S` and `gcc -fsyntax-only` on the same text: the processor's time, the shortest of several
# runs, the greatest memory, and the time for a token; and the same at 10,000 tokens, with 10 names in all and with as
# many names as functions of a person have, beside tcc. Then come the size of each map, in all and a point; the times up
# to the tokens, the tree and the types, from texts whose only fault stands at their end; how the samples that perf
# takes of the processor's clock fall to the storeys of crates.txt and to their crates: `map_lines` and `map_text` print
# the map; and last the instructions a token, by callgrind, of each command and of pcc's storeys, which don't vary.
#
# usage: bench/compile.sh [RUNS]             so many runs each, else 5
#        bench/compile.sh instructions       the instructions a token alone
#
# It wants python3, gcc that makes code for i386, GNU time, perf and valgrind; where there is no i386-tcc, its rows are
# left out, and where there is no valgrind, the instructions.
. "$(dirname "$(readlink -f "$0")")/start.sh"
build_pcc

PYTHONPATH=$top/bench python3 -B - "$top" "$room" "${1:-5}" <<'PYTHON'
import collections
import glob
import os
import re
import shutil
import subprocess
import sys

from generated import program

TOP, ROOM, ASKED = sys.argv[1:4]
RUNS = int(ASKED) if ASKED != "instructions" else 0
HAS_TCC = shutil.which("i386-tcc") is not None
PROGRAM = f"{TOP}/crates/pcc/out/pcc"
# Functions like those of a person
BODY = """static int function_%d(int first, const char *second)
{
    int total = 0x%x + 017, index;
    for (index = 0; index < first && second[index] != '\\n'; index++) {
        total += second[index] * 31 << 2;
        if (total >= 1000000) total -= (int)second[index - 1];
        else switch (total & 3) { case 0: case 1: total++; break; default: continue; }
    }
    return function_%d(total, "a string") ? total : -total;
}

"""
MAIN = 'int main(void)\n{\n    return function_0(3, "a\\nb");\n}\n'
TOKEN = re.compile(r'[A-Za-z_]\w*|\d\w*|"[^"]*"|\'[^\']*\'|<<|>>|\+\+|\+=|-=|>=|!=|&&|\S')
FUNCTIONS = [54, 540]
# What may stand between other statements of a function: its nine names are those of eight numbers, and of an array
STATEMENTS = """    if (a < b && b != 7)
        c = a * 3 + (b ^ d);
    else
        t[(a + e) & 63] += f >> 2;
    for (e = g; e < d; e++)
        h = h * 31 + t[e & 63];
"""
NUMBERS = "    int a = 1, b = 2, c = 3, d = 4, e = 5, f = 6, g = 7, h = 8;\n"
NAME = re.compile(r"\b[a-ht]\b")
MANY_MAIN = "int main(void)\n{\n    return function_0();\n}\n"
WORDS = set("static int void if else for return".split())
# What is put behind a text, and how far pcc then comes
FAULTS = {"tokens": "@", "trees": "}", "types": "int last(void) { return missing; }", "the image and the map": ""}


def made(name, text):
    """The path of a source with this text."""
    path = f"{ROOM}/{name}"
    with open(path, "w", encoding="ascii") as file:
        file.write(text)
    return path


def seconds(words, is_refused=False):
    """The shortest of the processor's times that a command takes; a refusal of a text has status 1."""
    times = []
    for _ in range(RUNS):
        quiet = [(os.POSIX_SPAWN_OPEN, 2, os.devnull, os.O_WRONLY, 0)]
        _, status, used = os.wait4(os.posix_spawnp(words[0], words, os.environ, file_actions=quiet), 0)
        if os.waitstatus_to_exitcode(status) != is_refused:
            sys.exit(f"compile: {' '.join(words)} ended with {status}")
        times.append(used.ru_utime + used.ru_stime)
    return min(times)


def megabytes(words):
    """The most memory that a command and those that it calls have at once."""
    told = f"{ROOM}/memory"
    subprocess.run(["time", "-f", "%M", "-o", told, *words], check=True)
    with open(told, encoding="ascii") as file:
        return int(file.read()) / 1024


def compiled(path):
    return [PROGRAM, "compile", "-o", f"{ROOM}/image", path]


def by_tcc(path):
    return ["i386-tcc", "-w", "-c", "-o", f"{ROOM}/out.o", path]


WAYS = {
    "`pcc compile`": compiled,
    "`i386-tcc -c`": by_tcc,
    "`gcc -m32 -O0 -S`": lambda path: ["gcc", "-m32", "-O0", "-w", "-S", "-o", f"{ROOM}/out.s", path],
    "`gcc -m32 -fsyntax-only`": lambda path: ["gcc", "-m32", "-w", "-fsyntax-only", path],
}


def beside_others(sources):
    """The rows of pcc, tcc and gcc on each source."""
    print("| command | tokens | time | time for a token | memory at most | pcc's time beside it |")
    print("|---|---|---|---|---|---|")
    own = {}
    for way, words in WAYS.items():
        for (tokens, _), path in sources.items():
            if way == "`i386-tcc -c`" and not HAS_TCC:
                continue
            time = seconds(words(path))
            own.setdefault(path, time)
            row = f"{time * 1e3:.1f} ms | {time / tokens * 1e6:.2f} µs | {megabytes(words(path)):.1f} MB"
            print(f"| {way} | {tokens:,} | {row} | {own[path] / time:.2f} |", flush=True)


def maps(sources):
    """The size of the map of each source, in all and a point."""
    print("| tokens | text | points | map | a point |")
    print("|---|---|---|---|---|")
    for (tokens, what), path in sources.items():
        subprocess.run(compiled(path), check=True)
        with open(f"{ROOM}/image.map", encoding="ascii") as file:
            text = file.read()
        points = text.count("\npoint ")
        print(f"| {tokens:,} | {what} | {points:,} | {len(text) / 1e6:.1f} MB | {len(text) / points:.0f} bytes |", flush=True)


def few_names(tokens):
    """A text of one function, with ten names in all."""
    head, end = "static int t[64];\nint main(void)\n{\n" + NUMBERS, "    return h;\n}\n"
    left = tokens - len(TOKEN.findall(head + end))
    return head + STATEMENTS * (left // len(TOKEN.findall(STATEMENTS))) + end


def many_names(tokens):
    """A text of functions, each of which has ten names of its own."""
    one = "static int t[64];\nstatic int function(void)\n{\n" + NUMBERS + STATEMENTS + "    return h;\n}\n"
    functions = range(tokens // len(TOKEN.findall(one)))
    return "".join(re.sub("function", r"\g<0>_%d" % n, NAME.sub(r"\g<0>%d" % n, one)) for n in functions) + MANY_MAIN


def by_names(tokens):
    """The times of pcc and tcc on about so many tokens, with few names and with many."""
    print("| text | tokens | names | `pcc compile` | `i386-tcc -c` | pcc's time beside it |")
    print("|---|---|---|---|---|---|")
    for what, text_of in (("one function", few_names), ("functions with ten names each", many_names)):
        text = text_of(tokens)
        path, found = made("names.c", text), TOKEN.findall(text)
        names = {name for name in found if re.match(r"[A-Za-z_]", name)} - WORDS
        own, other = seconds(compiled(path)), seconds(by_tcc(path)) if HAS_TCC else None
        times = f"{own * 1e3:.1f} ms | " + (f"{other * 1e3:.1f} ms | {own / other:.2f}" if HAS_TCC else "left out | left out")
        print(f"| {what} | {len(found):,} | {len(names):,} | {times} |", flush=True)


def by_pass(texts):
    """The time that each part of a compilation takes, and how much more a token of the larger text takes."""
    print("| pcc compile, up to | " + " | ".join(f"{tokens:,} tokens" for tokens in texts) + " | more for a token |")
    print("|---|---|---|---|")
    before = [0.0, 0.0]
    for what, fault in FAULTS.items():
        times = [seconds(compiled(made("fault.c", text + fault)), bool(fault)) for text in texts.values()]
        parts = [time - earlier for time, earlier in zip(times, before)]
        small, large = (part / tokens for part, tokens in zip(parts, texts))
        row = " | ".join(f"{time * 1e3:.1f} ms, of these {part * 1e3:.1f} ms" for time, part in zip(times, parts))
        print(f"| {what} | {row} | {large / small:.2f} |", flush=True)
        before = times


def storeys():
    """The storey of each crate of crates.txt, which a line of comment begins."""
    found, storey = {}, ""
    with open(f"{TOP}/crates.txt", encoding="utf-8") as file:
        for line in file:
            if line.startswith("#"):
                storey = line[1:].split(":")[0].strip()
            elif ":" in line:
                found[line.split()[0].rstrip(":")] = storey
    return found


def crate_of(function, is_own, known):
    """The crate that a function of the program belongs to; else what it is a part of."""
    crate = function.split("::")[0]
    return crate if crate in known else "libraries of the kit" if is_own else "the C library"


def samples(path):
    """How many samples of some compilations fall to each crate, or to what else they run."""
    data, known, found = f"{ROOM}/perf.data", storeys(), collections.Counter()
    for _ in range(RUNS):
        record = ["perf", "record", "-q", "-e", "cpu-clock", "-F", "5000", "-o", data, *compiled(path)]
        subprocess.run(record, check=True, stderr=subprocess.DEVNULL)
        script = subprocess.run(["perf", "script", "-i", data, "-F", "ip,sym,dso"], capture_output=True, text=True)
        for line in script.stdout.splitlines():
            words = line.split()
            if words:
                is_kernel = "kernel" in words[-1]
                found["the kernel" if is_kernel else crate_of(words[1], words[-1].endswith("/pcc)"), known)] += 1
    return found


COST = re.compile(r"^ *([\d,]+) \([^)]*\) +[^:]*:(.*) \[(.*)\]$")


def instructions(words):
    """How many instructions a command and those that it calls execute, by crate or by what else they run."""
    out, known, found = f"{ROOM}/callgrind", storeys(), collections.Counter()
    tool = ["valgrind", "--tool=callgrind", "--trace-children=yes", f"--callgrind-out-file={out}.%p"]
    subprocess.run([*tool, *words], check=True, stderr=subprocess.DEVNULL)
    for path in glob.glob(f"{out}.*"):
        told = subprocess.run(["callgrind_annotate", "--threshold=100", path], capture_output=True, text=True, check=True)
        for count, function, of in filter(None, (COST.match(line) for line in told.stdout.splitlines())):
            found[crate_of(function, of.endswith("/pcc"), known)] += int(count.replace(",", ""))
        os.remove(path)
    return found


def by_instructions(sources):
    """The instructions a token of each command, and for pcc those of each storey."""
    print("| command | tokens | instructions for a token | pcc's beside it |")
    print("|---|---|---|---|")
    own = {}
    for way, words in WAYS.items():
        for (tokens, _), path in sources.items():
            if way == "`i386-tcc -c`" and not HAS_TCC:
                continue
            found = instructions(words(path))
            own.setdefault(path, found)
            row = f"{found.total() / tokens:,.0f} | {own[path].total() / found.total():.2f}"
            print(f"| {way} | {tokens:,} | {row} |", flush=True)
    for (tokens, _), path in sources.items():
        of_storeys(f"{tokens:,} tokens, instructions for a token", own[path], lambda count: f"{count / tokens:,.0f}")


def by_storey(tokens, path):
    found = samples(path)
    of_storeys(f"{tokens:,} tokens, {found.total():,} samples", found, lambda count: f"{count / found.total():.1%}")


def of_storeys(what, found, shown):
    """A count by crates as one by storeys, the greatest first."""
    known, of = storeys(), collections.defaultdict(collections.Counter)
    for crate, count in found.items():
        of[known.get(crate, crate)][crate] = count
    print(f"{what}:")
    for storey, crates in sorted(of.items(), key=lambda it: -it[1].total()):
        most = ", ".join(f"{crate} {shown(count)}" for crate, count in crates.most_common(6))
        print(f"    {shown(crates.total())} {storey}" + (f": {most}" if storey not in crates else ""))


def main():
    texts = {}
    for functions in FUNCTIONS:
        text = "".join(BODY % (number, number, number) for number in range(functions)) + MAIN
        texts[len(TOKEN.findall(text))] = text
    sources = {(tokens, "functions of a person"): made(f"{tokens}.c", text) for tokens, text in texts.items()}
    text = program(230, 1)
    sources[len(TOKEN.findall(text)), "generated"] = made("generated.c", text)
    if ASKED == "instructions":
        by_instructions(sources)
        return
    beside_others(sources)
    by_names(10000)
    maps(sources)
    by_pass(texts)
    for (tokens, _), path in sources.items():
        by_storey(tokens, path)
    if shutil.which("valgrind"):
        by_instructions(sources)


main()
PYTHON
