#!/bin/sh
# Measures the evaluator: the turns and the operations that it makes in a second over a loop of arithmetic of 10 million
# turns and over a recursive Fibonacci, beside the machine's steps in a second over the image of the same program, and
# the time that gcc -O0's program takes; all times are the processor's. It also counts the calls for memory of a loop of
# 1,000 turns and of one of 100,000. Two words give another number of turns and another Fibonacci number. It wants
# python3 and gcc. The files are made in a temporary folder, which is removed at the end.
. "$(dirname "$(readlink -f "$0")")/start.sh"
build_pcc

python3 -uB - "$top/bin/pcc" "$room" "${1:-10000000}" "${2:-30}" <<'PYTHON'
import os
import resource
import subprocess
import sys

PROGRAM, ROOM = sys.argv[1:3]
LOOP_TURNS, FIBONACCI_OF = map(int, sys.argv[3:])
RUNS = 3

LOOP = "int main(void){int i; int s=1; for(i=0;i<%d;i++) s=s*3+(i^s)-7; return s&63;}\n"
# In a turn the loop has <, ++, *, ^, +, - and =.
LOOP_OPERATIONS = 7

FIBONACCI = "int f(int n){if(n<2) return n; return f(n-1)+f(n-2);} int main(void){return f(%d)&63;}\n"


def fibonacci_calls(n):
    """How many calls f(n) makes, its own included."""
    first, second = 1, 1
    for _ in range(n):
        first, second = second, first + second + 1
    return first


def ended(words):
    """What a command says on standard error, and its status."""
    ran = subprocess.run(words, stdin=subprocess.DEVNULL, stderr=subprocess.PIPE)
    return ran.stderr.decode(), ran.returncode


def used():
    """The processor's time of all commands up to here."""
    of = resource.getrusage(resource.RUSAGE_CHILDREN)
    return of.ru_utime + of.ru_stime


def shortest(words):
    """The shortest time of some runs of a command, and how it ends."""
    times = []
    for _ in range(RUNS):
        start = used()
        end = ended(words)
        times.append(used() - start)
    return min(times), end


def written(name, text):
    """The path of a source."""
    path = f"{ROOM}/{name}.c"
    with open(path, "w") as it:
        it.write(text)
    return path


def compiled(path):
    """The path of a source's image."""
    image = path[:-2]
    said = ended([PROGRAM, "compile", "-o", image, path])
    if said != ("", 0):
        sys.exit(f"bench: compile answered {said}")
    return image


def steps_of(text):
    """The least number of steps after which the program of a short text has ended."""
    image = compiled(written("short", text))
    low, high = 0, 1
    while ended([PROGRAM, "run", "--steps", str(high), image])[1]:
        low, high = high, 2 * high
    while low + 1 < high:
        middle = (low + high) // 2
        if ended([PROGRAM, "run", "--steps", str(middle), image])[1]:
            low = middle
        else:
            high = middle
    return high


def loop_steps(turns):
    """The steps of the loop, which are so many for each turn and some at its ends."""
    ten, twenty = steps_of(LOOP % 10), steps_of(LOOP % 20)
    return ten + (twenty - ten) // 10 * (turns - 10)


def fibonacci_steps(n):
    """The steps of the Fibonacci program, which for n are those for n - 1 and n - 2 and always as many more."""
    first, second, third = (steps_of(FIBONACCI % k) for k in (3, 4, 5))
    more = third - second - first
    for _ in range(n - 4):
        first, second = second, first + second + more
    return second


def measure(name, text, short, turns, operations, steps):
    """Prints the figures of one program. What a short one takes is taken off."""
    source, brief = written(name, text), written("brief", short)
    evaluated, end = shortest([PROGRAM, "eval", source])
    evaluated -= shortest([PROGRAM, "eval", brief])[0]
    ran, there = shortest([PROGRAM, "run", "--steps", str(steps), compiled(source)])
    ran -= shortest([PROGRAM, "run", compiled(brief)])[0]
    made = f"{ROOM}/made"
    subprocess.run(["gcc", "-std=c99", "-w", "-O0", "-fwrapv", "-o", made, source], check=True)
    by_gcc, (_, status) = shortest([made])
    if not end == there == (f"exit {status}\n", 0):
        sys.exit(f"bench: {name}: eval {end}, run {there}, gcc {status}")
    print(f"{name}: {turns:,} turns with {operations:,} operations")
    print(f"  eval: {evaluated:.2f} s, {turns / evaluated / 1e6:.2f} million turns and "
          f"{operations / evaluated / 1e6:.1f} million operations a second")
    print(f"  run: {ran:.2f} s, {steps:,} steps, {steps / ran / 1e6:.1f} million a second")
    print(f"  gcc -O0: {by_gcc:.3f} s")


COUNTER = r"""
#define _GNU_SOURCE
#include <dlfcn.h>
#include <stdio.h>
#include <stdlib.h>
static unsigned long calls;
void *malloc(size_t n) { static void *(*f)(size_t); if (!f) f = dlsym(RTLD_NEXT, "malloc"); calls++; return f(n); }
void *realloc(void *p, size_t n) { static void *(*f)(void *, size_t); if (!f) f = dlsym(RTLD_NEXT, "realloc"); calls++; return f(p, n); }
void *aligned_alloc(size_t a, size_t n) { static void *(*f)(size_t, size_t); if (!f) f = dlsym(RTLD_NEXT, "aligned_alloc"); calls++; return f(a, n); }
int posix_memalign(void **p, size_t a, size_t n) { static int (*f)(void **, size_t, size_t); if (!f) f = dlsym(RTLD_NEXT, "posix_memalign"); calls++; return f(p, a, n); }
__attribute__((destructor)) static void told(void) { fprintf(stderr, "calls %lu\n", calls); }
"""


def allocations(turns):
    """How many calls for memory the evaluation of a loop makes."""
    words = [PROGRAM, "eval", written("counted", LOOP % turns)]
    room = dict(os.environ, LD_PRELOAD=f"{ROOM}/counter.so")
    ran = subprocess.run(words, stdin=subprocess.DEVNULL, stderr=subprocess.PIPE, env=room)
    return ran.stderr.decode().split("calls ")[-1].strip()


measure("loop", LOOP % LOOP_TURNS, LOOP % 1, LOOP_TURNS + 2, LOOP_TURNS * LOOP_OPERATIONS, loop_steps(LOOP_TURNS))
calls = fibonacci_calls(FIBONACCI_OF)
# Each call is one operation and has <; each but the last ones has two -, and +.
operations = 2 * calls + 3 * (calls - 1) // 2
measure("Fibonacci", FIBONACCI % FIBONACCI_OF, FIBONACCI % 1, calls + 1, operations, fibonacci_steps(FIBONACCI_OF))

with open(f"{ROOM}/counter.c", "w") as it:
    it.write(COUNTER)
subprocess.run(["gcc", "-shared", "-fPIC", "-O1", "-w", "-o", f"{ROOM}/counter.so", f"{ROOM}/counter.c", "-ldl"], check=True)
print(f"calls for memory: {allocations(1_000)} at 1,000 turns, {allocations(100_000)} at 100,000")
PYTHON
