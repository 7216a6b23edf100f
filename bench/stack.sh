#!/bin/sh
# For each of ten constructs: how deep a nest of it may be, and the least stack with which the deepest one is compiled, and
# evaluated, to within 4 KB. It wants python3. The files are made in a temporary folder, which is removed at the end.
. "$(dirname "$(readlink -f "$0")")/start.sh"
build_pcc

python3 -uB - "$top/bin/pcc" "$room" <<'PYTHON'
import resource
import subprocess
import sys

PROGRAM, ROOM = sys.argv[1:]
MOST = 8 << 20
MAIN = "int main(void) { %s }\n"

# The text of a nest of so many levels.
NESTS = {
    "parentheses": lambda n: MAIN % f"return {'(' * n}0{')' * n};",
    "unary operators": lambda n: MAIN % f"return {'- ' * n}0;",
    "conditionals": lambda n: MAIN % f"return {'1 ? 2 : ' * n}0;",
    "calls": lambda n: f"int f(int x) {{ return {'f(' * n}0{')' * n}; }}\n" + MAIN % "return 0;",
    "blocks": lambda n: MAIN % f"{'{' * n}{'}' * n} return 0;",
    "if with else": lambda n: MAIN % f"{'if (1) ; else ' * n}; return 0;",
    "while": lambda n: MAIN % f"{'while (0) ' * n}; return 0;",
    "for": lambda n: MAIN % f"{'for (;0;) ' * n}; return 0;",
    "do": lambda n: MAIN % f"{'do ' * n};{' while (0);' * n} return 0;",
    "switch": lambda n: MAIN % f"{'switch (0) { case 0: ' * n};{' }' * n} return 0;",
}
COMMANDS = {"compile": ["compile", "-o", "nest", "nest.c"], "eval": ["eval", "nest.c"]}


def answer(words, stack=MOST):
    """The status and the line of a command with such a stack."""
    limits = stack, resource.getrlimit(resource.RLIMIT_STACK)[1]
    done = subprocess.run([PROGRAM, *words], cwd=ROOM, capture_output=True, text=True,
                          preexec_fn=lambda: resource.setrlimit(resource.RLIMIT_STACK, limits))
    return done.returncode, done.stderr


def write(text):
    with open(f"{ROOM}/nest.c", "w", encoding="utf-8") as file:
        file.write(text)


def least(low, high, step, holds):
    """The least number above low, to within a step, of which it holds, as it does of high."""
    while high - low > step:
        middle = (low + high) // 2
        low, high = (low, middle) if holds(middle) else (middle, high)
    return high


def is_refused(nest, levels):
    write(nest(levels))
    return answer(COMMANDS["compile"])[0] != 0


for name, nest in NESTS.items():
    deepest = least(1, 300, 1, lambda levels: is_refused(nest, levels)) - 1
    write(nest(deepest))
    stacks = []
    for command, words in COMMANDS.items():
        wanted = answer(words)
        needed = least(0, MOST, 4 << 10, lambda stack: answer(words, stack) == wanted)
        stacks.append(f"{command} {needed >> 10} KB")
    print(f"{name}: {deepest} levels, {', '.join(stacks)}")
PYTHON
