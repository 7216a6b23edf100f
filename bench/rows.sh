#!/bin/sh
# Runs a table of small programs by `pcc eval`, by `pcc compile` and `pcc run`, and on the kernel of this computer,
# which has to run i386 executables, and compares what they write and how they end with what the table wants.
#
# usage: bench/rows.sh
#
# It wants python3. What it makes stands in a temporary folder, which is removed at the end.
. "$(dirname "$(readlink -f "$0")")/start.sh"
build_pcc

PYTHONPATH=$top/bench python3 -B - "$top" "$room" <<'PYTHON'
import sys

from beside import Ran, by_pcc, compile_by_pcc, done, on_kernel, preprocess

TOP, ROOM = sys.argv[1:]
PROGRAM = f"{TOP}/crates/pcc/out/pcc"
CALLS = "int f(int n){if(n==0)return 0; return f(n-1);} int main(void){return f(%d);}"

# The sources, the input, what is written and the end
ROWS = [
    (["int main(void){return 300;}"], b"", b"", "exit 44"),
    (["int main(void){char c=200; return c<0?c+100:1;}"], b"", b"", "exit 44"),
    (["int main(void){return (-2147483647-1)/(-1);}"], b"", b"", "trap divide"),
    (["int main(void){int x=5; char c=7; char s=33; int y=x<<s; return y*10+c;}"], b"", b"", "exit 107"),
    (["int main(void){int a=47; int b=5; int q=a/b; return q*10+a%b+a;}"], b"", b"", "exit 139"),
    (["int main(void){int a=1;int b=2;int c=a+++b;return c*10+a;}"], b"", b"", "exit 32"),
    (["int main(void){char a[1]={200}; return a[0]<0;}"], b"", b"", "exit 1"),
    ([CALLS % 4094], b"", b"", "exit 0"),
    ([CALLS % 4095], b"", b"", "trap check"),
    (["int main(void){int c; int n=0; while((c=getchar())!=-1) n+=c=='\\n'; return n;}"], b"a\n\nb\n", b"", "exit 3"),
    (["int g[2]={3,4}; int main(void){int *p=g; *p++ += 5; return g[0]*10+*p;}"], b"", b"", "exit 84"),
    (
        ["int main(void){int a[3]; int *p; putchar('o'); p=a+3; putchar('k'); a[3]=1; return 0;}"], b"", b"ok",
        "trap check",
    ),
    (["int main(void){char a[16220]; return 0;}"], b"", b"", "exit 0"),
    (["char g[16777212]; int main(void){return 0;}"], b"", b"", "exit 0"),
    (["int f(int n); int main(void){return f(20);}", "int f(int n){return n*2+1;}"], b"", b"", "exit 41"),
]
# Words of a command in the folder of a.c, what is written and the status
ENDLESS = "int main(void){for(;;)putchar('x');}"
BUDGETS = [
    (["eval", "--turns", "4", "a.c"], b"xxx", "budget 4", 10), (["eval", "--turns", "0", "a.c"], b"", "budget 0", 10),
    (["run", "--steps", "0", "a"], b"", "budget 0", 10),
]
WORDS = (b"one two\nthree\n", b"2 3 14\n", "exit 0")


def written(texts):
    """The paths of the sources with these texts."""
    paths = [f"{ROOM}/{name}.c" for name in "abcde"[: len(texts)]]
    for path, text in zip(paths, texts):
        with open(path, "w", encoding="ascii") as file:
            file.write(text)
    return paths


def differs(sources, entered, wanted):
    """Whether one of the ways doesn't do what is wanted, which is then printed."""
    refused = compile_by_pcc(PROGRAM, sources, f"{ROOM}/a")
    if refused:
        print(f"rows: {sources} are refused: {refused}")
        return True
    found = {
        "eval": by_pcc([PROGRAM, "eval", *sources], entered), "machine": by_pcc([PROGRAM, "run", f"{ROOM}/a"], entered),
        "kernel": on_kernel(f"{ROOM}/a", entered),
    }
    for way, it in found.items():
        if it != wanted:
            with open(sources[0], encoding="ascii") as file:
                print(f"rows: {file.read()} does {it} by {way}, and not {wanted}")
    return any(it != wanted for it in found.values())


different = sum(differs(written(texts), entered, Ran(end, out)) for texts, entered, out, end in ROWS)
preprocess(f"{TOP}/examples/words.c", f"{ROOM}/words.c")
different += differs([f"{ROOM}/words.c"], WORDS[0], Ran(WORDS[2], WORDS[1]))
sources = written([ENDLESS])
refused = compile_by_pcc(PROGRAM, sources, f"{ROOM}/a")
for words, out, said, status in BUDGETS:
    it = done([PROGRAM, *words[:-1], f"{ROOM}/{words[-1]}"])
    if refused or (it.stdout, it.stderr, it.returncode) != (out, f"{said}\n".encode(), status):
        different += 1
        print(f"rows: {words} gives {it.stdout}, {it.stderr} and {it.returncode}; {refused}")
print(f"{len(ROWS) + 1 + len(BUDGETS)} rows, {different} of them different")
sys.exit(1 if different else 0)
PYTHON
