#!/bin/sh
# Measures the front: the time a token of the lexer, the parser and typing, and the memory that each needs at its
# peak, over a source of about 6,000 tokens and one of about 60,000, beside gcc and tcc on the same text; and the
# stack that deep nests take to be read. A small program that calls `lex`, `parse` and `check` is made, proved
# and built in a temporary folder, which is removed at the end. The crates below it are taken as `rt ci` proved them on
# this machine, and what it didn't is proved anew. With the word `reading` typing is left out, and its crates aren't
# needed. It wants python3, gcc for i386 and GNU time; without i386-tcc the rows of tcc are left out.
. "$(dirname "$(readlink -f "$0")")/start.sh"

case "$*" in
'') calls='c_parse c_check' ;;
reading) calls='c_parse' ;;
*) echo 'usage: bench/front.sh [reading]' >&2; exit 2 ;;
esac

# the crates that these stand on, and themselves
below=$(python3 - "$top/crates.txt" $calls <<'PYTHON'
import sys

lines = (line.split("#")[0].split(":") for line in open(sys.argv[1]))
stands_on = {line[0].strip(): line[1].split() for line in lines if len(line) == 2}
found = []


def add(name):
    for below in stands_on.get(name, []):
        add(below)
    if name not in found:
        found.append(name)


for name in sys.argv[2:]:
    add(name)
print(*found)
PYTHON
) || exit 1

mkdir -p "$room/crates/reading/src" && cd "$room" && git init -q . || exit 1
for crate in $below; do
    [ -d "$top/crates/$crate" ] || continue
    (cd "$top/crates" && tar c --exclude=must-fail --exclude=out "$crate") | tar x -C crates || exit 1
    grep -E "^$crate:" "$top/crates.txt" >>crates.txt || exit 1
done
cp "$top/HANDLES" . || exit 1
echo "reading: $below" >>crates.txt

# the program; the lines that begin with `@` stand in it where typing does, and those that begin with `#` where it
# doesn't
case "$calls" in *c_check*) typing='s/^@//;/^#  /d' ;; *) typing='/^@/d;s/^#  /  /' ;; esac
sed "$typing" >crates/reading/src/main.rt <<'PROGRAM'
//! Reads a file as far as the first byte of another one says, 1 for its tokens, 2 for its raw tree, 3 for its typed
//! program, prints how long each pass takes, and leaves what the system tells of its memory at the end.
#![tactic(auto)]

use c_lex::lex;
use c_parse::parse;
@use c_check::check;
use pcc_base::Span;
use std::time::Instant;
use std::{fs, io};

/// Leaves the most memory that the program had at once.
fn leave_peak(rt: &HostRuntime) -> io::Result<()> {
    let status = fs::read(rt, "/proc/self/status")?;
    fs::write(rt, "status", status.as_slice())
}

fn main(rt: HostRuntime) -> io::Result<()> {
    let text = fs::read(&rt, "text.c")?;
    let passes = fs::read(&rt, "passes")?;
    if text.len() > 4_000_000_000 || passes.is_empty() {
        return println!(rt; "too long");
    }
    let start = Instant::now(&rt)?;
    let tokens = match lex(rt.alloc(), 0, text.as_slice(), 65_536) {
        Ok(tokens) => tokens,
        Err(_) => return println!(rt; "no tokens"),
    };
    let lexed = start.elapsed(&rt)?.as_nanos();
    println!(rt; "{} {lexed}", tokens.len())?;
    if passes[0] == b'1' {
        return leave_peak(&rt);
    }
    let end = Span {
        file: 0,
        line: 1,
        col: 1,
    };
    let start = Instant::now(&rt)?;
    let unit = match parse(rt.alloc(), &tokens, end) {
        Ok(unit) => unit,
        Err(_) => return println!(rt; "refused"),
    };
    let parsed = start.elapsed(&rt)?.as_nanos();
    println!(rt; "{parsed}")?;
    drop(tokens);
@    if passes[0] == b'2' {
@        leave_peak(&rt)?;
@        drop(unit);
@        return Ok(());
@    }
@    let mut units = Vec::new(rt.alloc());
@    match units.push(unit) {
@        Ok(()) => {}
@        Err(_) => return println!(rt; "no memory"),
@    }
@    let start = Instant::now(&rt)?;
@    match check(rt.alloc(), units.as_slice(), end) {
@        Ok(_) => {
@            let typed = start.elapsed(&rt)?.as_nanos();
@            println!(rt; "{typed}")?;
@            leave_peak(&rt)?;
@        }
@        Err(_) => return println!(rt; "not typed"),
@    }
#    leave_peak(&rt)?;
#    drop(unit);
    Ok(())
}
PROGRAM

# `rt ci` proves and builds the program, and runs it where there is no source yet.
echo 1 >crates/reading/status
rt ci </dev/null >build.log 2>&1
program=$room/crates/reading/out/reading
[ -x "$program" ] || { tail -5 build.log >&2; exit 1; }

python3 -B - "$program" "$calls" <<'PYTHON'
import os
import resource
import shutil
import subprocess
import sys

PROGRAM, CALLS = sys.argv[1:]
RUNS = 7
PASSES = ["lex", "parse", "check"] if "c_check" in CALLS else ["lex", "parse"]

# functions like those of a person, of 111 tokens
BODY = """static int function_%d(int first, const char *second)
{
    int total = 0x%x + 017, index;
    for (index = 0; index < first && second[index] != '\\n'; index++) {
        total += second[index] * 31 << 2;
        if (total >= 1000000) total -= (int)second[index - 1];
        else switch (total & 3) { case 0: case 1: total++; break; default: continue; }
    }
    return function_%d(total, "a string") ? total : -total;
}

"""
MAIN = "int main(void)\n{\n    return function_0(1, \"x\");\n}\n"


def ran(words, **how):
    """The processor's time that a command takes with all that it starts, its status, and what it writes."""
    process = subprocess.Popen(words, stdout=subprocess.PIPE, stderr=subprocess.DEVNULL, **how)
    out = process.stdout.read().decode()
    process.stdout.close()
    _, status, usage = os.wait4(process.pid, 0)
    process.returncode = status
    return usage.ru_utime + usage.ru_stime, status, out


def peak_of(words):
    """The most memory that the program has at once, in bytes, as it leaves it."""
    ran(words)
    return next(int(line.split()[1]) * 1024 for line in open("status") if line.startswith("VmHWM:"))


def write(text, passes):
    open("text.c", "w").write(text)
    open("passes", "w").write(str(passes))


def text_of(functions):
    return "".join(BODY % (number, number, number) for number in range(functions)) + MAIN


def best(words):
    return min(ran(words)[0] for _ in range(RUNS))


def front(text):
    """The number of tokens, the least time of each pass, and the peak of memory up to each."""
    write(text, len(PASSES))
    times = []
    for _ in range(RUNS):
        _, status, out = ran([PROGRAM])
        numbers = out.split()
        if status != 0 or len(numbers) != len(PASSES) + 1:
            sys.exit(f"front: the program answered {out!r}")
        times.append([int(number) for number in numbers])
    peaks = []
    for passes in range(1, len(PASSES) + 1):
        write(text, passes)
        peaks.append(peak_of([PROGRAM]))
    return times[0][0], [min(column) for column in list(zip(*times))[1:]], peaks


GCC = ["gcc", "-std=c99", "-w", "-m32"]
# what else takes the same text, by the name of its rows
BESIDE = {
    "gcc -fsyntax-only": [*GCC, "-fsyntax-only", "text.c"],
    "gcc -O0 -S": [*GCC, "-O0", "-S", "-o", "text.s", "text.c"],
}
if shutil.which("i386-tcc"):
    BESIDE["i386-tcc -c"] = ["i386-tcc", "-w", "-c", "-o", "text.o", "text.c"]
else:
    print("i386-tcc isn't installed: its rows are left out")


def most_of(words):
    """The most memory that a command has at once, in bytes."""
    subprocess.run(["time", "-f", "%M", "-o", "most", *words], check=True)
    return int(open("most").read()) * 1024


nothing = "int main(void) { return 0; }\n"
_, _, at_start = front(nothing)
write(nothing, 2)
whole_start = best([PROGRAM])
start_of = {name: (best(words), most_of(words)) for name, words in BESIDE.items()}

rates = []
for functions in (54, 540):
    text = text_of(functions)
    tokens, times, peaks = front(text)
    print(f"{tokens:,} tokens")
    for name, taken, peak, before in zip(PASSES, times, peaks, at_start):
        print(f"  {name}: {taken / tokens:.0f} ns a token; peak of memory {(peak - before) / tokens:.0f} bytes a token")
    rates.append((times[0] + times[1]) / tokens)
    write(text, 2)
    whole = best([PROGRAM])
    rest = (whole - whole_start) / tokens
    print(f"  lex and parse, the whole call: {whole / tokens * 1e9:.0f} ns a token, {rest * 1e9:.0f} without its start")
    for name, words in BESIDE.items():
        taken, most = best(words), most_of(words)
        start_time, start_most = start_of[name]
        rest, room = (taken - start_time) / tokens, (most - start_most) / tokens
        print(f"  {name}: {taken / tokens * 1e9:.0f} ns a token, {rest * 1e9:.0f} without its start; peak of memory"
              f" {room:.0f} bytes a token; lex and parse take {whole / taken:.2f} of its time")
print(f"lex and parse of a token of the large text take {rates[1] / rates[0]:.2f} times as long as of the small one")

# The least stack with which each nest is read, by halving. Each is 100 to 250 levels deep, of constructs of one kind.
NESTS = {
    "parentheses": "int main(void) { return " + "(" * 250 + "0" + ")" * 250 + "; }\n",
    "unary operators": "int main(void) { return " + "- " * 250 + "0; }\n",
    "conditionals": "int main(void) { return " + "1 ? 2 : " * 125 + "0; }\n",
    "calls": "int f(int x) { return " + "f(" * 250 + "0" + ")" * 250 + "; }\nint main(void) { return 0; }\n",
    "blocks": "int main(void) { " + "{" * 120 + "}" * 120 + " return 0; }\n",
    "if and else": "int main(void) { " + "if (1) ; else " * 200 + "; return 0; }\n",
    "while": "int main(void) { " + "while (0) " * 200 + "; return 0; }\n",
    "for": "int main(void) { " + "for (;0;) " * 200 + "; return 0; }\n",
    "do": "int main(void) { " + "do " * 200 + ";" + " while (0);" * 200 + " return 0; }\n",
    "switch": "int main(void) { " + "switch (0) { case 0: " * 100 + ";" + " }" * 100 + " return 0; }\n",
}


def is_read(stack):
    limits = (stack, resource.getrlimit(resource.RLIMIT_STACK)[1])
    _, status, out = ran([PROGRAM], preexec_fn=lambda: resource.setrlimit(resource.RLIMIT_STACK, limits))
    return status == 0 and len(out.split()) == 3


print("the stack that nests of 100 to 250 levels take to be read:")
for name, text in NESTS.items():
    write(text, 2)
    low, high = 0, 8 << 20
    if not is_read(high):
        print(f"  {name}: refused: {ran([PROGRAM])[2].split()}")
        continue
    while high - low > 8 << 10:
        middle = (low + high) // 2
        low, high = (low, middle) if is_read(middle) else (middle, high)
    print(f"  {name}: {high >> 10} KB")
PYTHON
