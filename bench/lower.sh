#!/bin/sh
# Counts what `lower` makes: of the programs in examples/, of a generated one, and of one function of so many tokens (5000, or
# the word that is given) and of ten times as many. A small program is made in a temporary folder, which is removed at
# the end, and tried by `rt try`: that proves nothing, and checks each access to memory, so its times are for comparison
# with one another. It prints the tokens of each text, the points of its graphs, their instructions without the NOP of
# each mark, and the time that `lower` takes. Beside them stand the instructions that `gcc -O0` and `i386-tcc` make of the
# same text.
. "$(dirname "$(readlink -f "$0")")/start.sh"

mkdir -p "$room/crates/lowering/src" && cd "$room" && git init -q . || exit 1
python3 - "$top" >below <<'PYTHON' || exit 1
# the crates that the program names, and those below them, in the order of crates.txt
import re
import sys
below = {}
for line in open(sys.argv[1] + "/crates.txt"):
    found = re.match(r"(\w+)[^:#]*:([^#]*)", line)
    if found:
        below[found[1]] = found[2].split()
wanted = set()
left = "c_lex c_front lower flow_liveness allocator ia32_select".split()
while left:
    name = left.pop()
    if name in below and name not in wanted:
        wanted.add(name)
        left += below[name]
print(*(name for name in below if name in wanted))
PYTHON
for crate in $(cat below); do
    (cd "$top/crates" && tar c --exclude=out --exclude=must-fail "$crate") | tar x -C crates || exit 1
    grep -E "^$crate:" "$top/crates.txt" >>crates.txt || exit 1
done
cp "$top/HANDLES" . || exit 1
echo "lowering: $(cat below) byteorder indexmap" >>crates.txt

cat >crates/lowering/src/main.rt <<'PROGRAM'
//! Lowers the program of each file that a word names, and prints what comes of it.
#![tactic(auto)]

use allocator::{allocate, split};
use c_front::typed_program;
use c_lex::lex;
use c_tree::Program;
use flow_graph::{Graph, Op};
use flow_liveness::{live, next_use};
use ia32_insn::Item;
use ia32_select::select;
use lower::lower;
use pcc_base::NoMemory;
use std::alloc::Global;
use std::time::Instant;
use std::{env, fs, io};

fn program_of(alloc: Global, text: &[u8]) -> Result<(usize, Program), NoMemory> {
    let tokens = lex(alloc, 0, text, 65536).map_err(|_| NoMemory)?.len();
    let texts = [text.to_vec(alloc)?];
    match typed_program(alloc, &texts) {
        Ok(program) => Ok((tokens, program)),
        Err(_) => Err(NoMemory),
    }
}

/// The points of a graph, and those that are marks.
fn points_of(alloc: Global, graph: &Graph) -> Result<(usize, usize), NoMemory> {
    let mut points = 0;
    let mut marks = 0;
    for block in 0..graph.blocks() {
        for point in graph.points_in(alloc, block)?.as_slice() {
            points += 1;
            if let Op::Mark(_) = graph.op(*point) {
                marks += 1;
            }
        }
    }
    Ok((points, marks))
}

/// The instructions of a function, where each mark's is counted too.
fn instructions_of(alloc: Global, graph: &Graph) -> Result<usize, NoMemory> {
    let sets = live(alloc, graph)?;
    let form = split(alloc, graph, &sets)?;
    let distances = next_use(alloc, graph)?;
    let map = allocate(alloc, &form, &distances)?;
    let items = select(alloc, graph, &map)?;
    let mut count = 0;
    for item in items.as_slice() {
        match item {
            Item::Label(_) | Item::Point(_) => {}
            _ => count += 1,
        }
    }
    Ok(count)
}

fn counts_of(alloc: Global, graphs: &[Graph]) -> Result<(usize, usize), NoMemory> {
    let mut points = 0;
    let mut instructions = 0;
    for graph in graphs {
        let (all, marks) = points_of(alloc, graph)?;
        points += all;
        instructions += instructions_of(alloc, graph)? - marks;
    }
    Ok((points, instructions))
}

fn measure(rt: &HostRuntime, name: &str) -> io::Result<()> {
    let text = fs::read(rt, name)?;
    let Ok((tokens, program)) = program_of(rt.alloc(), text.as_slice()) else {
        return println!(rt; "{name}: no program");
    };
    let start = Instant::now(rt)?;
    let Ok(graphs) = lower(rt.alloc(), &program) else {
        return println!(rt; "{name}: no memory");
    };
    let taken = start.elapsed(rt)?.as_micros();
    match counts_of(rt.alloc(), graphs.functions.as_slice()) {
        Ok((points, instructions)) => {
            println!(rt; "{name}: {tokens} tokens, {points} points, {instructions} instructions, lower {taken} us")
        }
        Err(_) => println!(rt; "{name}: no counts"),
    }
}

fn main(rt: HostRuntime) -> io::Result<()> {
    let mut words = env::args(&rt)?;
    let _ = words.next();
    for word in words {
        measure(&rt, word.as_str())?;
    }
    Ok(())
}
PROGRAM

cd crates/lowering
for source in "$top"/examples/*.c; do
    gcc -E -P -nostdinc -I "$top/include" "$source" >"$(basename "$source")" || exit 1
done
python3 - "${1:-5000}" <<'PYTHON' || exit 1
import sys


def generated(number):
    """A program of forty functions, each of thirty assignments and a loop, by draws from one number."""
    drawn = number

    def draw(below):
        nonlocal drawn
        drawn = (1103515245 * drawn + 12345) % 2**32
        return drawn // 65536 % 32768 % below

    names = "abcde"
    lines = ["int t[64];"]
    for function in range(40):
        lines += [f"int f{function}(int a, int b) {{", "  char c = a;", "  short d = b;", f"  int e = {draw(1000)};"]
        for _ in range(30):
            row, to, left = draw(10), names[draw(5)], names[draw(5)]
            if row < 8:
                operator = "+ - * & | ^ << >>".split()[row]
                lines.append(f"  {to} = {left} {operator} {names[draw(5)]};")
            else:
                lines.append(f"  {to} = {left} {'/ 7' if row == 8 else '% 9'};")
        lines += [f"  for (e = 0; e < {1 + draw(8)}; e++) t[(a + e) & 63] += b ^ d;", "  return a + b + c + d + e;", "}"]
    lines += ["int main(void) {", "  int s = 0;", "  int i;", "  for (i = 0; i < 10; i++) {"]
    lines += [f"    s = s * 31 + f{function}(i, s);" for function in range(40)]
    lines += ["  }", "  for (i = 0; i < 64; i++) s = s * 31 + t[i];"]
    lines += ['  for (i = 28; i >= 0; i -= 4) putchar("0123456789abcdef"[(s >> i) & 15]);']
    lines += ["  putchar('\\n');", "  return 0;", "}"]
    return "\n".join(lines) + "\n"


# 47 tokens
PIECE = """    if (a < b && b != 7)
        a = a * 3 + (b ^ d);
    else
        t[(a + e) & 63] += b >> 2;
    while (e < 9)
        e++;
"""


def one_function(tokens):
    """A program of one function of about so many tokens."""
    head = "static int t[64];\nint main(void)\n{\n    int a = 1, b = 2, d = 3, e = 0;\n"
    return head + PIECE * (tokens // 47) + "    return a;\n}\n"


tokens = int(sys.argv[1])
for name, text in (
    ("generated.c", generated(1)),
    ("small.c", one_function(tokens)),
    ("large.c", one_function(10 * tokens)),
):
    with open(name, "w") as source:
        source.write(text)
PYTHON

rt try --seconds 600 -- *.c 2>lowering.log || { tail -5 lowering.log >&2; echo "$(basename "$0"): it can't be tried" >&2; exit 1; }
for source in *.c; do
    gcc -m32 -O0 -w -fwrapv -fno-pie -fno-stack-protector -fno-asynchronous-unwind-tables -S -o made.s "$source" &&
        echo "$source: $(grep -c '^	[a-z]' made.s) instructions of gcc -O0"
    i386-tcc -w -c -o made.o "$source" &&
        echo "$source: $(objdump -d --no-show-raw-insn made.o | grep -c '^ .*:	') instructions of tcc"
done
