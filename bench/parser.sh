#!/bin/sh
# Measures the parser beside the lexer, over a source of about 6,000 tokens and one of about 60,000. A small program
# that calls `lex` and `parse` is made, proved and built in a temporary folder, which is removed at the end. What
# earlier checks kept of the crates is copied with them: call `rt all check` first.
. "$(dirname "$(readlink -f "$0")")/start.sh"

below='pcc_base c_lex c_syntax c_grammar c_parse_expressions c_parse'
mkdir -p "$room/crates/parsing/src" && cd "$room" && git init -q . || exit 1
for crate in $below; do
    (cd "$top/crates" && tar c --exclude=must-fail "$crate") | tar x -C crates || exit 1
    grep -E "^$crate:" "$top/crates.txt" >>crates.txt || exit 1
done
cp "$top/HANDLES" . || exit 1
echo "parsing: $below" >>crates.txt

cat >crates/parsing/src/main.rt <<'PROGRAM'
//! Reads two files, and prints how long the tokens and the tree of each take.
#![tactic(auto)]

use c_lex::lex;
use c_parse::parse;
use pcc_base::Span;
use std::time::Instant;
use std::{fs, io};

fn main(rt: HostRuntime) -> io::Result<()> {
    for name in ["small.c", "large.c"] {
        let text = fs::read(&rt, name)?;
        if text.len() > 4_000_000_000 {
            return println!(rt; "too long");
        }
        let start = Instant::now(&rt)?;
        let tokens = match lex(rt.alloc(), 0, text.as_slice(), 1_000_000) {
            Ok(tokens) => tokens,
            Err(_) => return println!(rt; "no tokens"),
        };
        let lexed = start.elapsed(&rt)?.as_micros();
        let end = Span {
            file: 0,
            line: 1,
            col: 1,
        };
        let start = Instant::now(&rt)?;
        match parse(rt.alloc(), &tokens, end) {
            Ok(_) => {
                let taken = start.elapsed(&rt)?.as_micros();
                println!(rt; "{name}: {} tokens, lex {lexed} us, parse {taken} us", tokens.len())?;
            }
            Err(_) => return println!(rt; "refused"),
        }
    }
    Ok(())
}
PROGRAM

# functions like those of a person
python3 - <<'PYTHON'
BODY = """static int function_%d(int first, const char *second)
{
    int total = 0x%x + 017, index;
    for (index = 0; index < first && second[index] != '\\n'; index++) {
        total += second[index] * 31 << 2;
        if (total >= 1000000) total -= (int)second[index - 1];
        else switch (total & 3) { case 0: case 1: total++; break; default: continue; }
    }
    return function_%d(total, "a string") ? total : -total;
}

"""
for name, functions in (("small.c", 52), ("large.c", 520)):
    with open(name, "w") as source:
        for number in range(functions):
            source.write(BODY % (number, number, number))
PYTHON

# `rt run` proves and builds the program and runs it in its folder, where there are no sources yet.
(cd crates/parsing && rt run </dev/null >build.log 2>&1)
program=$room/crates/parsing/out/parsing
[ -x "$program" ] || { tail -5 crates/parsing/build.log >&2; exit 1; }
for run in 1 2 3 4 5; do
    "$program"
done
