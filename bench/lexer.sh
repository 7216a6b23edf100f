#!/bin/sh
# Measures the lexer: megabytes a second over a large generated source. A small program that calls `lex` is
# made, proved and built in a temporary folder, which is removed at the end.
. "$(dirname "$(readlink -f "$0")")/start.sh"

mkdir -p "$room/crates/lexing/src" && cd "$room" && git init -q . || exit 1
for crate in pcc_base c_lex; do
    (cd "$top/crates" && tar c --exclude=out --exclude=must-fail "$crate") | tar x -C crates || exit 1
done
cp "$top/HANDLES" . || exit 1
grep -E '^(pcc_base|c_lex):' "$top/crates.txt" >crates.txt
echo 'lexing: pcc_base c_lex' >>crates.txt

cat >crates/lexing/src/main.rt <<'PROGRAM'
//! Reads a file, and prints how long its tokens take.
#![tactic(auto)]

use c_lex::lex;
use std::time::Instant;
use std::{fs, io};

fn main(rt: HostRuntime) -> io::Result<()> {
    let text = fs::read(&rt, "source.c")?;
    if text.len() > 4_000_000_000 {
        return println!(rt; "too long");
    }
    let start = Instant::now(&rt)?;
    match lex(rt.alloc(), 0, text.as_slice(), 1_000_000_000) {
        Ok(tokens) => {
            let taken = start.elapsed(&rt)?.as_millis();
            println!(rt; "{} bytes, {} tokens, {taken} ms", text.len(), tokens.len())
        }
        Err(_) => println!(rt; "refused"),
    }
}
PROGRAM

# 32 MB of functions like those of a person, with comments and strings
python3 - >source.c <<'PYTHON'
BODY = """/* function number %d of a source
   that is made for measuring */
static int function_%d(int first, const char *second)
{
    int total = 0x%x + 017, index; // a comment
    for (index = 0; index < first && second[index] != '\\n'; index++) {
        total += second[index] * 31 << 2;
        if (total >= 1000000) total -= sizeof "a string\\twith \\x41 escapes";
    }
    return total;
}

"""
size = 0
number = 0
while size < 32_000_000:
    text = BODY % (number, number, number)
    size += len(text)
    number += 1
    print(text, end="")
PYTHON

# `rt run` proves and builds the program and runs it in its folder, where there is no source yet.
(cd crates/lexing && rt run </dev/null >build.log 2>&1)
program=$room/crates/lexing/out/lexing
[ -x "$program" ] || { tail -5 crates/lexing/build.log >&2; exit 1; }
for run in 1 2 3; do
    "$program"
done
