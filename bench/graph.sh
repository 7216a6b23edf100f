#!/bin/sh
# Measures the order of a graph's points: a block of so many points (50000, or the word that is given) is built, walked
# by `next`, given 10,000 points in its middle, and these are taken out again. A small program is made in a temporary
# folder, which is removed at the end, and tried by `rt try`: that proves nothing, and checks each access to memory, so
# the figures are for comparison with one another.
. "$(dirname "$(readlink -f "$0")")/start.sh"

below='pcc_base index_lists flow_graph'
mkdir -p "$room/crates/building/src" && cd "$room" && git init -q . || exit 1
for crate in $below; do
    (cd "$top/crates" && tar c --exclude=out --exclude=must-fail "$crate") | tar x -C crates || exit 1
    grep -E "^$crate:" "$top/crates.txt" >>crates.txt || exit 1
done
cp "$top/HANDLES" . || exit 1
echo 'building: pcc_base flow_graph' >>crates.txt
: >crates/building/stdin

cat >crates/building/src/main.rt <<'PROGRAM'
//! Builds a block of points, walks it, puts points in its middle, and takes them out again.
#![tactic(auto)]

use flow_graph::{Graph, Op};
use std::io;
use std::time::Instant;

const POINTS: u32 = SO_MANY;

const MORE: u32 = 10_000;

fn main(rt: HostRuntime) -> io::Result<()> {
    let start = Instant::now(&rt)?;
    let Ok(mut graph) = Graph::new(rt.alloc()) else {
        return println!(rt; "no memory");
    };
    for _ in 0..POINTS {
        if graph.append(0, Op::Turn).is_err() {
            return println!(rt; "no memory");
        }
    }
    let built = start.elapsed(&rt)?.as_micros();
    let start = Instant::now(&rt)?;
    let mut walked = 0;
    let mut at = graph.first(0);
    while let Some(point) = at {
        walked += 1;
        at = graph.next(point);
    }
    let walk = start.elapsed(&rt)?.as_micros();
    let start = Instant::now(&rt)?;
    for _ in 0..MORE {
        if graph.insert_after(POINTS / 2, Op::Turn).is_err() {
            return println!(rt; "no memory");
        }
    }
    let inserted = start.elapsed(&rt)?.as_micros();
    let start = Instant::now(&rt)?;
    for point in POINTS..POINTS + MORE {
        graph.remove(point);
    }
    let removed = start.elapsed(&rt)?.as_micros();
    println!(rt; "{walked} points: build {built} us, walk {walk} us, insert {inserted} us, remove {removed} us")
}
PROGRAM
sed -i "s/SO_MANY/${1:-50000}/" crates/building/src/main.rt

cd crates/building && rt try 2>&1 | grep 'points:' || { echo "$(basename "$0"): it can't be tried" >&2; exit 1; }
