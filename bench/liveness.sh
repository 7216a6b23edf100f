#!/bin/sh
# Measures live variables and distances to the next use: a block of so many points (2000, or the word that is given), once
# with ten variables each of which is soon used, and once with as many live all along as a tenth of the points, and the same
# of a tenth of the points. A small program is made in a temporary folder, which is removed at the end, and tried by `rt try`:
# that proves nothing, and checks each access to memory, so the figures are for comparison with one another.
. "$(dirname "$(readlink -f "$0")")/start.sh"

below='pcc_base index_lists flow_graph flow_liveness'
mkdir -p "$room/crates/living/src" && cd "$room" && git init -q . || exit 1
for crate in $below; do
    (cd "$top/crates" && tar c --exclude=out --exclude=must-fail "$crate") | tar x -C crates || exit 1
    grep -E "^$crate:" "$top/crates.txt" >>crates.txt || exit 1
done
cp "$top/HANDLES" . || exit 1
echo 'living: pcc_base flow_graph flow_liveness' >>crates.txt
: >crates/living/stdin

cat >crates/living/src/main.rt <<'PROGRAM'
//! Finds the live variables and the distances of a block.
#![tactic(auto)]

use flow_graph::{Graph, Op};
use liveness::{live, next_use};
use pcc_base::{NoMemory, Width};
use std::alloc::Global;
use std::io;
use std::time::Instant;

const POINTS: u32 = SO_MANY;

/// A block of so many points and two for each variable: it gives each variable a number, uses one variable after another,
/// and uses each once more at the end.
fn block(alloc: Global, points: u32, variables: u32) -> Result<Graph, NoMemory> {
    let mut graph = Graph::new(alloc)?;
    for var in 0..variables {
        graph.add_var(Width::Two)?;
        graph.append(0, Op::Const(var, 0))?;
    }
    for point in 0..points {
        let var = point % variables;
        graph.append(0, Op::Add(var, var, var))?;
    }
    for var in 0..variables {
        graph.append(0, Op::Neg(var, var))?;
    }
    graph.append(0, Op::Return(None))?;
    Ok(graph)
}

fn measure(rt: &HostRuntime, points: u32, variables: u32) -> io::Result<()> {
    let Ok(graph) = block(rt.alloc(), points, variables) else {
        return println!(rt; "no memory");
    };
    let start = Instant::now(rt)?;
    let Ok(sets) = live(rt.alloc(), &graph) else {
        return println!(rt; "no memory");
    };
    let found = start.elapsed(rt)?.as_micros();
    let mut pairs = 0;
    for point in 0..graph.points() {
        pairs += sets.before(point).len();
    }
    let start = Instant::now(rt)?;
    let Ok(distances) = next_use(rt.alloc(), &graph) else {
        return println!(rt; "no memory");
    };
    let measured = start.elapsed(rt)?.as_micros();
    let _ = distances.at(0, 0);
    let all = graph.points();
    println!(rt; "{all} points, {pairs} live pairs: live {found} us, next_use {measured} us")
}

fn main(rt: HostRuntime) -> io::Result<()> {
    measure(&rt, POINTS / 10, 10)?;
    measure(&rt, POINTS, 10)?;
    measure(&rt, POINTS / 10, POINTS / 100)?;
    measure(&rt, POINTS, POINTS / 10)
}
PROGRAM
sed -i "s/SO_MANY/${1:-2000}/" crates/living/src/main.rt

cd crates/living && rt try 2>&1 | grep 'points,' || { echo "$(basename "$0"): it can't be tried" >&2; exit 1; }
