#!/bin/sh
# Counts the moves between the points of the programs in examples/: for each point and each one that follows it, the
# variables that stand elsewhere before the second than behind the first, once as `allocate` leaves them and once with no
# hints of where they stood. A small program is made in a temporary folder, which is removed at the end, and tried by
# `rt try`, which proves nothing.
#
# usage: bench/moves.sh
#
# It prints a line for each program: its points, the moves of registers, the loads from slots and the stores into them, and
# then all of them a point. It wants python3 and gcc.
. "$(dirname "$(readlink -f "$0")")/start.sh"

mkdir -p "$room/crates/moving/src" && cd "$room" && git init -q . || exit 1
python3 - "$top" >below <<'PYTHON' || exit 1
# the crates that the program names, and those below them, in the order of crates.txt
import re
import sys
below = {}
for line in open(sys.argv[1] + "/crates.txt"):
    found = re.match(r"(\w+)[^:#]*:([^#]*)", line)
    if found:
        below[found[1]] = found[2].split()
wanted = set()
left = "c_front lower allocator".split()
while left:
    name = left.pop()
    if name in below and name not in wanted:
        wanted.add(name)
        left += below[name]
print(*(name for name in below if name in wanted))
PYTHON
for crate in $(cat below); do
    (cd "$top/crates" && tar c --exclude=out --exclude=must-fail "$crate") | tar x -C crates || exit 1
    grep -E "^$crate:" "$top/crates.txt" >>crates.txt || exit 1
done
cp "$top/HANDLES" . || exit 1
echo "moving: $(cat below) byteorder indexmap" >>crates.txt

cat >crates/moving/src/main.rt <<'PROGRAM'
//! Allocates the functions of each file that a word names, and counts the moves between their points.
#![tactic(auto)]

use allocator::{allocate, split};
use c_front::typed_program;
use c_tree::Program;
use flow_graph::{Graph, LiveSets, Op};
use flow_liveness::{live, next_use};
use lower::lower;
use pcc_base::NoMemory;
use puzzle_board::{Place, PointMap};
use std::alloc::Global;
use std::{env, fs, io};

/// How many points there are, and how many moves between them.
#[derive(Clone, Copy)]
struct Moves {
    points: u32,
    registers: u32,
    loads: u32,
    stores: u32,
}

fn program_of(alloc: Global, text: &[u8]) -> Result<Program, NoMemory> {
    let texts = [text.to_vec(alloc)?];
    match typed_program(alloc, &texts) {
        Ok(program) => Ok(program),
        Err(_) => Err(NoMemory),
    }
}

/// Counts what moves from behind a point to before the one that follows.
fn add_moves(moves: &mut Moves, map: &PointMap, lives: &LiveSets, from: u32, to: u32) {
    for var in lives.before(to) {
        match (map.after(from, *var), map.before(to, *var)) {
            (Some(Place::Cells(old)), Some(Place::Cells(new))) => {
                if old != new {
                    moves.registers += 1;
                }
            }
            (Some(Place::Slot(_)), Some(Place::Cells(_))) => moves.loads += 1,
            (Some(Place::Cells(_)), Some(Place::Slot(_))) => moves.stores += 1,
            _ => {}
        }
    }
}

fn add_point(moves: &mut Moves, graph: &Graph, map: &PointMap, lives: &LiveSets, point: u32) {
    moves.points += 1;
    if let Some(next) = graph.next(point) {
        add_moves(moves, map, lives, point, next);
    }
    let blocks = match *graph.op(point) {
        Op::Jump(block) => [Some(block), None],
        Op::Branch(_, _, _, block, other) => [Some(block), Some(other)],
        _ => [None, None],
    };
    for block in blocks {
        if let Some(block) = block {
            if let Some(first) = graph.first(block) {
                add_moves(moves, map, lives, point, first);
            }
        }
    }
}

fn add_graph(alloc: Global, moves: &mut Moves, graph: &Graph) -> Result<(), NoMemory> {
    let lives = live(alloc, graph)?;
    let distances = next_use(alloc, graph)?;
    let form = split(alloc, graph, &lives)?;
    let map = allocate(alloc, &form, &distances)?;
    for block in 0..graph.blocks() {
        for point in graph.points_in(alloc, block)?.as_slice() {
            add_point(moves, graph, &map, &lives, *point);
        }
    }
    Ok(())
}

fn moves_of(alloc: Global, text: &[u8]) -> Result<Moves, NoMemory> {
    let program = program_of(alloc, text)?;
    let graphs = lower(alloc, &program)?;
    let mut moves = Moves {
        points: 0,
        registers: 0,
        loads: 0,
        stores: 0,
    };
    for graph in graphs.functions.as_slice() {
        add_graph(alloc, &mut moves, graph)?;
    }
    Ok(moves)
}

fn measure(rt: &HostRuntime, name: &str) -> io::Result<()> {
    let text = fs::read(rt, name)?;
    match moves_of(rt.alloc(), text.as_slice()) {
        Ok(Moves { points, registers, loads, stores }) => {
            let each = 100 * (registers + loads + stores) / points.max(1);
            println!(rt; "{name}: {points} points, {registers} registers, {loads} loads, {stores} stores, {each} hundredths a point")
        }
        Err(_) => println!(rt; "{name}: no map"),
    }
}

fn main(rt: HostRuntime) -> io::Result<()> {
    let mut words = env::args(&rt)?;
    let _ = words.next();
    for word in words {
        measure(&rt, word.as_str())?;
    }
    Ok(())
}
PROGRAM

cd crates/moving || exit 1
for source in "$top"/examples/*.c; do
    gcc -E -P -nostdinc -I "$top/include" "$source" >"$(basename "$source")" || exit 1
done
tried() {
    rt try --seconds 600 -- *.c 2>moving.log || { tail -5 moving.log >&2; echo "$(basename "$0"): it can't be tried" >&2; exit 1; }
}
echo 'with hints:' && tried
sed -i 's/let hints = stood.hints(alloc, op, pieces)?;/let hints = Vec::new(alloc);/' ../allocator/src/solution.rt
echo 'without:' && tried
