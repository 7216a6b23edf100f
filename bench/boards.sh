#!/bin/sh
# Measures boards: 25,000 of four areas and eight pieces, about as many as a function of 50,000 tokens has points, are
# made and solved; 5,000 of four areas and twenty pieces are made and cut down to what fits; one of a single area and a
# million pieces (or so many as the word that is given) is made and found to have no placement; and one of half as many
# areas as it has pieces is made and solved. A small program is made in a temporary folder, which is removed at the
# end, and tried by `rt try`: that proves nothing, and checks each access to memory, so the figures are for comparison
# with one another.
. "$(dirname "$(readlink -f "$0")")/start.sh"

below='pcc_base index_lists puzzle_board puzzle_solver'
mkdir -p "$room/crates/boards/src" && cd "$room" && git init -q . || exit 1
for crate in $below; do
    (cd "$top/crates" && tar c --exclude=out --exclude=must-fail "$crate") | tar x -C crates || exit 1
    grep -E "^$crate:" "$top/crates.txt" >>crates.txt || exit 1
done
cp "$top/HANDLES" . || exit 1
echo "boards: $below" >>crates.txt
: >crates/boards/stdin

cat >crates/boards/src/main.rt <<'PROGRAM'
//! Makes boards and solves them.
#![tactic(auto)]

use pcc_base::{NoMemory, Steps, Width};
use puzzle_board::{Area, Board, Column, Kind, Piece};
use puzzle_solver::{fit, solve};
use std::alloc::Global;
use std::io;
use std::marker::Brand;
use std::sync::ledger::{Blank, Ledger};
use std::time::Instant;

const MANY: u32 = SO_MANY;

const EMPTY: Area = Area {
    low: Column::Both,
    high: Column::Both,
};

/// A board of so many empty areas and so many pieces of width One, each of its own variable.
fn board_of(alloc: Global, areas: usize, pieces: u32) -> Result<Board, NoMemory> {
    let mut all = Vec::with_capacity(alloc, areas)?;
    for _ in 0..areas {
        all.push_reserved(EMPTY);
    }
    let mut board = Board::new(alloc, &all)?;
    for var in 0..pieces {
        board.add_piece(Piece {
            kind: Kind::Y,
            width: Width::One,
            var,
        })?;
    }
    Ok(board)
}

/// How many of these boards are solved.
fn solve_all<L: Ledger>(alloc: Global, boards: u32, areas: usize, pieces: u32, blank: Blank) -> Result<u32, NoMemory> {
    let mut steps = Steps::<L>::new(blank);
    let mut solved = 0;
    for _ in 0..boards {
        let mut board = board_of(alloc, areas, pieces)?;
        if solve(&mut board, &mut steps) {
            solved += 1;
        }
    }
    Ok(solved)
}

/// How many variables are removed from these boards.
fn fit_all(alloc: Global, boards: u32, areas: usize, pieces: u32) -> Result<usize, NoMemory> {
    let mut order = Vec::new(alloc);
    for var in 0..pieces {
        order.push(var)?;
    }
    let mut removed = 0;
    for _ in 0..boards {
        let mut board = board_of(alloc, areas, pieces)?;
        removed += fit(alloc, &mut board, &order)?.len();
    }
    Ok(removed)
}

fn main(rt: HostRuntime) -> io::Result<()> {
    let start = Instant::now(&rt)?;
    let Ok(small) = solve_all::<Brand>(rt.alloc(), 25_000, 4, 8, Blank::new(1)) else {
        return println!(rt; "no memory");
    };
    let first = start.elapsed(&rt)?.as_micros();
    let start = Instant::now(&rt)?;
    let Ok(removed) = fit_all(rt.alloc(), 5_000, 4, 20) else {
        return println!(rt; "no memory");
    };
    let second = start.elapsed(&rt)?.as_micros();
    let start = Instant::now(&rt)?;
    let Ok(none) = solve_all::<Brand>(rt.alloc(), 1, 1, MANY, Blank::new(1)) else {
        return println!(rt; "no memory");
    };
    let third = start.elapsed(&rt)?.as_micros();
    let start = Instant::now(&rt)?;
    let Ok(wide) = solve_all::<Brand>(rt.alloc(), 1, MANY as usize / 2, MANY, Blank::new(1)) else {
        return println!(rt; "no memory");
    };
    let fourth = start.elapsed(&rt)?.as_micros();
    println!(rt; "boards: {small} small solved {first} us, {removed} removed {second} us, {none} of one area {third} us, {wide} of many areas {fourth} us")
}
PROGRAM
sed -i "s/SO_MANY/${1:-1000000}/" crates/boards/src/main.rt

cd crates/boards && rt try 2>&1 | grep 'boards:' || { echo "$(basename "$0"): it can't be tried" >&2; exit 1; }
