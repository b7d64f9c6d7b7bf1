//! Measures the proved archive against the reference: checks and packs, and runs by the
//! reference's two engines.
//!
//! `bench [RUNS [TABLE]]` takes medians of RUNS alternating runs (21 if not told, nine at least),
//! after one of each side that is not counted, and prints the tables, or the one named: packs,
//! long or short. Whole calls are timed: judging, and for the reference decoding ahead, count.
//! Every side must leave the same answer and the same bytes, and every run must spend its budget:
//! else the exit status is 1. A slow call is no failure.
#![deny(unsafe_code)]

mod archive;
mod long_runs;
mod measure;
mod packs;
mod short_runs;

use std::process::exit;

/// How many runs a median is taken of, at least, and if not told.
const LEAST_RUNS: usize = 9;
const RUNS: usize = 21;

/// Prints a table of medians of so many runs and tells whether the sides agree.
type Table = fn(usize) -> bool;

const TABLES: [(&str, Table); 3] =
    [("packs", packs::table), ("long", long_runs::table), ("short", short_runs::table)];

fn main() {
    let Some((runs, table)) = told() else {
        eprintln!("usage: bench [RUNS [packs|long|short]], {LEAST_RUNS} runs at least");
        exit(2)
    };
    println!("proved: the archive. Of the reference, first: engine.rs, which looks at a decoded");
    println!("instruction at each step; second: second_engine.rs, which calls a function chosen");
    println!("for it ahead. Medians of {runs} alternating runs; ratios are proved / reference.");
    let mut agree = true;
    for (name, print) in TABLES {
        if table.as_deref().is_none_or(|told| told == name) {
            agree &= print(runs);
        }
    }
    if !agree {
        exit(1)
    }
}

/// The number of runs and the table asked for, if one is; none if they cannot be read.
fn told() -> Option<(usize, Option<String>)> {
    let mut words = std::env::args().skip(1);
    let runs = words.next().map_or(Some(RUNS), |word| word.parse().ok());
    let table = words.next();
    let known = |table: &String| TABLES.iter().any(|(name, _)| name == table);
    let runs = runs.filter(|&runs| runs >= LEAST_RUNS && words.next().is_none())?;
    table.as_ref().is_none_or(known).then_some((runs, table))
}
