//! The bench: `bench` times the archive, by both engines, and the Rust on the same sheets, from sheet bytes to result bytes, and prints a
//! table; and, by the archive alone, lines of text, for which the Rust has no writer, and checks and lookups, which it does not make, in three
//! more. `bench --growth` times folds of sheets of which rules or boxes are four times as many from one to the next, and of sheets at the
//! limits, `bench --lists` of sheets of many lists, `bench --series` of sheets of which one thing grows, a table for each such thing, which
//! oracle/plot.py draws; `bench --stack` tells how deep each function goes on the sheets of all but the last. `bench --random SEED COUNT` times
//! folds of generated sheets by the archive alone, for oracle/slower.py. `bench --sheets` prints the sheets of the first table, in hex and in
//! the Rust's own words; `bench --profile TABLE SHEET RUNS` runs one sheet of a table (`fold`, `growth`, `limit`, `lists`, `series`, `line`,
//! `check` or `lookup`), by its number from 1, that many times by the archive alone, for a profiler, and with `plain` before the table, which
//! is then one of the first five, by the plain engine.

mod alone;
mod calls;
mod folds;
mod profile;
mod random;
mod series;
mod stacks;

use std::process::ExitCode;

use oracle::bits::to_hex;
use oracle::fold::read_expression;
use scale::bench_sheets::{BenchSheet, bench_sheets};
use scale::growth_sheets::{growth_sheets, limit_sheets};
use scale::list_sheets::list_sheets;

use crate::alone::{print_check_times, print_line_times, print_lookup_times};
use crate::folds::print_times;
use crate::profile::profile;
use crate::random::print_random_times;
use crate::series::print_series;
use crate::stacks::print_stacks;

fn main() -> ExitCode {
    let words: Vec<String> = std::env::args().skip(1).collect();
    let words: Vec<&str> = words.iter().map(String::as_str).collect();

    match run(&words) {
        Some(()) => ExitCode::SUCCESS,
        None => {
            eprintln!("{USAGE}");
            ExitCode::from(2)
        }
    }
}

const USAGE: &str =
    "usage: bench [--growth | --lists | --series | --stack | --sheets | --random SEED COUNT
             | --profile fold|growth|limit|lists|series|line|check|lookup SHEET RUNS
             | --profile plain fold|growth|limit|lists|series SHEET RUNS]";

/// Does what the words say, if they say something that can be done.
fn run(words: &[&str]) -> Option<()> {
    match words {
        [] => {
            print_times(&bench_sheets());
            print_line_times();
            print_check_times();
            print_lookup_times();
        }
        ["--growth"] => {
            print_times(&growth_sheets());
            print_times(&limit_sheets());
        }
        ["--lists"] => print_times(&list_sheets()),
        ["--series"] => print_series(),
        ["--stack"] => print_stacks(),
        ["--sheets"] => bench_sheets().iter().for_each(print_sheet),
        ["--random", seed, count] => print_random_times(seed.parse().ok()?, count.parse().ok()?),
        ["--profile", words @ ..] => profile(words)?,
        _ => return None,
    }
    Some(())
}

fn print_sheet(sheet: &BenchSheet) {
    let expression =
        read_expression(sheet.form, &sheet.bytes).expect("the Rust holds every sheet of the bench");
    println!(
        "{}\n  {}\n  {expression}\n",
        sheet.name,
        to_hex(&sheet.bytes)
    );
}
