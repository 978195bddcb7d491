//! One sheet of a table, run by the archive alone.

use std::hint::black_box;

use scale::archive::Given;
use scale::bench_sheets::{BenchSheet, bench_sheets};
use scale::check_sheets::check_sheets;
use scale::growth_sheets::{growth_sheets, limit_sheets};
use scale::line_sheets::line_sheets;
use scale::list_sheets::list_sheets;
use scale::lookup_sheets::{MOMENTS, lookup_sheets};
use scale::series::all_series;

use crate::calls::{ROOM, check, fold, fold_plain, line, lookup};

/// What is called with each sheet of a table.
type Call = fn(Given, &mut [u8]);

/// Runs what the words say, if they say something that can be run.
pub fn profile(words: &[&str]) -> Option<()> {
    let ((sheets, call), sheet, runs) = match words {
        ["plain", table, sheet, runs] => (plain_table_of(table)?, sheet, runs),
        [table, sheet, runs] => (table_of(table)?, sheet, runs),
        _ => return None,
    };
    let (sheet, runs): (usize, usize) = (sheet.parse().ok()?, runs.parse().ok()?);
    let given = sheets.get(sheet.checked_sub(1)?)?.given();
    let mut out = vec![0; ROOM];

    for _ in 0..runs {
        call(black_box(given), black_box(&mut out));
    }
    Some(())
}

fn table_of(name: &str) -> Option<(Vec<BenchSheet>, Call)> {
    match name {
        "line" => Some((line_sheets(), |sheet, out| _ = black_box(line(sheet, out)))),
        "check" => Some((check_sheets(), |sheet, _| _ = black_box(check(sheet)))),
        "lookup" => Some((lookup_sheets(), look_up)),
        _ => Some((folded_table(name)?, |sheet, out| {
            _ = black_box(fold(sheet, out))
        })),
    }
}

/// At each moment of the bench.
fn look_up(sheet: Given, _: &mut [u8]) {
    for moment in MOMENTS {
        black_box(lookup(sheet, black_box(moment)));
    }
}

/// A table of folds, by the plain engine.
fn plain_table_of(name: &str) -> Option<(Vec<BenchSheet>, Call)> {
    Some((folded_table(name)?, |sheet, out| {
        _ = black_box(fold_plain(sheet, out))
    }))
}

fn folded_table(name: &str) -> Option<Vec<BenchSheet>> {
    match name {
        "fold" => Some(bench_sheets()),
        "growth" => Some(growth_sheets()),
        "limit" => Some(limit_sheets()),
        "lists" => Some(list_sheets()),
        "series" => Some(series_sheets()),
        _ => None,
    }
}

/// Those of all series, one after the other.
fn series_sheets() -> Vec<BenchSheet> {
    let sheets = all_series().into_iter().flat_map(|series| series.sheets);
    sheets.map(|(_, sheet)| sheet).collect()
}
