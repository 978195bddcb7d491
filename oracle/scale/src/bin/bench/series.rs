//! The tables of `--series`, which oracle/plot.py reads: one for each thing that grows, with its title in bold above it.

use scale::bench_sheets::BenchSheet;
use scale::series::{Series, all_series};

use crate::folds::{print_archive, timed};

pub fn print_series() {
    all_series().iter().for_each(print_one);
    print_archive();
}

fn print_one(series: &Series) {
    println!("\n**{}**\n", series.title);
    println!(
        "| {} | bytes in, out | emitted | archive best | median | plain best | median | Rust best | median | times as fast, best | median |",
        series.grows
    );
    println!("{}|", "|---".repeat(11));

    for (size, sheet) in &series.sheets {
        print_row(*size, sheet);
    }
}

fn print_row(size: usize, sheet: &BenchSheet) {
    let timed = timed(sheet);
    let [at_best, by_medians] = timed.times_as_fast();

    println!(
        "| {size} | {}, {} | {} | {:.1} | {:.1} | {:.1} | {:.1} | {:.1} | {:.1} | {at_best:.1} | {by_medians:.1} |",
        sheet.bytes.len(),
        timed.length,
        timed.emitted,
        timed.ours.best,
        timed.ours.median,
        timed.plain.best,
        timed.plain.median,
        timed.rust.best,
        timed.rust.median,
    );
}
