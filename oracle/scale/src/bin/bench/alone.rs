//! Tables of what the archive alone does: lines, checks and lookups.

use std::hint::black_box;

use scale::bench_sheets::BenchSheet;
use scale::check_sheets::check_sheets;
use scale::line_sheets::line_sheets;
use scale::lookup_sheets::{MOMENTS, lookup_sheets};
use scale::stack::stack_of;
use scale::times::times;

use crate::calls::{ROOM, check, line, lookup};

/// 01's code 7: the output buffer is shorter than the result.
const NO_ROOM: u64 = 7;

fn print_alone(about: &str, columns: &str, sheets: &[BenchSheet], print_row: fn(&BenchSheet)) {
    println!("\n{about}\n");
    println!("| {columns} | stack |");
    println!("{}|", "|---".repeat(1 + columns.split(" | ").count()));
    sheets.iter().for_each(print_row);
}

pub fn print_line_times() {
    print_alone(
        "Lines, by the archive alone, since the Rust has no writer of them; times in µs, those for a byte of the line in ns:",
        "sheet | bytes in, out | best | median | best, ns a byte | median",
        &line_sheets(),
        print_line_row,
    );
}

fn print_line_row(sheet: &BenchSheet) {
    let given = sheet.given();
    let mut out = vec![0; ROOM];
    let [code, length, _] = line(given, &mut out);
    assert!(code == 0, "{} has a line", sheet.name);

    let [ours] = times([&mut || {
        black_box(line(black_box(given), &mut out));
    }]);
    let a_byte = |time: f64| 1e3 * time / length as f64;
    let stack = stack_of(|| {
        line(given, &mut out);
    });

    println!(
        "| {} | {}, {length} | {:.1} | {:.1} | {:.1} | {:.1} | {stack} |",
        sheet.name,
        given.bytes.len(),
        ours.best,
        ours.median,
        a_byte(ours.best),
        a_byte(ours.median),
    );
}

pub fn print_check_times() {
    print_alone(
        "Checks, by the archive alone, of sheets that are written back without room; times in µs, those for a byte of the sheet in ns:",
        "sheet | bytes | best | median | best, ns a byte | median",
        &check_sheets(),
        print_check_row,
    );
}

fn print_check_row(sheet: &BenchSheet) {
    let given = sheet.given();
    assert!(check(given) == NO_ROOM, "{} is accepted", sheet.name);

    let [ours] = times([&mut || {
        black_box(check(black_box(given)));
    }]);
    let a_byte = |time: f64| 1e3 * time / given.bytes.len() as f64;
    let stack = stack_of(|| {
        check(given);
    });

    println!(
        "| {} | {} | {:.2} | {:.2} | {:.2} | {:.2} | {stack} |",
        sheet.name,
        given.bytes.len(),
        ours.best,
        ours.median,
        a_byte(ours.best),
        a_byte(ours.median),
    );
}

pub fn print_lookup_times() {
    print_alone(
        "Lookups, by the archive alone, each sheet at twelve moments of four years; times in ns a call, best and median of all moments, and the best of the slowest one:",
        "sheet | bytes | best | median | best at the slowest moment",
        &lookup_sheets(),
        print_lookup_row,
    );
}

fn print_lookup_row(sheet: &BenchSheet) {
    let given = sheet.given();
    let mut calls = MOMENTS.map(|moment| {
        let [code, ..] = lookup(given, moment);
        assert!(code == 0, "{} has a state at {moment:?}", sheet.name);
        move || {
            black_box(lookup(black_box(given), black_box(moment)));
        }
    });

    let times = times(calls.each_mut().map(|call| call as &mut dyn FnMut()));
    let bests = sorted(times.map(|moment| moment.best));
    let medians = sorted(times.map(|moment| moment.median));
    let stacks = MOMENTS.map(|moment| {
        stack_of(|| {
            lookup(given, moment);
        })
    });
    let ns = |time: f64| (1e3 * time).round();

    println!(
        "| {} | {} | {} | {} | {} | {} |",
        sheet.name,
        given.bytes.len(),
        ns(bests[0]),
        ns(medians[medians.len() / 2]),
        ns(bests[bests.len() - 1]),
        stacks.into_iter().max().expect("there are moments"),
    );
}

fn sorted<const N: usize>(mut times: [f64; N]) -> [f64; N] {
    times.sort_by(f64::total_cmp);
    times
}
