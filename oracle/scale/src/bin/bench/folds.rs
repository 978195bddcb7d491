//! Tables of folds: by both engines of the archive and by the Rust, which agree on each sheet before it is timed.

use std::hint::black_box;

use oracle::fold::{normalize_sheet, read_expression};
use scale::archive;
use scale::bench_sheets::BenchSheet;
use scale::times::{Times, times};

use crate::calls::{ROOM, depth, fold, fold_plain};

/// A fold that was agreed on, and how long it takes.
pub struct Timed {
    pub emitted: u64,
    /// Bytes of the result.
    pub length: usize,
    pub ours: Times,
    pub plain: Times,
    pub rust: Times,
    /// What of the Rust's time is not reading and writing.
    normalized: Times,
}

impl Timed {
    /// How many times as fast as the Rust the archive is, at best and by the medians.
    pub fn times_as_fast(&self) -> [f64; 2] {
        [
            self.rust.best / self.ours.best,
            self.rust.median / self.ours.median,
        ]
    }
}

/// The rules emitted and the bytes of a fold, on which both engines and the Rust agree.
fn agreed(sheet: &BenchSheet) -> (u64, usize) {
    let (given, name) = (sheet.given(), &sheet.name);
    let result =
        normalize_sheet(sheet.form, &sheet.bytes).expect("the Rust holds every sheet of the bench");
    let folded = [fold, fold_plain].map(|engine| {
        let mut out = vec![0; ROOM];
        let numbers = engine(given, &mut out);
        let length = numbers[4] as usize;
        assert!(
            numbers[0] == 0 && out[..length] == result,
            "each engine agrees with the Rust on {name}"
        );
        numbers
    });
    assert_eq!(folded[0], folded[1], "the engines agree on {name}");

    (folded[0][2], result.len())
}

pub fn timed(sheet: &BenchSheet) -> Timed {
    let (given, form, bytes) = (sheet.given(), sheet.form, &sheet.bytes);
    let (emitted, length) = agreed(sheet);

    let expression = read_expression(form, bytes).expect("the Rust holds it, as above");
    let (mut out, mut plain_out) = (vec![0; ROOM], vec![0; ROOM]);
    // Each engine comes after a call of the Rust: the two share code, so that one would find the other's still in the cache.
    let [ours, rust, plain, normalized] = times([
        &mut || {
            black_box(fold(black_box(given), &mut out));
        },
        &mut || drop(black_box(normalize_sheet(form, black_box(bytes)))),
        &mut || {
            black_box(fold_plain(black_box(given), &mut plain_out));
        },
        &mut || drop(black_box(black_box(&expression).clone().normalize())),
    ]);

    Timed {
        emitted,
        length,
        ours,
        plain,
        rust,
        normalized,
    }
}

pub fn print_times(sheets: &[BenchSheet]) {
    println!(
        "| sheet | bytes in, out | emitted | archive best | median | Rust best | median | normalize alone | times as fast, best | median | stack | plain best | median | plain : archive best | plain stack |"
    );
    println!("{}|", "|---".repeat(15));

    sheets.iter().for_each(print_row);
    print_archive();
}

/// What times are in, and how long the archive is.
pub fn print_archive() {
    let archive = env!("HOURS_ARCHIVE_FILE");
    match std::fs::metadata(archive) {
        Ok(file) => println!("\nTimes in µs. The archive has {} bytes.\n", file.len()),
        Err(error) => println!("\nTimes in µs. {archive}: {error}\n"),
    }
}

fn print_row(sheet: &BenchSheet) {
    let timed = timed(sheet);
    let mut out = vec![0; timed.length];
    let [stack, plain_stack] =
        [archive::fold, archive::fold_plain].map(|engine| depth(engine, sheet.given(), &mut out));
    let [at_best, by_medians] = timed.times_as_fast();

    println!(
        "| {} | {}, {} | {} | {:.1} | {:.1} | {:.1} | {:.1} | {:.1} | {at_best:.1} | {by_medians:.1} | {stack} | {:.1} | {:.1} | {:.2} | {plain_stack} |",
        sheet.name,
        sheet.bytes.len(),
        timed.length,
        timed.emitted,
        timed.ours.best,
        timed.ours.median,
        timed.rust.best,
        timed.rust.median,
        timed.normalized.median,
        timed.plain.best,
        timed.plain.median,
        timed.plain.best / timed.ours.best,
    );
}
