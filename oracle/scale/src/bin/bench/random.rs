//! Folds of generated sheets, timed by this archive alone, a line each: oracle/slower.py holds the lines of two archives against each other.

use std::hint::black_box;

use scale::bench_sheets::BenchSheet;
use scale::random_sheets::random_sheets;
use scale::times::best_of;

use crate::calls::{ROOM, fold};

/// Each sheet gets its samples in so many rounds over all sheets, so that a busy moment meets only some of them.
const ROUNDS: usize = 8;
const SAMPLES_A_ROUND: usize = 4;

pub fn print_random_times(seed: u64, count: u64) {
    let sheets = random_sheets(seed, count);
    let mut out = vec![0; ROOM];
    let mut bests = vec![f64::INFINITY; sheets.len()];

    for _ in 0..ROUNDS {
        for (sheet, best) in sheets.iter().zip(&mut bests) {
            *best = best.min(best_time(sheet, &mut out));
        }
    }

    println!(
        "# number, sort, form, code, rules emitted, bytes out, best ns of a fold; seed {seed}"
    );
    for (number, (sheet, best)) in sheets.iter().zip(bests).enumerate() {
        let [code, _, emitted, _, length, _, _] = fold(sheet.given(), &mut out);
        println!(
            "{number} {} {} {code} {emitted} {length} {:.0}",
            sheet.name,
            sheet.form.number(),
            1e3 * best
        );
    }
}

fn best_time(sheet: &BenchSheet, out: &mut [u8]) -> f64 {
    let given = sheet.given();
    best_of(SAMPLES_A_ROUND, &mut || {
        black_box(fold(black_box(given), out));
    })
}
