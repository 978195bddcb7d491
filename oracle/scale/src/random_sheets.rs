//! Generated sheets for the bench: sound ones of all sorts by their numbers, as the comparison at scale makes them.

use crate::bench_sheets::{BenchSheet, bench_sheet};
use crate::run::Sheets;

/// So many sheets of both forms, each named by its sort: of fifty one has many lists, four are large, and the others are mixed. Some are
/// refused.
pub fn random_sheets(seed: u64, count: u64) -> Vec<BenchSheet> {
    (0..count)
        .map(|number| {
            let (sort, sheets) = match number % 50 {
                0 => ("lists", Sheets::Lists),
                1..=4 => ("large", Sheets::Large),
                _ => ("mixed", Sheets::Mixed),
            };
            let (_, form, rules) = sheets.sound(seed, number);
            bench_sheet(sort, form, rules)
        })
        .collect()
}
