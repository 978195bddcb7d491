//! The sheets and moments of the bench's lookups: those of the first table, and the largest of the others.

use crate::bench_sheets::{BenchSheet, bench_sheets};
use crate::growth_sheets::{growth_sheets, limit_sheets};

pub type Moment = [u64; 4];

/// Year, month, day and minute: one in each month, on any weekday and at any hour, at none of which a rule of the landing site stands from
/// dusk on or with an open end, so that every sheet has a state there.
pub const MOMENTS: [Moment; 12] = [
    [2024, 1, 1, 0],
    [2024, 2, 29, 430],
    [2024, 3, 18, 715],
    [2025, 4, 9, 1020],
    [2025, 5, 25, 840],
    [2025, 6, 30, 90],
    [2026, 7, 14, 1310],
    [2026, 8, 2, 600],
    [2026, 9, 24, 1439],
    [2027, 10, 13, 780],
    [2027, 11, 28, 365],
    [2027, 12, 31, 1200],
];

/// Of the sheets at the limits the first one is left out: its rules are all left, so that no lookup finds a state.
pub fn lookup_sheets() -> Vec<BenchSheet> {
    let largest_grown = growth_sheets().pop();

    bench_sheets()
        .into_iter()
        .chain(largest_grown)
        .chain(limit_sheets().into_iter().skip(1))
        .collect()
}

#[cfg(test)]
mod tests {
    use super::*;
    use crate::archive;
    use crate::expected::Sheet;
    use crate::stack::with_stack;

    #[test]
    fn every_sheet_has_a_state_at_every_moment() {
        for sheet in lookup_sheets() {
            let read = Sheet::new(sheet.given());

            for moment in MOMENTS {
                let expected = read.lookup(moment).numbers;
                assert_eq!(expected[0], 0, "{} at {moment:?}", sheet.name);

                let mut found = [u64::MAX; 4];
                assert!(with_stack(|| archive::lookup(
                    sheet.given(),
                    moment,
                    &mut found
                )));
                assert_eq!(found[..], expected[..], "{} at {moment:?}", sheet.name);
            }
        }
    }
}
