//! Years, months, days and minutes to look up: mostly at the edges of a sheet's rules, a quarter of them around a new year, where a week
//! may count in another year, and some that no calendar has.

use crate::random::Random;
use crate::rule::Rule;

/// Year, month, day and minute.
pub fn moment(random: &mut Random, rules: &[Rule]) -> [u64; 4] {
    let rule = match rules.is_empty() {
        true => Rule::default(),
        false => random.of(rules),
    };

    let years = rule.years.iter().flat_map(|item| [item.start, item.end]);
    let months = rule
        .monthdays
        .iter()
        .flat_map(|item| [item.start, item.end]);
    let minutes = rule
        .spans
        .iter()
        .flat_map(|span| [span.start.minutes, span.end.minutes]);

    let year = at_an_edge(random, years.collect(), 1900, 9999);
    let [year, month, day] = match random.percent(NEW_YEAR_PERCENT) {
        true => around_new_year(random, year),
        false => [
            year,
            at_an_edge(random, months.collect(), 1, 12),
            at_an_edge(random, vec![2, 29, 31], 1, 28),
        ],
    };
    let minute = at_an_edge(random, minutes.collect(), 0, 1439);

    [year, month, day, minute]
}

const NEW_YEAR_PERCENT: usize = 25;

/// One of the last four days of a year, or of the first four of the next.
pub fn around_new_year(random: &mut Random, year: u64) -> [u64; 3] {
    match random.below(8) as u64 {
        past @ 0..4 => [year, 12, 28 + past],
        past => [year.wrapping_add(1), 1, past - 3],
    }
}

/// An edge or the value before it, any lawful value, and rarely one just outside or far away.
fn at_an_edge(random: &mut Random, edges: Vec<u32>, lowest: u32, highest: u32) -> u64 {
    match random.below(100) {
        0 => u64::from(lowest).wrapping_sub(1),
        1 => u64::from(highest) + 1,
        2 => random.of(&[0, u64::MAX, 1 << 32, (1 << 32) + u64::from(lowest), 1 << 63]),
        3..60 if !edges.is_empty() => {
            let edge = u64::from(random.of(&edges));
            edge.saturating_sub(random.below(2) as u64)
        }
        _ => random.within(lowest, highest).into(),
    }
}
