//! Sheets like those that landing sites publish, for a public evaluator of their lines: the first rule Normal, times fixed, no repeats,
//! ranges of one rule apart from each other, and every rule drained. A span past midnight would stop the fold, and the lookup would answer
//! 9 at every moment (document 01), so that there is none. Years stand in all rules of a sheet or in none, but for a few: else the fold
//! names the years from 1900 on, which the evaluator doesn't read.

use oracle::form::Form;

use crate::archive::Given;
use crate::public_moments::{FIRST_YEAR, LAST_YEAR, moment};
use crate::random::Random;
use crate::rule::{
    ADDITIONAL, CLOSED, MIDNIGHT, NORMAL, OPEN, Rule, Span, UNKNOWN, fixed, months, range, weekdays,
};
use crate::sheet::write_sheet;

/// A sheet of form 1, and moments to look up in it.
pub struct PublicSheet {
    bytes: Vec<u8>,
    pub moments: Vec<[u64; 4]>,
}

impl PublicSheet {
    pub fn given(&self) -> Given<'_> {
        Given {
            form: FORM.number(),
            bytes: &self.bytes,
        }
    }
}

const FORM: Form = Form::One;
const MOMENTS: usize = 20;

/// The sheet of a number, by nothing else but the seed.
pub fn public_sheet(seed: u64, number: u64) -> PublicSheet {
    let mut random = Random::new(seed, number);
    let rules = rules(&mut random);
    let moments = (0..MOMENTS).map(|_| moment(&mut random, &rules)).collect();

    PublicSheet {
        bytes: write_sheet(FORM, rules),
        moments,
    }
}

/// The edges from which one sheet's ranges are taken, few in each dimension, so that rules meet; none where it leaves the dimension alone.
struct Edges {
    years: Vec<u32>,
    months: Vec<u32>,
    weeks: Vec<u32>,
    weekdays: Vec<u32>,
    spans: Vec<Span>,
}

fn rules(random: &mut Random) -> Vec<Rule> {
    let edges = Edges {
        years: some(random, 35, |random| random.within(FIRST_YEAR, LAST_YEAR)),
        months: some(random, 30, |random| random.within(1, 12)),
        weeks: some(random, 60, week),
        weekdays: some(random, 75, |random| random.within(0, 6)),
        spans: some(random, 100, span),
    };
    let count = random.weighed(&[(10, 1), (25, 2), (25, 3), (20, 4), (12, 6), (8, 9)]);

    let mut rules: Vec<Rule> = (0..count).map(|_| rule(random, &edges)).collect();
    rules[0].operator = NORMAL;
    rules[0].kind = random.weighed(&[(75, OPEN), (25, UNKNOWN)]);
    rules
}

/// Two to five values, so many times in a hundred.
fn some<T>(random: &mut Random, percent: usize, value: fn(&mut Random) -> T) -> Vec<T> {
    if !random.percent(percent) {
        return Vec::new();
    }

    (0..random.within(2, 5)).map(|_| value(random)).collect()
}

/// The first and the last weeks of a year as often as all others.
fn week(random: &mut Random) -> u32 {
    match random.percent(50) {
        true => random.of(&[1, 2, 51, 52, 53]),
        false => random.within(1, 53),
    }
}

/// Mostly by the quarter of an hour, at times up to midnight or with an open end.
fn span(random: &mut Random) -> Span {
    let step = random.weighed(&[(85, 15), (15, 1)]);
    let start = step * random.within(0, MIDNIGHT / step - 1);
    let end = match random.percent(10) {
        true => MIDNIGHT,
        false => step * random.within(start / step + 1, MIDNIGHT / step),
    };

    Span {
        open_end: random.percent(1).into(),
        ..fixed(start, end)
    }
}

fn rule(random: &mut Random, edges: &Edges) -> Rule {
    let years = match edges.years.iter().min().zip(edges.years.iter().max()) {
        Some((first, last)) if random.percent(40) => vec![(*first, *last)],
        _ => ranges(random, &edges.years, 3, 0),
    };

    Rule {
        operator: random.weighed(&[(70, NORMAL), (30, ADDITIONAL)]),
        kind: random.weighed(&[(60, OPEN), (20, CLOSED), (20, UNKNOWN)]),
        comment: random.weighed(&[(70, 0), (10, 1), (10, 2), (5, 47), (5, 65535)]),
        years: items(years, range),
        monthdays: items(ranges(random, &edges.months, 40, 20), months),
        weeks: items(ranges(random, &edges.weeks, 30, 20), range),
        weekdays: items(ranges(random, &edges.weekdays, 30, 20), weekdays),
        spans: (0..random.within(1, 2))
            .map(|_| random.of(&edges.spans))
            .collect(),
    }
}

fn items<T>(ranges: Vec<(u32, u32)>, item: fn(u32, u32) -> T) -> Vec<T> {
    ranges
        .into_iter()
        .map(|(start, end)| item(start, end))
        .collect()
}

/// One or two ranges between the edges that share no value, but so many times in a hundred none, and so many times one that wraps.
fn ranges(random: &mut Random, edges: &[u32], none: usize, wrapping: usize) -> Vec<(u32, u32)> {
    if edges.is_empty() || random.percent(none) {
        return Vec::new();
    }

    let mut ends = [(); 4].map(|()| random.of(edges));
    ends.sort_unstable();
    let [start, before, after, end] = ends;

    match random.below(100) {
        draw if draw < wrapping => vec![(end, start)],
        draw if draw < 60 && before < after => vec![(start, before), (after, end)],
        _ => vec![(before, after)],
    }
}

#[cfg(test)]
mod tests {
    use super::*;
    use crate::expected::Sheet;
    use crate::overlap::overlaps;

    const SHEETS: u64 = 20_000;

    #[test]
    fn no_two_ranges_of_a_rule_share_a_value_and_all_rules_drain() {
        for number in 0..SHEETS {
            let made = public_sheet(1, number);
            let sheet = Sheet::new(made.given());
            let accepted = sheet.accepted().expect("it is read");
            assert!(!accepted.selectors().iter().any(overlaps), "{number}");
            assert!(accepted.left().is_empty(), "{number}");
        }
    }
}
