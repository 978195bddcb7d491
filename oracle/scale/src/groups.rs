//! Rules by which boxes differ, so that many groups come out: a list for each box, or few lists that never stand next to themselves.

use crate::boxes::{Shape, interval, put_range};
use crate::points::DIMENSIONS;
use crate::rule::{ADDITIONAL, CLOSED, NORMAL, Rule, fixed};

/// Additional rules, each with a comment and a span of its own, on the days of these.
pub fn with_own_states(days: Vec<Rule>) -> Vec<Rule> {
    let own = |(number, rule): (u32, Rule)| Rule {
        operator: ADDITIONAL,
        comment: 1 + number,
        spans: vec![fixed(22 * number, 22 * number + 20)],
        ..rule
    };

    (0..).zip(days).map(own).collect()
}

/// Days that are every day, so many times.
pub fn everywhere(count: usize) -> Vec<Rule> {
    vec![Rule::default(); count]
}

/// A rule for each interval of each dimension: no two boxes have the same list.
pub fn each_interval(shape: Shape) -> Vec<Rule> {
    let mut rules = Vec::new();

    for (dimension, count) in shape.into_iter().enumerate() {
        rules.extend((0..count).map(|number| days_of(dimension, count, &[number])));
    }
    rules
}

/// A rule for each interval of each dimension but the first, from there on: no two boxes have the same list, the first box has the empty
/// one, and no list that was made goes.
pub fn climbing(shape: Shape) -> Vec<Rule> {
    let mut rules = Vec::new();

    for (dimension, count) in shape.into_iter().enumerate() {
        let values = &DIMENSIONS[dimension];
        rules.extend((1..count).map(|number| {
            let mut rule = Rule::default();
            put_range(&mut rule, dimension, values.start + number, values.end - 1);
            rule
        }));
    }
    rules
}

/// For each bit of an interval's number and each choice of dimensions, odd in count, a rule on the boxes where the bit is set in just these.
///
/// Of two boxes that differ in one dimension alone, some bit is set in an odd count of dimensions for one, and for the other it is not: the
/// two are not alike, so that no group grows. Boxes that differ in more dimensions may have the same list.
pub fn each_odd_choice(shape: Shape) -> Vec<Rule> {
    let most = shape.into_iter().max().expect("there are dimensions");
    let bits = 0..(most - 1).checked_ilog2().map_or(0, |highest| highest + 1);
    let choices = || (0..1 << shape.len()).filter(|choice: &u32| choice.count_ones() % 2 == 1);

    bits.flat_map(|bit| choices().filter_map(move |choice| days_with(shape, bit, choice)))
        .collect()
}

/// In each dimension the intervals whose number has the bit as chosen; nothing where a dimension has no such interval.
fn days_with(shape: Shape, bit: u32, choice: u32) -> Option<Rule> {
    let mut rule = Rule::default();

    for (dimension, count) in shape.into_iter().enumerate() {
        let is_set = choice >> dimension & 1;
        let numbers: Vec<u32> = (0..count)
            .filter(|number| number >> bit & 1 == is_set)
            .collect();

        match numbers.len() as u32 {
            0 => return None,
            all if all == count => {}
            _ => put_intervals(&mut rule, dimension, count, &numbers),
        }
    }
    Some(rule)
}

fn days_of(dimension: usize, count: u32, numbers: &[u32]) -> Rule {
    let mut rule = Rule::default();
    put_intervals(&mut rule, dimension, count, numbers);
    rule
}

fn put_intervals(rule: &mut Rule, dimension: usize, count: u32, numbers: &[u32]) {
    for number in numbers {
        let (start, end) = interval(dimension, count, *number);
        put_range(rule, dimension, start, end);
    }
}

/// 2,560 groups of 510 lists, together 65,536 rules: 24 for each box of nine of ten months' intervals, 20 for those of the last, and in each
/// box on average two of the sixteen that tell it from others.
pub fn groups_of_many_rules() -> Vec<Rule> {
    let mut but_the_last = Rule::default();
    put_range(&mut but_the_last, 2, 1, 9);

    let days = [
        each_odd_choice([1, 16, 10, 16]),
        vec![but_the_last; 4],
        everywhere(20),
    ];
    with_own_states(days.concat())
}

/// In the first box of weeks, months and years the hours of so many of the last rules are closed, so that its group has so many rules less.
pub fn fewer_by(less: usize, mut rules: Vec<Rule>) -> Vec<Rule> {
    let last = &rules[rules.len() - less..];
    let mut closed = Rule {
        operator: NORMAL,
        kind: CLOSED,
        spans: last.iter().flat_map(|rule| rule.spans.clone()).collect(),
        ..Rule::default()
    };

    for (dimension, values) in DIMENSIONS.iter().enumerate().skip(1) {
        put_range(&mut closed, dimension, values.start, values.start);
    }
    rules.push(closed);
    rules
}
