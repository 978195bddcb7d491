//! Rules that cut the points into a wanted number of boxes.

use crate::points::DIMENSIONS;
use crate::random::Random;
use crate::rule::{DayItem, Rule, months, range, weekdays};
use crate::stock::Stock;

/// Intervals of weekdays, weeks, months and years.
pub type Shape = [u32; 4];

/// A rule that cuts the boxes of a shape, and so many more, each over some of its items.
pub fn over_boxes(stock: &mut Stock, shape: Shape, more: usize) -> Vec<Rule> {
    let mut first = boxes_rule(shape);
    first.kind = stock.random.within(0, 2);
    first.spans = stock.some_spans(2);

    let mut rules = vec![first];
    for _ in 0..more {
        let mut rule = Rule {
            operator: stock.random.within(0, 1),
            ..stock.rule_of_all_days()
        };
        rule.years = some_of(stock.random, &rules[0].years);
        rule.monthdays = some_of(stock.random, &rules[0].monthdays);
        rule.weeks = some_of(stock.random, &rules[0].weeks);
        rule.weekdays = some_of(stock.random, &rules[0].weekdays);
        rules.push(rule);
    }
    rules
}

/// One rule whose ranges make so many intervals in each dimension.
pub fn boxes_rule(shape: Shape) -> Rule {
    let [on_weekdays, in_weeks, in_months, in_years] = &DIMENSIONS;
    let [days, weeks, month, years] = shape;

    Rule {
        years: alternating(in_years.start, years)
            .map(|year| range(year, year))
            .collect(),
        monthdays: alternating(in_months.start, month)
            .map(|month| months(month, month))
            .collect(),
        weeks: alternating(in_weeks.start, weeks)
            .map(|week| range(week, week))
            .collect(),
        weekdays: alternating(on_weekdays.start, days)
            .map(|day| weekdays(day, day))
            .collect(),
        ..Rule::default()
    }
}

/// First and last value of one of so many intervals of a dimension: single values from the lowest on, and the rest as the last.
pub fn interval(dimension: usize, count: u32, number: u32) -> (u32, u32) {
    let values = &DIMENSIONS[dimension];
    let start = values.start + number;

    match number + 1 == count {
        true => (start, values.end - 1),
        false => (start, start),
    }
}

/// One more item, from start to end, in a dimension by its number.
pub fn put_range(rule: &mut Rule, dimension: usize, start: u32, end: u32) {
    match dimension {
        0 => rule.weekdays.push(DayItem::between(start, end)),
        1 => rule.weeks.push(DayItem::between(start, end)),
        2 => rule.monthdays.push(DayItem::between(start, end)),
        _ => rule.years.push(DayItem::between(start, end)),
    }
}

/// Single values, no two of them neighbours, that cut a dimension into so many intervals.
fn alternating(lowest: u32, intervals: u32) -> impl Iterator<Item = u32> {
    (0..intervals / 2).map(move |place| lowest + intervals % 2 + 2 * place)
}

fn some_of<T: Clone>(random: &mut Random, items: &[T]) -> Vec<T> {
    items
        .iter()
        .filter(|_| random.percent(60))
        .cloned()
        .collect()
}
