//! The sheets of the bench that tell how the cost of a fold grows, rules and boxes each four times as many from one to the next, and those at
//! the limits.

use oracle::form::Form;

use crate::bench_sheets::{BenchSheet, bench_sheet, many_years, stretched_rule};
use crate::boxes::{Shape, boxes_rule};
use crate::check_sheets::full_rules;
use crate::groups::{each_odd_choice, everywhere, with_own_states};
use crate::points::DIMENSIONS;
use crate::random::Random;
use crate::rule::{ADDITIONAL, ITEM_LIMIT, NORMAL, OPEN, RULE_LIMIT, Rule, UNKNOWN, fixed};

pub const SOME_BOXES: Shape = [4, 4, 4, 4];
pub const SOME_RULES: usize = 16;
const MOST_BOXES: Shape = [4, 8, 8, 16];

/// 4 to 256 rules over 256 boxes, then 16 rules over 16 to 4,096 boxes, then 256 over 4,096.
pub fn growth_sheets() -> Vec<BenchSheet> {
    let by_rules = [
        ("4 rules, 256 boxes", 4, SOME_BOXES),
        ("16 rules, 256 boxes", 16, SOME_BOXES),
        ("64 rules, 256 boxes", 64, SOME_BOXES),
        ("256 rules, 256 boxes", 256, SOME_BOXES),
    ];
    let by_boxes = [
        ("16 rules, 16 boxes", SOME_RULES, [2, 2, 2, 2]),
        ("16 rules, 64 boxes", SOME_RULES, [2, 2, 4, 4]),
        ("16 rules, 256 boxes", SOME_RULES, SOME_BOXES),
        ("16 rules, 1,024 boxes", SOME_RULES, [4, 4, 8, 8]),
        ("16 rules, 4,096 boxes", SOME_RULES, MOST_BOXES),
    ];
    let of_both = bench_sheet(
        "256 rules, 4,096 boxes, one rule in four appends",
        Form::One,
        mostly_replacing(over_own_stretches(RULE_LIMIT, MOST_BOXES)),
    );

    by_rules
        .into_iter()
        .chain(by_boxes)
        .map(|(name, rules, shape)| bench_sheet(name, Form::One, over_own_stretches(rules, shape)))
        .chain([of_both])
        .collect()
}

/// Rules over stretches of their own for each count and shape.
fn over_own_stretches(count: usize, shape: Shape) -> Vec<Rule> {
    let boxes = shape.iter().product::<u32>();
    over_stretches(Random::new(count as u64, boxes.into()), count, shape)
}

/// A rule that cuts all boxes of a shape, then rules over stretches of its intervals. By the same random numbers fewer rules are the first of
/// more, and over more intervals they begin and end at about the same part of them.
pub fn over_stretches(mut random: Random, count: usize, shape: Shape) -> Vec<Rule> {
    let cuts: [Vec<u32>; 4] = std::array::from_fn(|dimension| {
        let values = &DIMENSIONS[dimension];
        (values.start..values.start + shape[dimension])
            .chain([values.end])
            .collect()
    });
    let first = Rule {
        spans: vec![fixed(0, 60)],
        ..boxes_rule(shape)
    };
    let others = (1..count as u32)
        .map(|number| stretched_rule(&mut random, number, cuts.each_ref().map(Vec::as_slice)));

    std::iter::once(first).chain(others).collect()
}

/// Rules of which three in four replace lists: where half of them append, a thousand lists stand over so many boxes.
fn mostly_replacing(mut rules: Vec<Rule>) -> Vec<Rule> {
    for (number, rule) in rules.iter_mut().enumerate().skip(1) {
        rule.kind = [OPEN, UNKNOWN][number % 2];
        rule.operator = match number % 4 {
            1 => ADDITIONAL,
            _ => NORMAL,
        };
    }
    rules
}

/// As much as there may be of rules, items, boxes and entries, and many groups. Form 1 can't count the last one's result.
pub fn limit_sheets() -> Vec<BenchSheet> {
    vec![
        bench_sheet(
            "256 full rules, all left",
            Form::One,
            full_rules(RULE_LIMIT),
        ),
        bench_sheet(
            "256 rules, 4,095 boxes in years",
            Form::Two,
            many_years(RULE_LIMIT, MANY_YEARS, 0),
        ),
        bench_sheet(
            "256 rules, 4,095 boxes in years, lists of up to 32 rules",
            Form::Two,
            many_years(RULE_LIMIT, MANY_YEARS, 30),
        ),
        bench_sheet(
            "44 rules, 2,816 groups of lists of up to 32 rules",
            Form::Two,
            with_many_spans(many_groups(28), 28),
        ),
    ]
}

/// 2,816 boxes, each a group, by 501 lists of so many rules and up to four more.
fn many_groups(on_every_day: usize) -> Vec<Rule> {
    let days = [each_odd_choice([1, 16, 11, 16]), everywhere(on_every_day)];
    with_own_states(days.concat())
}

/// Single years, each between two that no rule names.
const MANY_YEARS: usize = 2_047;

/// So many of the last rules get sixteen spans each, which the spans of the others paint over.
fn with_many_spans(mut rules: Vec<Rule>, last: usize) -> Vec<Rule> {
    let own = rules.len() - last;
    let mut everywhere: Vec<Rule> = rules.split_off(own);

    for (number, rule) in (0..).zip(&mut everywhere) {
        let minute = |place| 90 * place + number;
        rule.operator = ADDITIONAL;
        rule.spans = (0..ITEM_LIMIT as u32)
            .map(|place| fixed(minute(place), minute(place) + 20))
            .collect();
    }
    everywhere.into_iter().chain(rules).collect()
}

#[cfg(test)]
mod tests {
    use super::*;
    use crate::expected::Sheet;

    #[test]
    fn no_sheet_is_refused_and_boxes_are_as_named() {
        for sheet in growth_sheets().iter().chain(&limit_sheets()) {
            let read = Sheet::new(sheet.given());
            let accepted = read.accepted().expect("it is read");
            let extent = accepted.extent().expect("its fold is not refused");
            let named = format!("{} boxes", grouped(extent.boxes));
            assert!(
                !sheet.name.contains("boxes") || sheet.name.contains(&named),
                "{}: {named}",
                sheet.name
            );
        }
    }

    /// With a comma before the last three digits.
    fn grouped(number: usize) -> String {
        match number {
            0..1000 => number.to_string(),
            _ => format!("{},{:03}", number / 1000, number % 1000),
        }
    }
}
