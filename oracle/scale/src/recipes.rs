//! Recipes of sound sheets: drained whole, stopped, at the limits and one past them, each anyhow or so that it has a line.

use oracle::form::Form;

use crate::boxes::{Shape, over_boxes};
use crate::large::{many_boxes, many_rules, many_years};
use crate::lists::LIST_LIMIT;
use crate::many_lists::{churning_few_boxes, many_lists};
use crate::overlapping::take_overlaps;
use crate::random::Random;
use crate::rule::{
    ADDITIONAL, ITEM_LIMIT, RULE_LIMIT, Rule, Stepped, fixed, months, range, weekdays,
};
use crate::stock::Stock;
use crate::stoppers::stop;
use crate::telling::{add_unsaid, make_sayable};

/// The rules of one sheet, before it is made to have a line.
pub type Recipe = fn(&mut Stock) -> Vec<Rule>;

/// What a run makes where it isn't one of large sheets alone, or of sheets with many lists.
pub const MIXED: [(usize, Recipe); 11] = [
    (6_000, drained),
    (2_600, stopped),
    (400, boxes_at_the_limit),
    (400, lists_at_the_limit),
    (550, counts_at_the_limit),
    (8, all_at_the_limit),
    (20, many_boxes),
    (20, many_rules),
    (2, many_years),
    (4, many_lists),
    (4, churning_few_boxes),
];

/// The rules of one sheet. Half of them stay where the Rust's constructors take the values as they are, and of form 2 some have comments of
/// form 1 alone, so that they can go there.
pub fn rules(random: &mut Random, form: Form, recipes: &[(usize, Recipe)]) -> Vec<Rule> {
    let recipe = random.weighed(recipes);
    let rising = random.percent(50);
    let comment_form = match random.percent(SHORT_COMMENTS_PERCENT) {
        true => Form::One,
        false => form,
    };
    let mut rules = recipe(&mut Stock::new(random, rising, comment_form));

    if random.percent(SAYABLE_PERCENT) {
        make_sayable(&mut rules, random, rising, comment_form);
        if random.percent(UNSAID_PERCENT) {
            add_unsaid(&mut rules, random);
        }
    }

    take_overlaps(&mut rules);
    rules
}

const SHORT_COMMENTS_PERCENT: usize = 40;
/// How many sheets are made to have a line, and how many of those then lose it by one thing alone.
const SAYABLE_PERCENT: usize = 45;
const UNSAID_PERCENT: usize = 20;

fn drained(stock: &mut Stock) -> Vec<Rule> {
    stock.rules()
}

/// Stoppers first, in the middle, last, at several places, or from one place on.
fn stopped(stock: &mut Stock) -> Vec<Rule> {
    let mut rules = stock.rules();
    let last = rules.len() - 1;
    let anywhere = stock.random.below(rules.len());
    let places = [
        vec![0],
        vec![last / 2],
        vec![last],
        vec![0, last],
        vec![anywhere],
        (anywhere..=last).collect(),
    ];

    for place in stock.random.of(&places) {
        stop(&mut rules[place], stock);
    }

    rules
}

/// Intervals of weekdays, weeks, months and years: 4,096 boxes or not many less, some that are more, and some of 1,024, once the most.
const SHAPES: [Shape; 10] = [
    [1, 8, 8, 16],
    [4, 4, 8, 8],
    [7, 3, 12, 4],
    [1, 32, 1, 32],
    [1, 9, 8, 16],
    [4, 8, 8, 16],
    [2, 16, 4, 32],
    [5, 25, 4, 8],
    [4, 8, 8, 17],
    [7, 7, 7, 12],
];

fn boxes_at_the_limit(stock: &mut Stock) -> Vec<Rule> {
    let shape = stock.random.of(&SHAPES);
    let more = stock.random.below(6);
    over_boxes(stock, shape, more)
}

/// Lists of about 32 entries, on all days or, since some rules have days of their own, on some only.
fn lists_at_the_limit(stock: &mut Stock) -> Vec<Rule> {
    let length = LIST_LIMIT + stock.random.below(4) - 1;
    let mut rules: Vec<Rule> = (0..length).map(|_| stock.rule_of_all_days()).collect();

    if stock.random.percent(50) {
        for _ in 0..stock.random.within(1, 8) {
            let place = stock.random.below(length);
            rules[place] = Rule {
                operator: ADDITIONAL,
                ..stock.rule()
            };
        }
    }

    rules
}

/// 256 rules, or 16 items of one sort, each some way from the one before; half of them one more. There are fewer months and weekdays than
/// that, so that a rule with so many of them overlaps: it stops.
fn counts_at_the_limit(stock: &mut Stock) -> Vec<Rule> {
    let above = stock.random.below(2);

    if stock.random.percent(5) {
        return (0..RULE_LIMIT + above).map(|_| stock.rule()).collect();
    }

    let mut rules = stock.rules();
    let place = stock.random.below(rules.len());
    let (rule, count) = (&mut rules[place], ITEM_LIMIT + above);

    let apart = stock.random.within(1, 3);
    let longer = stock.random.within(0, apart - 1);
    let offsets = (0..count as u32).map(|place| apart * place);

    match stock.random.below(5) {
        0 => {
            rule.years = offsets
                .map(|by| range(2000 + by, 2000 + by + longer))
                .collect()
        }
        1 => rule.weeks = offsets.map(|by| range(1 + by, 1 + by + longer)).collect(),
        2 => {
            rule.monthdays = offsets.map(|by| months(1 + by % 12, 2)).collect();
            stop(rule, stock);
        }
        3 => {
            rule.weekdays = offsets.map(|by| weekdays(by % 7, 0)).collect();
            stop(rule, stock);
        }
        _ => {
            rule.spans = offsets
                .map(|by| fixed(600 + 10 * by, 700 + 9 * by))
                .collect()
        }
    }

    rules
}

/// 256 rules of 16 items of each sort and 16 spans. Each has a step, so that no such rule is drawn, which would take long.
fn all_at_the_limit(stock: &mut Stock) -> Vec<Rule> {
    let full = |stock: &mut Stock| Rule {
        operator: stock.random.within(0, 2),
        years: filled(stock.random, |random| Stepped {
            step: random.within(2, 9),
            ..rising(random, 1900, 9980)
        }),
        monthdays: filled(stock.random, |random| {
            months(random.within(1, 12), random.within(1, 12))
        }),
        weeks: filled(stock.random, |random| rising(random, 1, 33)),
        weekdays: filled(stock.random, |random| {
            weekdays(random.within(0, 6), random.within(0, 6))
        }),
        spans: stock.some_spans(ITEM_LIMIT),
        ..stock.rule_of_all_days()
    };

    (0..RULE_LIMIT).map(|_| full(stock)).collect()
}

fn filled<T>(random: &mut Random, item: fn(&mut Random) -> T) -> Vec<T> {
    (0..ITEM_LIMIT).map(|_| item(random)).collect()
}

/// A range that rises by more than any step here.
fn rising(random: &mut Random, lowest: u32, highest: u32) -> Stepped {
    let start = random.within(lowest, highest);
    range(start, start + random.within(10, 19))
}

#[cfg(test)]
mod tests {
    use std::collections::HashSet;

    use super::*;
    use crate::why::{WHYS, reasons_of, stops};

    const SHEETS: u64 = 100_000;

    #[derive(Clone, Copy, Debug, PartialEq, Eq, Hash)]
    enum Place {
        First,
        Between,
        Last,
    }

    fn place(index: usize, length: usize) -> Place {
        match index {
            0 => Place::First,
            _ if index + 1 == length => Place::Last,
            _ => Place::Between,
        }
    }

    /// The reasons of the first rule that stops, and where it stands.
    fn stopped(rules: &[Rule]) -> Option<(Vec<usize>, Place)> {
        let index = rules.iter().position(stops)?;
        let reasons = reasons_of(&rules[index]).numbers();
        Some((reasons, place(index, rules.len())))
    }

    #[test]
    fn rules_stop_for_each_reason_and_for_each_two_at_each_place() {
        let met: HashSet<_> = (0..SHEETS)
            .filter_map(|number| stopped(&rules(&mut Random::new(1, number), Form::One, &MIXED)))
            .collect();

        for place in [Place::First, Place::Between, Place::Last] {
            for reason in 1..WHYS {
                assert!(met.contains(&(vec![reason], place)), "{reason} {place:?}");
                for later in reason + 1..WHYS {
                    let both = (vec![reason, later], place);
                    assert!(met.contains(&both), "{both:?}");
                }
            }
        }
    }
}
