//! Recipes of large sheets, document 02's M-107: 65 to 256 rules, 1,025 to 4,096 boxes and some more, and results at what form 1 can count.

use std::ops::RangeInclusive;

use crate::boxes::{Shape, boxes_rule, over_boxes};
use crate::counts::MOST_ITEMS;
use crate::groups::{each_odd_choice, everywhere, fewer_by, groups_of_many_rules, with_own_states};
use crate::lists::LIST_LIMIT;
use crate::random::Random;
use crate::recipes::Recipe;
use crate::rule::{ADDITIONAL, ITEM_LIMIT, NORMAL, OPEN, RULE_LIMIT, Rule, UNKNOWN, range};
use crate::stock::Stock;
use crate::stoppers::stop;

/// What a run of large sheets alone makes. The Rust takes a tenth of a second for each of many rules over many boxes, and a second for each
/// of the many groups.
pub const LARGE: [(usize, Recipe); 7] = [
    (7_950, many_boxes),
    (1_200, many_rules),
    (60, long_lists_over_many_boxes),
    (60, many_rules_over_many_boxes),
    (720, many_years),
    (20, groups_of_some_rules),
    (2, groups_of_rules_at_the_limit),
];

const FEWEST_RULES: usize = 65;
/// The boxes of large sheets, some of which are too many.
const BOXES: RangeInclusive<u32> = 1_025..=4_352;
/// The most intervals that a rule of sixteen single values makes in each dimension.
const MOST_INTERVALS: Shape = [7, 33, 12, 33];
/// At the limit, and just above it.
const LIMIT_SHAPES: [Shape; 5] = [
    [4, 8, 8, 16],
    [1, 32, 4, 32],
    [2, 16, 4, 32],
    [4, 8, 8, 17],
    [7, 7, 7, 12],
];

/// Few rules over many boxes.
pub fn many_boxes(stock: &mut Stock) -> Vec<Rule> {
    let shape = some_shape(stock.random);
    let more = stock.random.below(6);
    some_left(over_boxes(stock, shape, more), stock)
}

fn some_shape(random: &mut Random) -> Shape {
    if random.percent(20) {
        return random.of(&LIMIT_SHAPES);
    }

    loop {
        let shape = MOST_INTERVALS.map(|most| random.within(1, most));
        if BOXES.contains(&shape.iter().product()) {
            return shape;
        }
    }
}

/// At times one more than there may be.
pub fn many_rules(stock: &mut Stock) -> Vec<Rule> {
    let any = FEWEST_RULES + stock.random.below(RULE_LIMIT - FEWEST_RULES);
    let count = stock
        .random
        .of(&[FEWEST_RULES, RULE_LIMIT, RULE_LIMIT + 1, any, any, any]);
    some_left((0..count).map(|_| stock.rule()).collect(), stock)
}

/// Mostly rules that replace, so that few lists grow too long.
fn many_rules_over_many_boxes(stock: &mut Stock) -> Vec<Rule> {
    let shape = some_shape(stock.random);
    let more = FEWEST_RULES + stock.random.below(RULE_LIMIT - FEWEST_RULES);
    let mut rules = over_boxes(stock, shape, more);

    for rule in &mut rules {
        if stock.random.percent(70) {
            rule.operator = NORMAL;
        }
    }
    rules
}

/// Lists of about 32 entries.
fn long_lists_over_many_boxes(stock: &mut Stock) -> Vec<Rule> {
    let shape = some_shape(stock.random);
    let more = LIST_LIMIT - 3 + stock.random.below(6);
    let mut rules = over_boxes(stock, shape, more);

    for rule in &mut rules {
        rule.operator = ADDITIONAL;
        if stock.random.percent(90) {
            rule.weekdays.clear();
            rule.weeks.clear();
            rule.monthdays.clear();
            rule.years.clear();
        }
    }
    let cutting = stock.random.below(rules.len());
    rules[cutting] = Rule {
        operator: ADDITIONAL,
        spans: stock.some_spans(1),
        ..boxes_rule(shape)
    };
    rules
}

/// About as many separate years of one day as form 1 can count, sixteen to a rule, in any order of rules; at times some rule beside them.
pub fn many_years(stock: &mut Stock) -> Vec<Rule> {
    let any = MOST_ITEMS - 20 + stock.random.below(60);
    let count = stock.random.of(&[MOST_ITEMS, MOST_ITEMS + 1, any]);
    let day = Rule {
        operator: NORMAL,
        kind: stock.random.of(&[OPEN, UNKNOWN]),
        ..stock.rule_of_all_days()
    };
    let mut rules = years_apart(&day, count);

    stock.random.shuffle(&mut rules);
    if stock.random.percent(20) {
        let beside = Rule {
            operator: ADDITIONAL,
            ..stock.rule()
        };
        stock.random.insert(&mut rules, |_| beside);
    }
    some_left(rules, stock)
}

/// The rule on so many years, no two of them neighbours, sixteen to a rule.
pub fn years_apart(day: &Rule, count: usize) -> Vec<Rule> {
    let years: Vec<_> = (0..count as u32)
        .map(|place| range(1901 + 2 * place, 1901 + 2 * place))
        .collect();

    years
        .chunks(ITEM_LIMIT)
        .map(|years| Rule {
            years: years.to_vec(),
            ..day.clone()
        })
        .collect()
}

/// 1,024 groups by 250 lists.
fn groups_of_some_rules(stock: &mut Stock) -> Vec<Rule> {
    let more = stock.random.below(5);
    let days = [each_odd_choice([1, 8, 8, 16]), everywhere(more)];
    some_left(with_own_states(days.concat()), stock)
}

/// At times more rules than form 1 can count.
fn groups_of_rules_at_the_limit(stock: &mut Stock) -> Vec<Rule> {
    let less = stock.random.within(0, 2) as usize;
    some_left(fewer_by(less, groups_of_many_rules()), stock)
}

/// The rules, of which at times one stops: the last, any, or one more.
pub fn some_left(mut rules: Vec<Rule>, stock: &mut Stock) -> Vec<Rule> {
    let any = stock.random.below(rules.len());

    match stock.random.below(10) {
        0 => stop(&mut rules[any], stock),
        1 => rules
            .last_mut()
            .into_iter()
            .for_each(|rule| stop(rule, stock)),
        2 if rules.len() < RULE_LIMIT => {
            let mut left = stock.rule();
            stop(&mut left, stock);
            rules.push(left);
        }
        _ => {}
    }
    rules
}
