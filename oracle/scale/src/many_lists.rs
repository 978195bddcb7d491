//! Recipes of sheets with many lists, document 02's M-108: 400 to 600 that differ at once, some with lists of about 32 entries too, and lists
//! that come and go while few stand.

use crate::boxes::{Shape, put_range};
use crate::groups::each_interval;
use crate::large::{some_left, years_apart};
use crate::lists::{DIFFERENT_LIMIT, LIST_LIMIT, Lists};
use crate::points::{DIMENSIONS, combinations_of, replaces, selector_of};
use crate::random::Random;
use crate::recipes::Recipe;
use crate::rule::{ADDITIONAL, ITEM_LIMIT, NORMAL, OPEN, RULE_LIMIT, Rule, UNKNOWN};
use crate::stock::Stock;

/// What a run of sheets with many lists alone makes. The Rust takes some milliseconds for each over few boxes, and a tenth of a second for
/// each over many.
pub const MANY_LISTS: [(usize, Recipe); 7] = [
    (26, many_lists),
    (20, long_lists),
    (6, own_interval_lists),
    (8, crossed_years),
    (28, churning_few_boxes),
    (10, churning_some_boxes),
    (2, churning_many_boxes),
];

// Many lists at once.

const MOST_LISTS: u32 = 600;
const FEWEST_LISTS: u32 = 400;
/// Rules, so that one more on every day makes no list too long.
const LONGEST_CLIMB: u32 = LIST_LIMIT as u32 - 1;
/// 512 boxes, and 513.
const LIMIT_CLIMBS: [Shape; 8] = [
    [1, 8, 8, 8],
    [2, 4, 8, 8],
    [4, 4, 4, 8],
    [2, 16, 4, 4],
    [1, 4, 8, 16],
    [3, 19, 3, 3],
    [1, 9, 3, 19],
    [3, 3, 3, 19],
];

fn some_climb(random: &mut Random) -> Shape {
    if random.percent(40) {
        return random.of(&LIMIT_CLIMBS);
    }

    loop {
        let most = DIMENSIONS.map(|values| (values.end - values.start).min(LONGEST_CLIMB));
        let shape = most.map(|most| random.within(1, most));
        let rules: u32 = shape.iter().map(|count| count - 1).sum();
        let boxes: u32 = shape.iter().product();

        if rules <= LONGEST_CLIMB && (FEWEST_LISTS..=MOST_LISTS).contains(&boxes) {
            return shape;
        }
    }
}

/// Mostly one of more than 512 boxes.
fn some_higher_climb(random: &mut Random) -> Shape {
    loop {
        let shape = some_climb(random);
        if shape.iter().product::<u32>() as usize > DIFFERENT_LIMIT || random.percent(10) {
            return shape;
        }
    }
}

/// For each cut of a dimension a rule on one side of it, in any order: no two boxes have the same list. If it goes to the last, each rule
/// covers the last box.
fn climbing(stock: &mut Stock, shape: Shape, to_the_last: bool) -> Vec<Rule> {
    let mut rules = Vec::new();

    for (dimension, cuts) in some_cuts(stock.random, shape).iter().enumerate() {
        for cut in &cuts[1..cuts.len() - 1] {
            let (lowest, highest) = (cuts[0], cuts[cuts.len() - 1] - 1);
            let (start, end) = match to_the_last || stock.random.percent(50) {
                true => (*cut, highest),
                false => (lowest, cut - 1),
            };
            let mut rule = stock.rule_of_all_days();
            put_range(&mut rule, dimension, start, end);
            rules.push(rule);
        }
    }
    stock.random.shuffle(&mut rules);
    rules
}

/// About 512 lists, often with some rule that adds a few, or one that fills the empty list.
pub fn many_lists(stock: &mut Stock) -> Vec<Rule> {
    let shape = some_climb(stock.random);
    let mut rules = climbing(stock, shape, false);

    for _ in 0..stock.random.of(&[0, 0, 1, 2, 3]) {
        let more = match stock.random.percent(40) {
            true => stock.rule_of_all_days(),
            false => stock.rule(),
        };
        stock.random.insert(&mut rules, |_| more);
    }
    some_left(rules, stock)
}

/// About 512 lists, of which the last box's has an entry for each rule: 6 comes at the 33rd rule, 14 mostly at the last one that climbs,
/// before it, there or behind it.
fn long_lists(stock: &mut Stock) -> Vec<Rule> {
    let shape = some_higher_climb(stock.random);
    let mut rules = climbing(stock, shape, true);
    let last = rules.pop().expect("so many boxes take rules");
    let before = LIST_LIMIT - 2 + stock.random.below(4);

    while rules.len() < before {
        rules.push(stock.rule_of_all_days());
    }
    stock.random.shuffle(&mut rules);
    rules.push(last);
    for _ in 0..stock.random.below(4) {
        rules.push(stock.rule_of_all_days());
    }
    rules
}

/// A rule for each interval of a dimension, in any order, so that a list goes where its last box is covered.
fn own_interval_lists(stock: &mut Stock) -> Vec<Rule> {
    let shape = some_climb(stock.random);
    let mut rules = each_interval(shape);

    for rule in &mut rules {
        let said = stock.rule_of_all_days();
        rule.operator = said.operator;
        rule.kind = said.kind;
        rule.comment = said.comment;
        rule.spans = said.spans;
    }
    stock.random.shuffle(&mut rules);
    some_left(rules, stock)
}

/// Single years, each in one to some of many rules, so that about each has a list of its own.
fn crossed_years(stock: &mut Stock) -> Vec<Rule> {
    let day = stock.rule_of_all_days();
    let mut rules = years_apart(&day, 480 + stock.random.below(140));
    let years: Vec<_> = rules.iter().flat_map(|rule| rule.years.clone()).collect();

    for _ in 0..40 + stock.random.below(80) {
        let mut rule = stock.rule_of_all_days();
        rule.years = stock.random.some_of(&years, ITEM_LIMIT);
        rules.push(rule);
    }
    some_left(rules, stock)
}

// Lists that come and go.

pub fn churning_few_boxes(stock: &mut Stock) -> Vec<Rule> {
    churning(stock, &[[2, 2, 2, 2], [1, 16, 1, 1], [2, 1, 4, 2]])
}

fn churning_some_boxes(stock: &mut Stock) -> Vec<Rule> {
    churning(stock, &[[4, 4, 8, 8], [7, 1, 12, 12], [1, 32, 1, 32]])
}

fn churning_many_boxes(stock: &mut Stock) -> Vec<Rule> {
    churning(
        stock,
        &[
            [4, 8, 8, 16],
            [7, 12, 12, 4],
            [2, 32, 2, 32],
            [1, 53, 1, 77],
        ],
    )
}

/// Rules over the boxes of a shape: where too many lists would stand, or one be too long, a rule that replaces those of some intervals of a
/// dimension, or all. Mostly 512 may stand, so that nothing is refused.
fn churning(stock: &mut Stock, shapes: &[Shape]) -> Vec<Rule> {
    let shape = stock.random.of(shapes);
    let cuts = some_cuts(stock.random, shape);
    let boxes = shape.iter().product::<u32>() as usize;
    let most = stock.random.weighed(&[
        (60, DIFFERENT_LIMIT),
        (10, DIFFERENT_LIMIT + 1),
        (10, MOST_LISTS as usize),
        (20, 100),
    ]);
    let mut lists = Lists::before_any_rule(boxes);
    let mut rules = Vec::new();

    for _ in 0..stock.random.of(&[80, RULE_LIMIT, RULE_LIMIT]) {
        let (rule, drawn) = next_rule(stock, &cuts, &lists, most);
        rules.push(rule);
        lists = drawn;
    }
    some_left(rules, stock)
}

/// The first of three rules after which no list is too long and at most so many differ, and the lists after it.
fn next_rule(stock: &mut Stock, cuts: &[Vec<u32>; 4], lists: &Lists, most: usize) -> (Rule, Lists) {
    let drawn = |rule: &Rule| {
        let mut lists = lists.clone();
        lists.draw(replaces(rule), &combinations_of(&selector_of(rule), cuts));
        lists
    };

    for rule in [over_intervals(stock, cuts), replacing_some(stock, cuts)] {
        let after = drawn(&rule);
        if after.different() <= most && after.longest() <= LIST_LIMIT {
            return (rule, after);
        }
    }
    let rule = replacing(stock);
    let after = drawn(&rule);
    (rule, after)
}

/// A rule over some intervals of each dimension, mostly one that appends.
fn over_intervals(stock: &mut Stock, cuts: &[Vec<u32>; 4]) -> Rule {
    let mut rule = Rule {
        operator: stock.random.weighed(&[(90, ADDITIONAL), (10, NORMAL)]),
        ..stock.rule_of_all_days()
    };
    for (dimension, cuts) in cuts.iter().enumerate() {
        put_some_intervals(stock.random, &mut rule, dimension, cuts);
    }
    rule
}

fn replacing(stock: &mut Stock) -> Rule {
    Rule {
        operator: NORMAL,
        kind: stock.random.of(&[OPEN, UNKNOWN]),
        ..stock.rule_of_all_days()
    }
}

fn replacing_some(stock: &mut Stock, cuts: &[Vec<u32>; 4]) -> Rule {
    let mut rule = replacing(stock);
    let dimension = stock.random.below(cuts.len());
    put_some_intervals(stock.random, &mut rule, dimension, &cuts[dimension]);
    rule
}

/// In each dimension both bounds, and between them cuts that make so many intervals, rising.
fn some_cuts(random: &mut Random, shape: Shape) -> [Vec<u32>; 4] {
    std::array::from_fn(|dimension| {
        let values = &DIMENSIONS[dimension];
        let between: Vec<u32> = (values.start + 1..values.end).collect();
        let mut cuts = random.some_of(&between, shape[dimension] as usize - 1);
        cuts.extend([values.start, values.end]);
        cuts.sort_unstable();
        cuts
    })
}

/// Some of the intervals between the cuts; none, so that it is the whole dimension, where it happens so.
fn put_some_intervals(random: &mut Random, rule: &mut Rule, dimension: usize, cuts: &[u32]) {
    let share = random.of(&[50, 70, 90]);
    let mut intervals: Vec<&[u32]> = cuts.windows(2).collect();
    intervals.retain(|_| random.percent(share));

    for pair in random.some_of(&intervals, ITEM_LIMIT) {
        put_range(rule, dimension, pair[0], pair[1] - 1);
    }
}
