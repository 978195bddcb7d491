//! The sheets of the bench that have many lists: about as many at once as there may be, and many more that come and go.

use oracle::form::Form;

use crate::bench_sheets::{BenchSheet, bench_sheet, named};
use crate::boxes::{Shape, boxes_rule, put_range};
use crate::groups::{climbing, each_odd_choice, everywhere, with_own_states};
use crate::points::DIMENSIONS;
use crate::rule::{ADDITIONAL, MIDNIGHT, NORMAL, RULE_LIMIT, Rule, fixed};

/// 512 boxes.
const CLIMB: Shape = [1, 8, 8, 8];

pub fn list_sheets() -> Vec<BenchSheet> {
    let mut sheets = named([
        ("22 rules, 512 boxes of 512 lists", over_512_lists()),
        ("23 rules, 4,096 boxes of 512 lists", over_4096_boxes()),
        (
            "243 rules, 4,096 boxes, 5,633 lists in all",
            rounds(cutting(), &rule_over_all(), &climbing(CLIMB)),
        ),
        (
            "250 rules, 128 boxes, 1,600 lists in all",
            halves_in_turn(25),
        ),
        ("256 rules, 16 boxes, 1,856 lists in all", over_16_boxes()),
    ]);

    sheets.push(bench_sheet(
        "18 rules, 2,816 boxes of 501 lists, each a group",
        Form::One,
        with_own_states([each_odd_choice([1, 16, 11, 16]), everywhere(2)].concat()),
    ));
    sheets
}

fn over_512_lists() -> Vec<Rule> {
    with_own_states([everywhere(1), climbing(CLIMB)].concat())
}

fn over_4096_boxes() -> Vec<Rule> {
    let mut rules = over_512_lists();
    rules[0].operator = NORMAL;
    [vec![cutting()], rules].concat()
}

/// Cuts weekdays into four intervals, and years into eight beyond those that are climbed, so that 512 boxes become 4,096.
fn cutting() -> Rule {
    let years = DIMENSIONS[3].start;
    let mut rule = Rule {
        spans: vec![fixed(0, 60)],
        ..boxes_rule([4, 1, 1, 1])
    };

    for place in [9, 11, 13, 15] {
        put_range(&mut rule, 3, years + place, years + place);
    }
    rule
}

/// A rule that replaces every list.
fn rule_over_all() -> Rule {
    Rule {
        operator: NORMAL,
        spans: vec![fixed(600, 1080)],
        ..Rule::default()
    }
}

/// A rule and, as often as there is room for them, one that replaces and those that then append, of which each has a comment of its own.
fn rounds(first: Rule, replacing: &Rule, appending: &[Rule]) -> Vec<Rule> {
    let mut rules = vec![first];

    while rules.len() + 1 + appending.len() <= RULE_LIMIT {
        rules.push(replacing.clone());
        rules.extend(appending.iter().cloned().map(appended));
    }
    all_day(rules)
}

fn appended(rule: Rule) -> Rule {
    Rule {
        operator: ADDITIONAL,
        ..rule
    }
}

/// Each rule with a comment of its own over all hours: of a list the last entry shows.
fn all_day(mut rules: Vec<Rule>) -> Vec<Rule> {
    for (number, rule) in (1..).zip(&mut rules) {
        rule.comment = number;
        rule.spans = vec![fixed(0, MIDNIGHT)];
    }
    rules
}

/// Lists of 64 boxes each on Mo-Th and on Fr-Su, replaced in one half after the other.
fn halves_in_turn(count: usize) -> Vec<Rule> {
    let on_half = |number: usize, rule: Rule| {
        let mut rule = rule;
        let (start, end) = [(0, 3), (4, 6)][number % 2];
        put_range(&mut rule, 0, start, end);
        rule
    };
    let in_turn = (0..count).flat_map(|number| {
        let climbed = climbing([1, 4, 4, 4]).into_iter().map(appended);
        std::iter::once(rule_over_all())
            .chain(climbed)
            .map(move |rule| on_half(number, rule))
    });

    all_day(in_turn.collect())
}

/// Rounds of a rule that replaces all and 31 over the half of one dimension after the other.
fn over_16_boxes() -> Vec<Rule> {
    let half = |number: usize| {
        let mut rule = Rule::default();
        let (dimension, end) = [(0, 3), (1, 26), (2, 6), (3, 1999)][number % 4];
        put_range(&mut rule, dimension, DIMENSIONS[dimension].start, end);
        appended(rule)
    };
    let round: Vec<Rule> = std::iter::once(rule_over_all())
        .chain((0..31).map(half))
        .collect();

    all_day(vec![round; RULE_LIMIT / 32].concat())
}

#[cfg(test)]
mod tests {
    use super::*;
    use crate::expected::Sheet;

    /// Of each sheet its boxes, the most lists after a rule, and the lists in all.
    const COUNTS: [[usize; 3]; 6] = [
        [512, 512, 512],
        [4096, 512, 513],
        [4096, 512, 5633],
        [128, 128, 1600],
        [16, 16, 1856],
        [2816, 501, 1502],
    ];

    #[test]
    fn boxes_and_lists_are_as_named() {
        for (sheet, counts) in list_sheets().iter().zip(COUNTS) {
            let read = Sheet::new(sheet.given());
            let accepted = read.accepted().expect("it is read");
            let extent = accepted.extent().expect("its fold is not refused");
            let found = [extent.boxes, extent.lists.most, extent.lists.made];
            assert_eq!(found, counts, "{}", sheet.name);
        }
    }
}
