//! Document 02's room for lists: 512 that differ and one more, 6 and 14 rule by rule, and lists that come and go.

#[path = "common/rules.rs"]
mod rules;

use hours::{Date, Form, Reason, Refusal, convert, line, lookup, write_back};
use rules::{DIMENSIONS, PAINT, Rule, counts, folded, item, open, sheet, stopper};

const FORMS: [Form; 2] = [Form::One, Form::Two];

/// Additional, on every day.
fn everywhere() -> Rule {
    Rule {
        operator: 1,
        ..open()
    }
}

/// For each interval of weekdays, weeks, months and years but the first a rule from there on: each box has a list of its own, the first box
/// the empty one.
fn climbing(shape: [usize; 4]) -> Vec<Rule> {
    let mut rules = Vec::new();

    for (dimension, intervals) in shape.into_iter().enumerate() {
        let (lowest, highest) = DIMENSIONS[dimension];
        for number in 1..intervals {
            let mut rule = everywhere();
            rule.days[dimension].push(item(dimension, lowest + number, highest));
            rules.push(rule);
        }
    }
    rules
}

fn climb_512() -> Vec<Rule> {
    climbing([1, 8, 8, 8])
}

fn climb_513() -> Vec<Rule> {
    climbing([3, 19, 3, 3])
}

/// So many more entries in the list of the last box of the 513.
fn in_last_box(count: usize) -> Vec<Rule> {
    let mut rule = everywhere();
    for (dimension, start) in [2, 19, 3, 1902].into_iter().enumerate() {
        rule.days[dimension].push(item(dimension, start, DIMENSIONS[dimension].1));
    }
    vec![rule; count]
}

/// 31 rules over the half of one dimension after the other: 16 boxes.
fn halving() -> Vec<Rule> {
    let half = |number: usize| {
        let (dimension, end) = [(0, 3), (1, 26), (2, 6), (3, 1999)][number % 4];
        let mut rule = everywhere();
        rule.days[dimension].push(item(dimension, DIMENSIONS[dimension].0, end));
        rule
    };
    (0..31).map(half).collect()
}

/// So often a rule that replaces all lists and these rules, each with its own comment over all hours, so that of a list the last entry shows.
fn rounds(count: usize, rules: Vec<Rule>) -> Vec<Rule> {
    let mut round = [vec![open()], rules].concat();
    for (number, rule) in round.iter_mut().enumerate() {
        rule.comment = 1 + number;
        rule.spans = vec![(0, 1440)];
    }
    vec![round; count].concat()
}

fn refused(form: Form, rules: Vec<Rule>) -> Refusal {
    folded(form, rules).expect_err("it is refused")
}

#[test]
fn lists_are_512_at_most_and_the_empty_one_is_none() {
    for form in FORMS {
        for (rules, drained) in [
            ([vec![everywhere()], climb_512()].concat(), 22),
            (climb_513(), 24),
        ] {
            let (done, _) = folded(form, rules).expect("it is folded");
            assert_eq!(counts(&done).0[0], drained);
        }
        for rules in [
            [vec![everywhere()], climb_513()].concat(),
            [climb_513(), vec![everywhere()]].concat(),
            [vec![everywhere()], climb_513(), vec![open(), stopper()]].concat(),
        ] {
            let refusal = refused(form, rules);
            assert_eq!(refusal, Refusal::ManyLists { rule: 24 });
            assert_eq!((refusal.code(), refusal.place()), (14, 24));
        }
    }
}

#[test]
fn rules_left_make_no_lists() {
    let rules = [
        vec![everywhere()],
        climb_512(),
        vec![stopper()],
        climb_513(),
    ]
    .concat();
    let (done, _) = folded(Form::One, rules).expect("it is folded");
    assert_eq!(counts(&done), ([22, 1, 25], Some(Reason::Fallback)));
}

#[test]
fn a_long_list_and_many_lists_are_judged_rule_by_rule() {
    for form in FORMS {
        for (before, refusal) in [
            (7, Refusal::ManyLists { rule: 31 }),
            (8, Refusal::LongList { rule: 32 }),
            (9, Refusal::LongList { rule: 32 }),
        ] {
            let rules = [climb_513(), in_last_box(before), vec![everywhere()]].concat();
            assert_eq!(refused(form, rules), refusal);
        }
        let rules = [climb_513(), vec![everywhere()], in_last_box(9)].concat();
        assert_eq!(refused(form, rules), Refusal::ManyLists { rule: 24 });
    }
}

#[test]
fn lists_that_were_replaced_are_not_counted() {
    for form in FORMS {
        for (count, rules) in [(11, climb_512()), (8, halving())] {
            let (once, result) = folded(form, rounds(1, rules.clone())).expect("it is folded");
            let (often, same) = folded(form, rounds(count, rules)).expect("it is folded");
            assert_eq!(often.drained, count * once.drained);
            assert_eq!(result, same);
        }
        let rules = [rounds(3, climb_512()), rounds(1, climb_513())].concat();
        assert_eq!(refused(form, rules), Refusal::ManyLists { rule: 90 });
    }
}

#[test]
fn a_lookup_is_refused_alike_and_no_other_entry_is() {
    let leap_day = Date {
        year: 2000,
        month: 2,
        day: 29,
    };
    let no_date = Date {
        year: 1900,
        ..leap_day
    };

    for form in FORMS {
        for left in [vec![], vec![stopper()]] {
            let rules = [vec![everywhere()], climb_513(), left].concat();
            let (bytes, mut out) = (sheet(form, &rules), vec![PAINT; 1 << 10]);

            let refusal = Refusal::ManyLists { rule: 24 };
            assert_eq!(lookup(form, &bytes, leap_day, 720), Err(refusal));
            assert_eq!(lookup(form, &bytes, no_date, 720), Err(Refusal::NoDate));

            assert_eq!(write_back(form, &bytes, &mut out), Ok(bytes.len()));
            assert!(convert(form, &bytes, &mut out).is_ok());
            let first_not_normal = Refusal::NoLine { rule: 0 };
            assert_eq!(line(form, &bytes, &mut out), Err(first_not_normal));
        }
    }
}
