//! Document 02's larger sheets: 256 rules and one more, and results at what form 1 can count.

#[path = "common/rules.rs"]
mod rules;

use hours::{Date, Form, Reason, Refusal, convert, line, lookup, write_back};
use rules::{DIMENSIONS, PAINT, Rule, counts, folded, item, open, sheet, stopper};

/// One day on so many years, no two of them neighbours, sixteen to a rule.
fn years_apart(count: usize) -> Vec<Rule> {
    let years: Vec<String> = (0..count)
        .map(|place| item(3, 1901 + 2 * place, 1901 + 2 * place))
        .collect();
    let rule = |years: &[String]| {
        let mut rule = open();
        rule.days[3] = years.to_vec();
        rule
    };

    years.chunks(16).map(rule).collect()
}

/// Intervals of weekdays, weeks, months and years.
const SHAPE: [usize; 4] = [1, 16, 10, 16];

/// In each dimension the intervals whose number has the bit as chosen, single values from the lowest on and the rest as the last; nothing
/// where a dimension has no such interval.
fn days_with(bit: usize, choice: usize) -> Option<Rule> {
    let mut rule = Rule::default();

    for (dimension, intervals) in SHAPE.into_iter().enumerate() {
        let (lowest, highest) = DIMENSIONS[dimension];
        let is_set = choice >> dimension & 1;
        let chosen = (0..intervals).filter(|number| number >> bit & 1 == is_set);
        let items: Vec<String> = chosen
            .map(|number| (number + 1 == intervals, lowest + number))
            .map(|(is_last, start)| item(dimension, start, if is_last { highest } else { start }))
            .collect();

        match items.len() {
            0 => return None,
            all if all == intervals => {}
            _ => rule.days[dimension] = items,
        }
    }
    Some(rule)
}

/// 2,560 boxes by 510 lists, of which no two that differ in one dimension alone have the same, so that each is a group: 65,536 rules. In the
/// first one so many are less, since their hours are closed there.
///
/// For each bit of an interval's number and each choice of dimensions, odd in count, a rule is on the boxes where the bit is set in just
/// these: in each box two of the sixteen on average. Four more rules are in all months' intervals but the last, twenty everywhere.
fn many_groups(less: usize) -> Vec<Rule> {
    let odd = |choice: &usize| choice.count_ones() % 2 == 1;
    let choices = (0..4).flat_map(|bit| (0..16).filter(odd).map(move |choice| (bit, choice)));
    let mut rules: Vec<Rule> = choices
        .filter_map(|(bit, choice)| days_with(bit, choice))
        .collect();
    let mut but_the_last = Rule::default();
    but_the_last.days[2].push(item(2, 1, 9));
    rules.extend(vec![but_the_last; 4]);
    rules.resize(rules.len() + 20, Rule::default());

    for (number, rule) in rules.iter_mut().enumerate() {
        rule.operator = 1;
        rule.comment = 1 + number;
        rule.spans = vec![(24 * number, 24 * number + 20)];
    }
    rules.push(closed_in_the_first(&rules[rules.len() - less..]));
    rules
}

/// The hours of these rules closed in the first box of weeks, months and years.
fn closed_in_the_first(rules: &[Rule]) -> Rule {
    let mut closed = Rule {
        kind: 1,
        spans: rules.iter().flat_map(|rule| rule.spans.clone()).collect(),
        ..Rule::default()
    };

    for (dimension, (lowest, _)) in DIMENSIONS.into_iter().enumerate().skip(1) {
        closed.days[dimension].push(item(dimension, lowest, lowest));
    }
    closed
}

#[test]
fn form_1_counts_1023_items_and_form_2_more() {
    for (left, why) in [(0, None), (1, Some(Reason::Fallback))] {
        let rules = |years| [years_apart(years), vec![stopper(); left]].concat();
        let wanted = ([64, 1, left], why);

        for (form, years) in [(Form::One, 1023), (Form::Two, 1023), (Form::Two, 1024)] {
            let (done, _) = folded(form, rules(years)).expect("it is folded");
            assert_eq!(counts(&done), wanted);
        }
        let refused = folded(Form::One, rules(1024)).expect_err("form 1 can't count it");
        assert_eq!(refused, Refusal::PastCounts);
        assert_eq!((refused.code(), refused.place()), (13, 0));
    }
}

#[test]
fn form_1_counts_65535_rules_and_form_2_more() {
    let rules = |less, left| [many_groups(less), vec![stopper(); left]].concat();

    for (less, left) in [(1, 0), (2, 1)] {
        let (done, result) = folded(Form::One, rules(less, left)).expect("it is folded");
        assert_eq!(counts(&done).0, [41, 65_536 - less, left]);
        assert_eq!(result[..2], [0xFF, 0xFF]);
    }
    for (less, left) in [(0, 0), (1, 1)] {
        let refused = folded(Form::One, rules(less, left)).map(|(done, _)| done);
        assert_eq!(refused, Err(Refusal::PastCounts));
        let (done, result) = folded(Form::Two, rules(less, left)).expect("it is folded");
        assert_eq!(counts(&done).0, [41, 65_536 - less, left]);
        assert_eq!(result[..4], [0x20, 0x10, 0x00, result[3]]);
    }
}

#[test]
fn a_sheet_that_form_1_can_not_count_is_answered_by_all_others() {
    let [one, two] = [Form::One, Form::Two].map(|form| sheet(form, &years_apart(1024)));
    let mut out = vec![PAINT; two.len()];
    let first_of_1901 = Date {
        year: 1901,
        month: 1,
        day: 1,
    };

    assert!(lookup(Form::One, &one, first_of_1901, 720).is_ok());
    assert_eq!(write_back(Form::One, &one, &mut out), Ok(one.len()));
    assert!(line(Form::One, &one, &mut vec![PAINT; 1 << 16]).is_ok());
    assert_eq!(convert(Form::One, &one, &mut out), Ok(two.len()));
    assert_eq!(out, two);
}

#[test]
fn a_sheet_has_256_rules_at_most() {
    for (form, bit) in [(Form::One, 0), (Form::Two, 4)] {
        let rules = |count| vec![open(); count];

        for count in [65, 256] {
            let (done, _) = folded(form, rules(count)).expect("it is folded");
            assert_eq!(counts(&done), ([count, 1, 0], None));
        }
        let refused = folded(form, rules(257)).map(|(done, _)| done);
        assert_eq!(refused, Err(Refusal::OverLimit { bit }));
    }
}
