//! Results at what form 1 can count, of which some have more than a megabyte, so that no stored answer holds them, and lists at their limit:
//! what this crate expects, by the Rust, and what the archive gives.

use oracle::form::Form;

use crate::archive::{self, Given};
use crate::boxes::boxes_rule;
use crate::calls::{FOLD, compare_in_room};
use crate::check_sheets::full_rules;
use crate::expected::Sheet;
use crate::groups::{
    climbing, each_odd_choice, everywhere, fewer_by, groups_of_many_rules, with_own_states,
};
use crate::large::years_apart;
use crate::rule::{ADDITIONAL, FALLBACK, ITEM_LIMIT, RULE_LIMIT, Rule, Span, fixed, weekdays};
use crate::sheet::write_sheet;
use crate::stack::with_stack;

fn open() -> Rule {
    Rule {
        spans: vec![fixed(600, 1080)],
        ..Rule::default()
    }
}

/// A rule that stops.
fn stopper() -> Rule {
    Rule {
        operator: FALLBACK,
        ..open()
    }
}

fn groups(less: usize, left: usize) -> Vec<Rule> {
    let mut rules = fewer_by(less, groups_of_many_rules());
    rules.extend(vec![stopper(); left]);
    rules
}

fn years(count: usize, left: usize) -> Vec<Rule> {
    let mut rules = years_apart(&open(), count);
    rules.extend(vec![stopper(); left]);
    rules
}

/// Code, drained, emitted, left, place and why of the fold in ample room, after it was held against the archive: in that room, in a byte less,
/// and in none.
fn folded(form: Form, rules: Vec<Rule>) -> [u64; 6] {
    let sheet = write_sheet(form, rules);
    let given = Given {
        form: form.number(),
        bytes: &sheet,
    };
    let ample = Sheet::new(given).fold();
    let needed = ample.result.len();

    for room in [needed, needed.saturating_sub(1), 0] {
        let compared = with_stack(|| compare_in_room(&FOLD, given, &ample, room));
        compared.expect("the archive answers so");
    }
    let [code, drained, emitted, left, _, place, why] = ample.numbers[..] else {
        panic!("a fold answers seven numbers");
    };
    [code, drained, emitted, left, place, why]
}

const PAST_COUNTS: [u64; 6] = [13, 0, 0, 0, 0, 0];

#[test]
fn form_1_counts_65535_rules_and_form_2_more() {
    for (less, left, emitted) in [(1, 0, 65_535), (2, 1, 65_534)] {
        let done = [0, 41, emitted, left, 0, left];
        assert_eq!(folded(Form::One, groups(less, left as usize)), done);
        assert_eq!(folded(Form::Two, groups(less, left as usize)), done);
    }
    for (less, left, emitted) in [(0, 0, 65_536), (1, 1, 65_535)] {
        let done = [0, 41, emitted, left, 0, left];
        assert_eq!(folded(Form::One, groups(less, left as usize)), PAST_COUNTS);
        assert_eq!(folded(Form::Two, groups(less, left as usize)), done);
    }
}

#[test]
fn form_1_counts_1023_items_and_form_2_more() {
    for left in [0, 1] {
        let done = [0, 64, 1, left, 0, left];
        assert_eq!(folded(Form::One, years(1_023, left as usize)), done);
        assert_eq!(folded(Form::Two, years(1_023, left as usize)), done);
        assert_eq!(folded(Form::One, years(1_024, left as usize)), PAST_COUNTS);
        assert_eq!(folded(Form::Two, years(1_024, left as usize)), done);
    }
}

/// 2,816 boxes, each a group, of lists of 28 to 32 entries; the last one's state both paints and forms a group.
#[test]
fn form_2_counts_more_rules_than_form_1_by_far() {
    let days = [each_odd_choice([1, 16, 11, 16]), everywhere(28)];
    let mut rules = with_own_states(days.concat());
    let last = rules.last_mut().expect("there are rules");
    last.spans.push(Span {
        open_end: 1,
        ..fixed(0, 10)
    });

    assert_eq!(folded(Form::One, rules.clone()), PAST_COUNTS);
    assert_eq!(folded(Form::Two, rules), [0, 44, 2_816 * 31, 0, 0, 0]);
}

/// Over the years of the first sixteen rules after the other, the first years of each, then the second ones, and so on, without spans.
fn crossing(years: &[Rule], count: usize) -> Vec<Rule> {
    let across = |(square, place): (&[Rule], usize)| Rule {
        operator: ADDITIONAL,
        years: square
            .iter()
            .map(|rule| rule.years[place].clone())
            .collect(),
        ..Rule::default()
    };
    let squares = years.chunks(ITEM_LIMIT);

    squares
        .flat_map(|square| (0..ITEM_LIMIT).map(move |place| (square, place)))
        .take(count)
        .map(across)
        .collect()
}

#[test]
fn lists_are_counted_before_the_result_is() {
    for (count, lists) in [(29, PAST_COUNTS), (30, [14, 0, 0, 0, 93, 0])] {
        let rules = years(1_024, 0);
        let crossed = [rules.clone(), crossing(&rules, count)].concat();
        assert_eq!(folded(Form::One, crossed.clone()), lists);

        let in_form_2 = match count {
            29 => [0, 93, 1, 0, 0, 0],
            _ => lists,
        };
        assert_eq!(folded(Form::Two, crossed), in_form_2);
    }
}

/// 512 lists and the empty one, and a rule that fills it.
#[test]
fn the_empty_list_is_not_counted() {
    for form in [Form::One, Form::Two] {
        let rules = with_own_states(climbing([3, 19, 3, 3]));
        let filled = with_own_states([climbing([3, 19, 3, 3]), everywhere(1)].concat());
        assert_eq!(folded(form, rules)[..2], [0, 24]);
        assert_eq!(folded(form, filled), [14, 0, 0, 0, 24, 0]);
    }
}

#[test]
fn what_is_refused_before_13() {
    let with = |more: Vec<Rule>| [years(1_024, 0), more].concat();
    let additional = Rule {
        operator: ADDITIONAL,
        ..open()
    };
    let sharing = Rule {
        weekdays: vec![weekdays(0, 2), weekdays(1, 3)],
        ..open()
    };

    for (rules, code, place) in [
        (years(2_048, 0), 5, 4_097),
        (vec![boxes_rule([4, 8, 8, 17])], 5, 4_352),
        (with(vec![additional; 33]), 6, 95),
        (with(vec![sharing]), 11, 64),
    ] {
        for form in [Form::One, Form::Two] {
            assert_eq!(folded(form, rules.clone()), [code, 0, 0, 0, place, 0]);
        }
    }
}

/// A full sheet of 95,938 bytes, and one of a rule more.
#[test]
fn the_largest_sheet_and_one_rule_more() {
    for form in [Form::One, Form::Two] {
        let full = |count| write_sheet(form, full_rules(count));
        let given = |bytes| Given {
            form: form.number(),
            bytes,
        };
        let (largest, larger) = (full(RULE_LIMIT), full(RULE_LIMIT + 1));
        let mut out = vec![0; larger.len()];

        let mut written_back =
            |sheet| with_stack(|| archive::numbers(archive::write_back, given(sheet), &mut out));

        let refused = [4, 0, form.rule_count_place() as u64];
        assert_eq!(written_back(&larger), refused);
        let done = [0, largest.len() as u64, 0];
        assert_eq!(written_back(&largest), done);
        assert_eq!(out[..largest.len()], largest);
    }
}
