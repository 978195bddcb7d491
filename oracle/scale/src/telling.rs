//! Sheets that a line can say: of those made anyhow few have a line, so that some are made to have one, and some all but.

use oracle::form::Form;

use crate::random::Random;
use crate::rule::{MONTHS, NORMAL, Rule, Span, Stepped, Time, fixed, fixed_time};
use crate::stock::{MINUTES, variable_time};
use crate::stoppers::{stopping_monthday, stopping_weekday};
use crate::why::is_plain_weekday;

/// Takes away all that a line can't say, and adds operators of every sort and numbers of every length, comments up to those of a form.
pub fn make_sayable(rules: &mut Vec<Rule>, random: &mut Random, rising: bool, comment_form: Form) {
    if random.percent(1) {
        rules.clear();
    }
    if random.percent(15) {
        rules
            .iter_mut()
            .for_each(|rule| rule.operator = random.within(0, 2));
    }

    for rule in rules.iter_mut() {
        take_unsaid(rule, random);
        if random.percent(20) {
            rule.comment = any_digits(random, comment_form.comment_width() as u32);
        }
        // The Rust's constructors ask for steps that fit the range.
        if !rising && random.percent(5) {
            step(random, &mut rule.years, 16);
            step(random, &mut rule.weeks, 8);
        }
    }

    if let Some(first) = rules.first_mut() {
        first.operator = NORMAL;
    }
}

fn take_unsaid(rule: &mut Rule, random: &mut Random) {
    rule.monthdays.retain(|item| item.tag == MONTHS);
    rule.weekdays.retain(is_plain_weekday);

    for span in &mut rule.spans {
        span.repeats_flag = 0;
        span.repeats = 0;
        fix(&mut span.start, random);
        fix(&mut span.end, random);
    }

    if rule.spans.is_empty() {
        rule.spans
            .push(fixed(random.of(&MINUTES), random.within(0, 2880)));
    }
}

fn fix(time: &mut Time, random: &mut Random) {
    if time.tag == 1 {
        *time = fixed_time(random.of(&MINUTES));
    }
}

/// Steps of any length, at times with equal ends.
fn step(random: &mut Random, items: &mut [Stepped], bits: u32) {
    for item in items {
        item.step = any_digits(random, bits).max(1);
        if random.percent(30) {
            item.end = item.start;
        }
    }
}

/// A number of so many bits at most, small ones as often as large ones.
fn any_digits(random: &mut Random, bits: u32) -> u32 {
    random.within(0, u32::MAX >> (32 - bits)) >> random.below(bits as usize)
}

/// Adds to one of the rules something that a line can't say.
pub fn add_unsaid(rules: &mut [Rule], random: &mut Random) {
    if rules.is_empty() {
        return;
    }

    let index = random.below(rules.len());
    let rule = &mut rules[index];
    match random.below(7) {
        0 => random.insert(&mut rule.monthdays, stopping_monthday),
        1 | 2 => random.insert(&mut rule.weekdays, stopping_weekday),
        3 => random.insert(&mut rule.spans, variable_span),
        4 => random.insert(&mut rule.spans, repeated_span),
        5 => rule.spans.clear(),
        _ => rules[0].operator = random.within(1, 2),
    }
}

fn variable_span(random: &mut Random) -> Span {
    let minutes = fixed_time(random.of(&MINUTES));
    let [start, end] = match random.below(3) {
        0 => [variable_time(random), minutes],
        1 => [minutes, variable_time(random)],
        _ => [variable_time(random), variable_time(random)],
    };

    Span {
        start,
        end,
        ..Span::default()
    }
}

fn repeated_span(random: &mut Random) -> Span {
    Span {
        repeats_flag: 1,
        repeats: any_digits(random, 12),
        ..fixed(600, 1080)
    }
}
