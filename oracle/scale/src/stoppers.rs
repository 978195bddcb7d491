//! Stoppers: they make a draining rule into one that stops, for one reason or for several, by items at any place among its own.

use crate::random::Random;
use crate::rule::{
    ALL_NTH, DATED, FALLBACK, MIDNIGHT, MONTHS_OF_YEAR, Monthday, Rule, Span, Stepped, Weekday,
    fixed, fixed_time, months, weekdays,
};
use crate::stock::{MINUTES, Stock, YEAR_VALUES, variable_time};

pub fn stop(rule: &mut Rule, stock: &mut Stock) {
    for _ in 0..stock.random.weighed(&[(50, 1), (30, 2), (20, 3)]) {
        add_stopper(rule, stock);
    }
}

fn add_stopper(rule: &mut Rule, stock: &mut Stock) {
    let (rising, random) = (stock.rising, &mut *stock.random);

    match random.below(10) {
        0 => rule.operator = FALLBACK,
        1 => random.insert(&mut rule.years, |random| {
            stepped(random, rising, [1900, 9000, 9999], &[2, 3, 400])
        }),
        2 => random.insert(&mut rule.weeks, |random| {
            stepped(random, rising, [1, 40, 53], &[2, 3, 10])
        }),
        3 => random.insert(&mut rule.monthdays, stopping_monthday),
        4..7 => random.insert(&mut rule.weekdays, stopping_weekday),
        7 => random.insert(&mut rule.weekdays, twice_stopping_weekday),
        _ => random.insert(&mut rule.spans, stopping_span),
    }
}

/// A range with a step, from its lowest value, its last start and its highest value. One that the Rust's constructors are to keep rises by
/// the step at least.
fn stepped(
    random: &mut Random,
    rising: bool,
    [lowest, last_start, highest]: [u32; 3],
    steps: &[u32],
) -> Stepped {
    let (start, step) = (random.within(lowest, last_start), random.of(steps));
    let end = match rising {
        true => random.within(start + step, highest),
        false => random.within(lowest, highest),
    };

    Stepped { start, end, step }
}

pub fn stopping_monthday(random: &mut Random) -> Monthday {
    match random.below(2) {
        0 => Monthday {
            tag: MONTHS_OF_YEAR,
            year: random.of(&YEAR_VALUES),
            ..months(random.within(1, 12), random.within(1, 12))
        },
        _ => Monthday {
            tag: DATED,
            reference: random.of(&[0, 1, 0xFFFF, 0x8000_0000, u32::MAX]),
            ..Monthday::default()
        },
    }
}

pub fn stopping_weekday(random: &mut Random) -> Weekday {
    let days = weekdays(random.within(0, 6), random.within(0, 6));
    let offset = random.of(&[1, 0xFFFF, 0x7FFF, 0x8000]);
    let one_missing = ALL_NTH ^ (1 << random.below(5));

    match random.below(4) {
        0 => Weekday {
            tag: 1,
            kind: random.within(0, 1),
            offset: random.of(&[0, offset]),
            ..Weekday::default()
        },
        1 => Weekday { offset, ..days },
        2 => Weekday {
            nth_from_start: one_missing,
            ..days
        },
        _ => Weekday {
            nth_from_end: random.of(&[0, one_missing]),
            ..days
        },
    }
}

/// An offset, and nth bits missing, in one item.
fn twice_stopping_weekday(random: &mut Random) -> Weekday {
    Weekday {
        offset: random.within(1, 0xFFFF),
        nth_from_start: random.within(0, ALL_NTH - 1),
        nth_from_end: random.within(0, ALL_NTH),
        ..weekdays(random.within(0, 6), random.within(0, 6))
    }
}

fn stopping_span(random: &mut Random) -> Span {
    let minute = random.of(&MINUTES);
    let later = random.of(&[1441, 1500, 2880]);
    let no_midnight = random.of(&[0, 1439, 1441, 2880]);
    let (first_event, second_event) = (variable_time(random), variable_time(random));

    match random.below(9) {
        0 => fixed(minute, later),
        1 => fixed(minute, minute),
        2 => fixed(MIDNIGHT, minute),
        3 => fixed(2880, 2880),
        4 => Span {
            open_end: 1,
            ..fixed(720, 600)
        },
        5 => Span {
            repeats_flag: 1,
            repeats: 60,
            ..fixed(0, 1441)
        },
        6 => Span {
            start: first_event,
            end: fixed_time(no_midnight),
            ..Span::default()
        },
        7 => Span {
            start: fixed_time(minute),
            end: first_event,
            ..Span::default()
        },
        _ => Span {
            start: first_event,
            end: second_event,
            ..Span::default()
        },
    }
}
