//! The numbers a sheet gives to the cases of the Rust's enums: from 0, in the order in which docs/src declares them.

use chrono::Weekday;

use crate::rules::day::HolidayKind;
use crate::rules::time::TimeEvent;
use crate::rules::{RuleKind, RuleOperator};

pub(crate) const OPERATORS: [RuleOperator; 3] = [
    RuleOperator::Normal,
    RuleOperator::Additional,
    RuleOperator::Fallback,
];

pub(crate) const KINDS: [RuleKind; 3] = [RuleKind::Open, RuleKind::Closed, RuleKind::Unknown];

pub(crate) const HOLIDAY_KINDS: [HolidayKind; 2] = [HolidayKind::Public, HolidayKind::School];

pub(crate) const TIME_EVENTS: [TimeEvent; 4] = [
    TimeEvent::Dawn,
    TimeEvent::Sunrise,
    TimeEvent::Sunset,
    TimeEvent::Dusk,
];

pub(crate) const WEEKDAYS: [Weekday; 7] = [
    Weekday::Mon,
    Weekday::Tue,
    Weekday::Wed,
    Weekday::Thu,
    Weekday::Fri,
    Weekday::Sat,
    Weekday::Sun,
];

// The language numbers the cases of an enum in the order of their declaration, so this holds the tables to it.
const _: () = {
    assert!(OPERATORS[0] as usize == 0 && OPERATORS[1] as usize == 1 && OPERATORS[2] as usize == 2);
    assert!(KINDS[0] as usize == 0 && KINDS[1] as usize == 1 && KINDS[2] as usize == 2);
    assert!(HOLIDAY_KINDS[0] as usize == 0 && HOLIDAY_KINDS[1] as usize == 1);
    assert!(TIME_EVENTS[0] as usize == 0 && TIME_EVENTS[1] as usize == 1);
    assert!(TIME_EVENTS[2] as usize == 2 && TIME_EVENTS[3] as usize == 3);
};
