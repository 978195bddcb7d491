//! Why the fold stopped, document 02's M-105: "1 Fallback, 2 time, 3 year step, 4 monthday, 5 week step, 6 holiday, 7 weekday offset, 8 nth;
//! 0 if nothing stopped. The number given is the first that applies in the order 1 to 8."
//!
//! The Rust drains or doesn't, and tells no reason. This writing shares nothing with oracle/reference/why.py, which it is held against by
//! the stored answers: there each reason is asked of a rule in turn, here each part of a rule adds its own to a set.

use crate::rule::{ALL_NTH, FALLBACK, MIDNIGHT, MONTHS, Rule, Span, Weekday};

#[derive(Clone, Copy)]
enum Reason {
    Fallback = 1,
    Time,
    YearStep,
    Monthday,
    WeekStep,
    Holiday,
    WeekdayOffset,
    Nth,
}

/// How many numbers there are for why a fold stopped, 0 among them.
pub const WHYS: usize = Reason::Nth as usize + 1;

/// The reasons that apply, each as the bit of its number.
#[derive(Clone, Copy, Debug, Default, PartialEq, Eq)]
pub struct Reasons(u16);

impl Reasons {
    fn add(&mut self, reason: Reason, applies: bool) {
        self.0 |= u16::from(applies) << reason as u16;
    }

    pub fn are_none(self) -> bool {
        self.0 == 0
    }

    /// The number of the first one, 0 where there is none.
    pub fn first(self) -> usize {
        if self.are_none() {
            0
        } else {
            self.0.trailing_zeros() as usize
        }
    }

    pub fn count(self) -> u32 {
        self.0.count_ones()
    }

    #[cfg(test)]
    pub fn numbers(self) -> Vec<usize> {
        (1..WHYS)
            .filter(|number| self.0 >> number & 1 == 1)
            .collect()
    }
}

pub fn stops(rule: &Rule) -> bool {
    !reasons_of(rule).are_none()
}

pub fn reasons_of(rule: &Rule) -> Reasons {
    let mut reasons = Reasons::default();

    reasons.add(Reason::Fallback, rule.operator == FALLBACK);
    for item in &rule.years {
        reasons.add(Reason::YearStep, item.step != 1);
    }
    for item in &rule.monthdays {
        reasons.add(Reason::Monthday, item.tag != MONTHS);
    }
    for item in &rule.weeks {
        reasons.add(Reason::WeekStep, item.step != 1);
    }
    for item in &rule.weekdays {
        add_weekday(&mut reasons, item);
    }
    for span in &rule.spans {
        reasons.add(Reason::Time, may_reach_tomorrow(span));
    }

    reasons
}

/// Holidays have offsets too, but no nth bits, and a holiday is a reason by itself.
fn add_weekday(reasons: &mut Reasons, item: &Weekday) {
    match item.tag {
        0 => {
            let nth = item.nth_from_start & item.nth_from_end;
            reasons.add(Reason::WeekdayOffset, item.offset != 0);
            reasons.add(Reason::Nth, nth != ALL_NTH);
        }
        _ => reasons.add(Reason::Holiday, true),
    }
}

/// Whether an item is one with which a rule drains.
pub fn is_plain_weekday(item: &Weekday) -> bool {
    let mut reasons = Reasons::default();
    add_weekday(&mut reasons, item);
    reasons.are_none()
}

pub fn may_reach_tomorrow(span: &Span) -> bool {
    match (span.start.tag, span.end.tag) {
        (0, 0) => span.start.minutes >= span.end.minutes || span.end.minutes > MIDNIGHT,
        (_, 0) => span.end.minutes != MIDNIGHT,
        _ => true,
    }
}

#[cfg(test)]
mod tests {
    use super::*;
    use crate::rule::{DATED, MONTHS_OF_YEAR, Monthday, Stepped, fixed, months, range, weekdays};

    /// A rule with an item of each sort, which drains.
    fn draining() -> Rule {
        Rule {
            years: vec![range(2000, 2001)],
            monthdays: vec![months(11, 2)],
            weeks: vec![range(50, 2)],
            weekdays: vec![weekdays(4, 0)],
            spans: vec![fixed(600, MIDNIGHT)],
            ..Rule::default()
        }
    }

    fn stepped() -> Stepped {
        Stepped {
            step: 2,
            ..range(1, 53)
        }
    }

    fn holiday(offset: u32) -> Weekday {
        Weekday {
            tag: 1,
            offset,
            ..Weekday::default()
        }
    }

    fn with_offset() -> Weekday {
        Weekday {
            offset: 0xFFFF,
            ..weekdays(0, 6)
        }
    }

    fn without_nth(from_start: u32, from_end: u32) -> Weekday {
        Weekday {
            nth_from_start: ALL_NTH ^ from_start,
            nth_from_end: ALL_NTH ^ from_end,
            ..weekdays(0, 6)
        }
    }

    /// What gives a rule each reason, in the order of their numbers.
    const STOPPERS: [fn(&mut Rule); WHYS - 1] = [
        |rule| rule.operator = FALLBACK,
        |rule| rule.spans.push(fixed(600, MIDNIGHT + 1)),
        |rule| rule.years.push(stepped()),
        |rule| {
            rule.monthdays.push(Monthday {
                tag: DATED,
                ..months(1, 1)
            })
        },
        |rule| rule.weeks.push(stepped()),
        |rule| rule.weekdays.push(holiday(0)),
        |rule| rule.weekdays.push(with_offset()),
        |rule| rule.weekdays.push(without_nth(0, 1)),
    ];

    fn on_weekdays(items: Vec<Weekday>) -> (usize, u32) {
        told(&Rule {
            weekdays: items,
            ..draining()
        })
    }

    /// The first reason, and how many there are.
    fn told(rule: &Rule) -> (usize, u32) {
        let reasons = reasons_of(rule);
        (reasons.first(), reasons.count())
    }

    #[test]
    fn a_rule_that_drains_has_no_reason() {
        assert_eq!(told(&Rule::default()), (0, 0));
        assert_eq!(told(&draining()), (0, 0));
        assert!(!stops(&draining()));
    }

    #[test]
    fn of_two_reasons_the_first_is_told_whichever_was_added_first() {
        for (first, stop_first) in STOPPERS.iter().enumerate() {
            for (second, stop_second) in STOPPERS.iter().enumerate() {
                let mut rule = draining();
                stop_first(&mut rule);
                stop_second(&mut rule);

                let count = if first == second { 1 } else { 2 };
                assert_eq!(told(&rule), (first.min(second) + 1, count));
                assert!(stops(&rule));
            }
        }
    }

    #[test]
    fn both_sorts_of_other_monthdays_are_a_reason() {
        for tag in [MONTHS_OF_YEAR, DATED] {
            let mut rule = draining();
            rule.monthdays.insert(
                0,
                Monthday {
                    tag,
                    ..months(1, 1)
                },
            );
            assert_eq!(told(&rule), (4, 1));
        }
    }

    #[test]
    fn a_holiday_is_one_whatever_its_offset_and_wherever_it_stands() {
        assert_eq!(on_weekdays(vec![holiday(1)]), (6, 1));
        assert_eq!(on_weekdays(vec![without_nth(1, 0), holiday(0)]), (6, 2));
        assert_eq!(on_weekdays(vec![with_offset(), holiday(1)]), (6, 2));
    }

    #[test]
    fn each_unset_nth_bit_is_a_reason_and_an_offset_comes_before_it() {
        for bit in 0..5 {
            assert_eq!(on_weekdays(vec![without_nth(1 << bit, 0)]), (8, 1));
            assert_eq!(on_weekdays(vec![without_nth(0, 1 << bit)]), (8, 1));
        }

        let both = Weekday {
            offset: 1,
            ..without_nth(1, 0)
        };
        assert_eq!(on_weekdays(vec![both]), (7, 2));
        assert_eq!(on_weekdays(vec![without_nth(1, 0), with_offset()]), (7, 2));
    }
}
