//! From the rules of docs/src to a packed sheet. Every field is taken from the Rust's values; a value that has no packed form ends the
//! program, since whatever were printed instead would pass for an answer.

use crate::bits::BitWriter;
use crate::form::Form;
use crate::rules::RuleSequence;
use crate::rules::day::{
    DateOffset, Month, MonthdayRange, WeekDayRange, WeekRange, Year, YearRange,
};
use crate::rules::time::{Time, TimeSpan};

/// The sheet of these rules in their order.
pub(crate) fn write_sheet(form: Form, rules: &[RuleSequence]) -> Vec<u8> {
    write_rules(form, rules).into_bytes()
}

/// The same before its last byte is filled.
pub(crate) fn write_rules(form: Form, rules: &[RuleSequence]) -> BitWriter {
    let mut bits = BitWriter::default();

    if let Some(head) = form.head() {
        bits.field("head", head.width, head.value);
    }
    write_count(
        &mut bits,
        "the number of rules",
        form.rule_count_width(),
        rules.len(),
    );

    for rule in rules {
        write_rule(&mut bits, form, rule);
    }

    bits
}

/// The most items of a sort, or spans, that one of the rules has.
pub(crate) fn most_items(rules: &[RuleSequence]) -> usize {
    let counts = |rule: &RuleSequence| {
        let days = &rule.day_selector;
        [
            days.year.len(),
            days.monthday.len(),
            days.week.len(),
            days.weekday.len(),
            rule.time_selector.spans.len(),
        ]
    };

    rules.iter().flat_map(counts).max().unwrap_or(0)
}

fn write_rule(bits: &mut BitWriter, form: Form, rule: &RuleSequence) {
    let days = &rule.day_selector;
    let spans = &rule.time_selector.spans;
    let comment = comment_number(&rule.comment);
    let items = form.item_count_width();

    bits.field("operator", 2, rule.operator as u32);
    bits.field("kind", 2, rule.kind as u32);
    bits.field("comment", form.comment_width(), comment);
    write_count(bits, "the number of years", items, days.year.len());
    write_count(bits, "the number of monthdays", items, days.monthday.len());
    write_count(bits, "the number of weeks", items, days.week.len());
    write_count(bits, "the number of weekdays", items, days.weekday.len());
    write_count(bits, "the number of spans", items, spans.len());

    days.year.iter().for_each(|year| write_year(bits, year));
    days.monthday
        .iter()
        .for_each(|monthday| write_monthday(bits, monthday));
    days.week.iter().for_each(|week| write_week(bits, week));
    days.weekday
        .iter()
        .for_each(|weekday| write_weekday(bits, weekday));
    spans.iter().for_each(|span| write_span(bits, span));
}

fn write_year(bits: &mut BitWriter, years: &YearRange) {
    let (range, step) = years.into_parts();
    bits.field("year start", 14, year_number(*range.start()));
    bits.field("year end", 14, year_number(*range.end()));
    bits.field("year step", 16, step.into());
}

fn write_monthday(bits: &mut BitWriter, monthdays: &MonthdayRange) {
    match monthdays {
        MonthdayRange::Month { range, year } => {
            bits.field("monthday tag", 2, year.is_some().into());
            write_month(bits, *range.start());
            write_month(bits, *range.end());

            if let Some(year) = year {
                bits.field("monthday year", 14, year_number(*year));
            }
        }
        MonthdayRange::Date {
            start: (_, high),
            end: (_, low),
        } => {
            bits.field("monthday tag", 2, 2);
            write_half_of_reference(bits, high);
            write_half_of_reference(bits, low);
        }
    }
}

fn write_month(bits: &mut BitWriter, month: Month) {
    bits.field("month", 4, month.into());
}

/// The reader keeps a caller's reference in the offsets of a dated range.
fn write_half_of_reference(bits: &mut BitWriter, offset: &DateOffset) {
    write_offset(bits, "half of a reference", offset.day_offset);
}

fn write_week(bits: &mut BitWriter, weeks: &WeekRange) {
    let (range, step) = weeks.into_parts();
    bits.field("week start", 6, range.start().0.into());
    bits.field("week end", 6, range.end().0.into());
    bits.field("week step", 8, step.into());
}

fn write_weekday(bits: &mut BitWriter, weekdays: &WeekDayRange) {
    match weekdays {
        WeekDayRange::Fixed {
            range,
            offset,
            nth_from_start,
            nth_from_end,
        } => {
            bits.field("weekday tag", 1, 0);
            bits.field("weekday start", 3, *range.start() as u32);
            bits.field("weekday end", 3, *range.end() as u32);
            write_offset(bits, "weekday offset", *offset);
            write_flags(bits, "nth from start", nth_from_start);
            write_flags(bits, "nth from end", nth_from_end);
        }
        WeekDayRange::Holiday { kind, offset } => {
            bits.field("weekday tag", 1, 1);
            bits.field("holiday kind", 1, *kind as u32);
            write_offset(bits, "holiday offset", *offset);
        }
    }
}

fn write_span(bits: &mut BitWriter, span: &TimeSpan) {
    write_time(bits, &span.range.start);
    write_time(bits, &span.range.end);
    bits.field("open end", 1, span.open_end.into());
    bits.field("repeats flag", 1, span.repeats.is_some().into());

    if let Some(repeats) = span.repeats {
        let minutes = u32::try_from(repeats.num_minutes()).expect("repeats are not negative");
        bits.field("repeats minutes", 12, minutes);
    }
}

fn write_time(bits: &mut BitWriter, time: &Time) {
    match time {
        Time::Fixed(time) => {
            bits.field("time tag", 1, 0);
            bits.field("time", 12, time.mins_from_midnight().into());
        }
        Time::Variable(time) => {
            bits.field("time tag", 1, 1);
            bits.field("event", 2, time.event as u32);
            write_offset(bits, "event offset", time.offset);
        }
    }
}

fn write_count(bits: &mut BitWriter, name: &str, width: usize, count: usize) {
    let count = u32::try_from(count).expect("a count has no more than 32 bits");
    bits.field(name, width, count);
}

fn write_offset(bits: &mut BitWriter, name: &str, offset: i16) {
    bits.field(name, 16, offset.cast_unsigned().into());
}

fn write_flags(bits: &mut BitWriter, name: &str, flags: &[bool]) {
    flags
        .iter()
        .for_each(|flag| bits.field(name, 1, (*flag).into()));
}

fn year_number(year: Year) -> u32 {
    u32::try_from(year.0).expect("a year is not negative")
}

/// The number for which the reader took this text.
fn comment_number(comment: &str) -> u32 {
    match comment {
        "" => 0,
        text => text.parse().expect("a comment is the number of a sheet"),
    }
}
