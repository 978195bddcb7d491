//! Moments at which a sheet is looked up for a public evaluator: around new years, where weeks and months begin and end, at the edges of
//! spans and around midnight. Dates that no calendar has may be among them.

use crate::calendar::month_length;
use crate::dates::around_new_year;
use crate::random::Random;
use crate::rule::{MIDNIGHT, Rule};

/// The years in which landing sites publish.
pub const FIRST_YEAR: u32 = 1971;
pub const LAST_YEAR: u32 = 2099;

/// Year, month, day and minute.
pub fn moment(random: &mut Random, rules: &[Rule]) -> [u64; 4] {
    let rule = random.of(rules);
    let year = year(random, &rule);

    let [year, month, day] = match random.weighed(&[(35, 0), (35, 1), (15, 2), (15, 3)]) {
        0 => around_new_year(random, year),
        1 => near_a_week_edge(random, &rule, year),
        2 => at_a_month_edge(random, &rule, year),
        _ => {
            let [month, day] = [12, 31].map(|highest| random.within(1, highest).into());
            [year, month, day]
        }
    };

    [year, month, day, minute(random, &rule)]
}

/// One of the rule's years, mostly the first or the last, or one next to them.
fn year(random: &mut Random, rule: &Rule) -> u64 {
    let year = match rule.years.as_slice() {
        [] => random.within(FIRST_YEAR, LAST_YEAR),
        years => {
            let years = random.of(years);
            let (before, after) = (years.start - 1, years.end + 1);
            let between = random.within(years.start, years.end);
            random.of(&[before, years.start, between, years.end, after])
        }
    };

    year.into()
}

/// A day near the first one of a week that the rule begins with, or of the week after those that it ends with.
fn near_a_week_edge(random: &mut Random, rule: &Rule, year: u64) -> [u64; 3] {
    let week = match rule.weeks.as_slice() {
        [] => random.within(1, 53),
        weeks => {
            let weeks = random.of(weeks);
            random.of(&[weeks.start, weeks.end + 1])
        }
    };

    // Week 1 begins from three days before 1 January to three days after it. A day more on both sides is looked up.
    let four_days_later = 7 * (week - 1) + random.within(0, 8);
    days_after_new_year(year, u64::from(four_days_later).saturating_sub(4))
}

/// The date so many days after 1 January. A day after the year's last one comes out in a thirteenth month, which no calendar has.
fn days_after_new_year(year: u64, mut days: u64) -> [u64; 3] {
    let mut month = 1;

    while days >= month_length(year, month) {
        days -= month_length(year, month);
        month += 1;
    }

    [year, month, days + 1]
}

/// The first or the last day of a month that the rule begins or ends with, or of one next to it.
fn at_a_month_edge(random: &mut Random, rule: &Rule, year: u64) -> [u64; 3] {
    let month = match rule.monthdays.as_slice() {
        [] => random.within(1, 12),
        months => {
            let months = random.of(months);
            let (before, after) = ((months.start + 10) % 12 + 1, months.end % 12 + 1);
            random.of(&[before, months.start, months.end, after])
        }
    };

    let month = u64::from(month);
    [year, month, random.of(&[1, month_length(year, month)])]
}

/// Where a span begins or ends or the minute before, around midnight, or any.
fn minute(random: &mut Random, rule: &Rule) -> u64 {
    let span = random.of(&rule.spans);
    let edge = random.of(&[span.start.minutes, span.end.minutes]);
    let minute = match random.below(10) {
        0..3 => edge,
        3..6 => edge.max(1) - 1,
        6 => 0,
        7 => MIDNIGHT - 1,
        _ => random.within(0, MIDNIGHT - 1),
    };

    u64::from(minute.min(MIDNIGHT - 1))
}
