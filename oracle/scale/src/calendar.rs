//! The point of a Gregorian date, from days counted one by one over years and months: no table of weekdays here.

use crate::points::Point;

/// 1 January 1900 was a Monday.
const FIRST_YEAR: u64 = 1900;
const LAST_YEAR: u64 = 9999;

/// Weekday, ISO week, month and calendar year of a date, or nothing where there is no such date.
pub fn point_of(year: u64, month: u64, day: u64) -> Option<Point> {
    if !(FIRST_YEAR..=LAST_YEAR).contains(&year) || !(1..=12).contains(&month) {
        return None;
    }
    if !(1..=month_length(year, month)).contains(&day) {
        return None;
    }

    let months_before: u64 = (1..month).map(|month| month_length(year, month)).sum();
    let days = days_before(year) + months_before + day - 1;
    let week = iso_week(year, days);
    Some([days % 7, week, month, year].map(|value| value as u32))
}

/// The week of a day of this year, by ISO 8601: week 1 holds a year's first Thursday. So a week counts in the year in which its Thursday
/// lies, and has the number of that Thursday among those of the year.
fn iso_week(year: u64, days: u64) -> u64 {
    let thursday = days - days % 7 + 3;
    let new_year = (year - 1..=year + 1)
        .rev()
        .map(days_before)
        .find(|new_year| *new_year <= thursday)
        .expect("the Thursday lies in this year or in one next to it");

    (thursday - new_year) / 7 + 1
}

/// How many days there are from 1 January 1900 on before this year.
fn days_before(year: u64) -> u64 {
    (year - FIRST_YEAR) * 365 + leap_days_before(year)
}

pub fn month_length(year: u64, month: u64) -> u64 {
    match month {
        2 if is_leap(year) => 29,
        2 => 28,
        4 | 6 | 9 | 11 => 30,
        _ => 31,
    }
}

fn is_leap(year: u64) -> bool {
    year.is_multiple_of(4) && (!year.is_multiple_of(100) || year.is_multiple_of(400))
}

/// How many leap years there are from 1900 on before this year.
fn leap_days_before(year: u64) -> u64 {
    let up_to = |last: u64| last / 4 - last / 100 + last / 400;
    up_to(year - 1) - up_to(FIRST_YEAR - 1)
}

#[cfg(test)]
mod tests {
    use super::*;

    const MONDAY: u32 = 0;
    const THURSDAY: u32 = 3;
    const FRIDAY: u32 = 4;

    #[test]
    fn points_around_new_years() {
        for (date, point) in [
            ([2027, 1, 1], [FRIDAY, 53, 1, 2027]),
            ([2024, 12, 30], [MONDAY, 1, 12, 2024]),
            ([2020, 12, 31], [THURSDAY, 53, 12, 2020]),
            ([1900, 1, 1], [MONDAY, 1, 1, 1900]),
            ([9999, 12, 31], [FRIDAY, 52, 12, 9999]),
        ] {
            let [year, month, day] = date;
            assert_eq!(point_of(year, month, day), Some(point), "{date:?}");
        }
    }

    #[test]
    fn the_fourth_of_january_lies_in_week_1() {
        for year in FIRST_YEAR..=LAST_YEAR {
            let [_, week, _, _] = point_of(year, 1, 4).expect("every year has this day");
            assert_eq!(week, 1, "{year}");
        }
    }
}
