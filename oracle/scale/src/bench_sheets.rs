//! The sheets of the bench, put together rule by rule, all inside the Rust's domain, most of them in form 1.

use oracle::form::Form;

use crate::archive::Given;
use crate::convert::LAST_SHORT_COMMENT;
use crate::groups::{each_odd_choice, everywhere, with_own_states};
use crate::random::Random;
use crate::rule::{
    ADDITIONAL, CLOSED, ITEM_LIMIT, MIDNIGHT, NORMAL, OPEN, Rule, Span, Stepped, Time, UNKNOWN,
    fixed, fixed_time, months, range, weekdays,
};
use crate::sheet::write_sheet;

/// Once the most that a sheet might have.
pub const MANY_RULES: u32 = 64;

#[derive(Clone)]
pub struct BenchSheet {
    pub name: String,
    pub form: Form,
    pub bytes: Vec<u8>,
}

impl BenchSheet {
    pub fn given(&self) -> Given<'_> {
        Given {
            form: self.form.number(),
            bytes: &self.bytes,
        }
    }
}

pub fn bench_sheets() -> Vec<BenchSheet> {
    let mut sheets = named([
        ("one rule", vec![open(10, 18).on(0, 4)]),
        ("two rules (P2)", worked_day_p2()),
        ("20 rules of a landing site", landing_site()),
        ("64 rules, 1,024 boxes in all dimensions", all_dimensions()),
        ("64 rules, 1,023 boxes in years", years_of_64_rules(0)),
        ("15 rules, 1,024 groups of 250 lists", many_groups(2)),
        (
            "41 rules, 1,024 groups of 250 lists of up to 32 rules",
            many_groups_of_long_lists(28),
        ),
        (
            "64 rules, 1,023 boxes in years, lists of up to 32 rules",
            years_of_64_rules(30),
        ),
    ]);

    sheets.push(landing_site_of_form_2());
    sheets
}

/// Sheets of form 1.
pub fn named<const N: usize>(sheets: [(&'static str, Vec<Rule>); N]) -> Vec<BenchSheet> {
    sheets
        .map(|(name, rules)| bench_sheet(name, Form::One, rules))
        .into()
}

pub fn bench_sheet(name: impl Into<String>, form: Form, rules: Vec<Rule>) -> BenchSheet {
    BenchSheet {
        name: name.into(),
        form,
        bytes: write_sheet(form, rules),
    }
}

/// The landing site's rules, their comments from 65,536 on.
pub fn landing_site_of_form_2() -> BenchSheet {
    let mut rules = landing_site();
    for rule in rules.iter_mut().filter(|rule| rule.comment > 0) {
        rule.comment += LAST_SHORT_COMMENT;
    }

    bench_sheet("20 rules of a landing site, form 2", Form::Two, rules)
}

/// Weekdays are numbered from 0 for Monday.
const MONDAY: u32 = 0;
const TUESDAY: u32 = 1;
const THURSDAY: u32 = 3;
const FRIDAY: u32 = 4;
const SATURDAY: u32 = 5;
const SUNDAY: u32 = 6;

fn normal(kind: u32, from: u32, to: u32) -> Rule {
    Rule {
        operator: NORMAL,
        kind,
        spans: vec![fixed(60 * from, 60 * to)],
        ..Rule::default()
    }
}

fn open(from: u32, to: u32) -> Rule {
    normal(OPEN, from, to)
}

fn closed(from: u32, to: u32) -> Rule {
    normal(CLOSED, from, to)
}

fn also(kind: u32, from: u32, to: u32) -> Rule {
    Rule {
        operator: ADDITIONAL,
        ..normal(kind, from, to)
    }
}

/// A rule with one more item or part.
impl Rule {
    fn on(mut self, start: u32, end: u32) -> Self {
        self.weekdays.push(weekdays(start, end));
        self
    }

    fn in_weeks(mut self, start: u32, end: u32) -> Self {
        self.weeks.push(range(start, end));
        self
    }

    fn in_months(mut self, start: u32, end: u32) -> Self {
        self.monthdays.push(months(start, end));
        self
    }

    fn in_years(mut self, start: u32, end: u32) -> Self {
        self.years.push(range(start, end));
        self
    }

    fn saying(mut self, comment: u32) -> Self {
        self.comment = comment;
        self
    }

    fn at(mut self, span: Span) -> Self {
        self.spans = vec![span];
        self
    }
}

pub fn worked_day_p2() -> Vec<Rule> {
    vec![
        open(10, 18).on(MONDAY, FRIDAY),
        closed(12, 13).on(TUESDAY, TUESDAY),
    ]
}

/// Seasons, holidays, years of works, comments, an evening from dusk on and one with an open end: 560 boxes.
pub fn landing_site() -> Vec<Rule> {
    let from_dusk = Span {
        start: Time {
            tag: 1,
            event: 3,
            ..Time::default()
        },
        end: fixed_time(MIDNIGHT),
        ..Span::default()
    };
    let open_ended = Span {
        open_end: 1,
        ..fixed(1200, MIDNIGHT)
    };

    vec![
        open(8, 18).on(MONDAY, FRIDAY),
        open(9, 16).on(SATURDAY, SATURDAY),
        open(10, 14).on(SUNDAY, SUNDAY),
        open(7, 20).in_months(4, 9).on(MONDAY, FRIDAY),
        open(8, 19).in_months(4, 9).on(SATURDAY, SUNDAY),
        normal(UNKNOWN, 10, 14)
            .saying(1)
            .in_months(11, 3)
            .on(SUNDAY, SUNDAY),
        closed(12, 13).in_months(11, 3),
        also(OPEN, 18, 22).saying(2).on(FRIDAY, FRIDAY),
        closed(0, 24).saying(3).in_weeks(52, 53),
        closed(0, 24).saying(3).in_weeks(1, 1),
        open(6, 21).in_weeks(27, 34),
        also(OPEN, 21, 23)
            .saying(4)
            .in_weeks(27, 34)
            .on(SATURDAY, SUNDAY),
        closed(8, 12).in_months(11, 3).on(MONDAY, MONDAY),
        closed(6, 9)
            .saying(5)
            .in_years(2024, 2025)
            .in_months(4, 9)
            .on(MONDAY, THURSDAY),
        open(7, 22).in_years(2026, 2026).on(SATURDAY, SATURDAY),
        also(UNKNOWN, 18, 20)
            .saying(6)
            .in_years(2026, 2026)
            .in_weeks(42, 43)
            .on(MONDAY, FRIDAY),
        closed(0, 24)
            .saying(7)
            .in_years(2026, 2026)
            .in_months(11, 3)
            .on(SUNDAY, SUNDAY),
        also(OPEN, 20, 24)
            .saying(8)
            .in_months(4, 9)
            .on(FRIDAY, SATURDAY)
            .at(from_dusk),
        also(OPEN, 20, 24)
            .in_months(11, 3)
            .on(SATURDAY, SATURDAY)
            .at(open_ended),
        closed(13, 14).saying(9).in_weeks(42, 43),
    ]
}

const WEEKDAY_CUTS: [u32; 5] = [0, 2, 4, 6, 7];
const WEEK_CUTS: [u32; 5] = [1, 14, 27, 40, 54];
const MONTH_CUTS: [u32; 9] = [1, 2, 4, 5, 7, 8, 10, 11, 13];
const YEAR_CUTS: [u32; 9] = [1900, 2020, 2021, 2022, 2023, 2024, 2025, 2026, 10000];

/// Rules over some stretch of intervals in each dimension, every other one Additional: 4 by 4 by 8 by 8 boxes.
pub fn all_dimensions() -> Vec<Rule> {
    let mut random = Random::new(64, 1024);
    let cuts = [&WEEKDAY_CUTS[..], &WEEK_CUTS, &MONTH_CUTS, &YEAR_CUTS];

    (0..MANY_RULES)
        .map(|number| stretched_rule(&mut random, number, cuts))
        .collect()
}

/// The rule of a number over some stretch between the cuts of each dimension.
pub fn stretched_rule(random: &mut Random, number: u32, cuts: [&[u32]; 4]) -> Rule {
    let [days, weeks, months, years] = cuts.map(|cuts| {
        let (one, other) = (random.below(cuts.len()), random.below(cuts.len() - 1));
        let (from, to) = if other < one {
            (other, one)
        } else {
            (one, other + 1)
        };
        (cuts[from], cuts[to] - 1)
    });
    let hour = number % 12;

    Rule {
        operator: [NORMAL, ADDITIONAL][number as usize % 2],
        ..normal([OPEN, UNKNOWN, CLOSED][number as usize % 3], hour, hour + 9)
    }
    .saying(number % 7)
    .on(days.0, days.1)
    .in_weeks(weeks.0, weeks.1)
    .in_months(months.0, months.1)
    .in_years(years.0, years.1)
}

fn years_of_64_rules(on_every_day: u32) -> Vec<Rule> {
    many_years(MANY_RULES as usize, 511, on_every_day)
}

/// So many rules and years. Each year is alone between years that no rule names; they are shared out sixteen to a rule, so that most stand in
/// two rules; after some rules that stand on every day, whose spans follow each other without touching.
pub fn many_years(rules: usize, years: usize, on_every_day: u32) -> Vec<Rule> {
    let single = |number: usize| {
        let year = 1901 + 2 * (number % years) as u32;
        range(year, year)
    };

    let in_years = (0..rules - on_every_day as usize).map(|number| {
        let hour = number as u32 % 20;
        let years = number * ITEM_LIMIT..(number + 1) * ITEM_LIMIT;

        Rule {
            years: years.map(single).collect::<Vec<Stepped>>(),
            ..also(OPEN, hour, hour + 3).saying(number as u32 % 5)
        }
    });

    every_day(on_every_day, |number, place| {
        let minute = 45 * number + 2 * place;
        fixed(minute, minute + 1)
    })
    .chain(in_years)
    .collect()
}

/// So many rules of sixteen spans that stand on every day, each with a comment of its own.
fn every_day(rules: u32, span: fn(u32, u32) -> Span) -> impl Iterator<Item = Rule> {
    (0..rules).map(move |number| Rule {
        spans: (0..ITEM_LIMIT as u32)
            .map(|place| span(number, place))
            .collect(),
        ..also(OPEN, 0, 24).saying(100 + number)
    })
}

/// 1,024 boxes, each a group, by 250 lists of so many rules and up to four more.
fn many_groups(on_every_day: usize) -> Vec<Rule> {
    let days = [each_odd_choice([1, 8, 8, 16]), everywhere(on_every_day)];
    with_own_states(days.concat())
}

/// The same, after so many rules of sixteen spans that stand on every day.
fn many_groups_of_long_lists(on_every_day: u32) -> Vec<Rule> {
    every_day(on_every_day, |number, place| {
        let minute = 90 * place + number;
        fixed(minute, minute + 20)
    })
    .chain(many_groups(0))
    .collect()
}
