//! One line of text, document 02's M-100: "days in the order years, months, week numbers, weekdays; two-digit hours, minutes and weeks, the
//! weeks after `week `; `,` between items, one space between parts; then the spans, each as start, `-`, end, and `+` if `open_end`; then
//! kind, then comment; `; ` before a Normal rule, `, ` before an Additional one, ` || ` before a Fallback; `off` for Closed, `unknown` for
//! Unknown, and `open` only where an Open rule has a comment; a comment number n as `"n"`, 0 not written. Nothing stands before the first
//! rule, and no rules give an empty line. Equal ends of a day item with step 1 are written once, a span's never; any other step follows
//! both ends after `/`."
//!
//! The Rust has no such writer. This one shares nothing with oracle/reference/line.py, which it is held against by the stored answers.

use crate::layout::Refusal;
use crate::rule::{
    ADDITIONAL, ALL_NTH, CLOSED, DATED, MONTHS_OF_YEAR, NORMAL, OPEN, Rule, Span, Stepped, Time,
};

/// The line of an accepted sheet's rules, or its refusal by 10.
pub fn line_of(rules: &[Rule]) -> Result<String, Refusal> {
    match first_unsaid(rules) {
        Some(unsaid) => Err(Refusal::at(10, unsaid.rule)),
        None => Ok(Text::of(rules).line),
    }
}

/// The first rule that a line can't say, and the number of the reason in `REASONS`.
#[derive(Clone, Copy)]
pub struct Unsaid {
    pub rule: usize,
    pub reason: usize,
}

/// Whether a rule is one that a line can't say, from the rule and its index.
type Unsayable = fn(&Rule, usize) -> bool;

/// The reasons for 10, in the document's order.
pub const REASONS: [(&str, Unsayable); 9] = [
    ("a dated month range", |rule, _| {
        rule.monthdays.iter().any(|item| item.tag == MONTHS_OF_YEAR)
    }),
    ("a monthday reference", |rule, _| {
        rule.monthdays.iter().any(|item| item.tag == DATED)
    }),
    ("a holiday", |rule, _| {
        rule.weekdays.iter().any(|item| item.tag == 1)
    }),
    ("a weekday offset", |rule, _| {
        let mut days = rule.weekdays.iter().filter(|item| item.tag == 0);
        days.any(|item| item.offset != 0)
    }),
    ("an unset nth bit", |rule, _| {
        let mut days = rule.weekdays.iter().filter(|item| item.tag == 0);
        days.any(|item| item.nth_from_start & item.nth_from_end != ALL_NTH)
    }),
    ("a variable time", |rule, _| {
        let mut spans = rule.spans.iter();
        spans.any(|span| span.start.tag == 1 || span.end.tag == 1)
    }),
    ("repeats", |rule, _| {
        rule.spans.iter().any(|span| span.repeats_flag == 1)
    }),
    ("0 spans", |rule, _| rule.spans.is_empty()),
    ("a first rule that isn't Normal", |rule, index| {
        index == 0 && rule.operator != NORMAL
    }),
];

pub fn first_unsaid(rules: &[Rule]) -> Option<Unsaid> {
    rules.iter().enumerate().find_map(|(index, rule)| {
        let reason = REASONS
            .iter()
            .position(|(_, unsayable)| unsayable(rule, index));
        reason.map(|reason| Unsaid {
            rule: index,
            reason,
        })
    })
}

/// What the item written last was part of.
#[derive(Clone, Copy, PartialEq)]
enum Part {
    Nothing,
    Years,
    Months,
    Weeks,
    Weekdays,
    Spans,
    Kind,
    Comment,
}

/// A line as far as it is written.
struct Text {
    line: String,
    part: Part,
}

/// Three letters a month and two a weekday, one after the other.
const MONTH_NAMES: &str = "JanFebMarAprMayJunJulAugSepOctNovDec";
const WEEKDAY_NAMES: &str = "MoTuWeThFrSaSu";

impl Text {
    fn of(rules: &[Rule]) -> Self {
        let mut text = Self {
            line: String::new(),
            part: Part::Nothing,
        };

        for (index, rule) in rules.iter().enumerate() {
            if index > 0 {
                text.next_rule(rule.operator);
            }
            text.rule(rule);
        }

        text
    }

    fn next_rule(&mut self, operator: u32) {
        self.line += match operator {
            NORMAL => "; ",
            ADDITIONAL => ", ",
            _ => " || ",
        };
        self.part = Part::Nothing;
    }

    fn rule(&mut self, rule: &Rule) {
        for item in &rule.years {
            self.item(Part::Years, &stepped(item));
        }
        for item in &rule.monthdays {
            self.item(
                Part::Months,
                &named(MONTH_NAMES, 3, item.start - 1, item.end - 1),
            );
        }
        for item in &rule.weeks {
            self.item(Part::Weeks, &stepped(item));
        }
        for item in &rule.weekdays {
            self.item(
                Part::Weekdays,
                &named(WEEKDAY_NAMES, 2, item.start, item.end),
            );
        }
        for item in &rule.spans {
            self.item(Part::Spans, &span(item));
        }

        match (rule.kind, rule.comment) {
            (OPEN, 0) => {}
            (OPEN, _) => self.item(Part::Kind, "open"),
            (CLOSED, _) => self.item(Part::Kind, "off"),
            _ => self.item(Part::Kind, "unknown"),
        }
        if rule.comment > 0 {
            self.item(Part::Comment, &format!("\"{}\"", rule.comment));
        }
    }

    /// A comma stands behind an item of the same part, a space behind one of another.
    fn item(&mut self, part: Part, item: &str) {
        if self.part == part {
            self.line += ",";
        } else {
            self.line += if self.part == Part::Nothing { "" } else { " " };
            self.line += if part == Part::Weeks { "week " } else { "" };
        }

        self.line += item;
        self.part = part;
    }
}

/// Years have four digits as they are.
fn stepped(Stepped { start, end, step }: &Stepped) -> String {
    match step {
        1 if start == end => format!("{start:02}"),
        1 => format!("{start:02}-{end:02}"),
        _ => format!("{start:02}-{end:02}/{step}"),
    }
}

fn named(names: &str, letters: usize, start: u32, end: u32) -> String {
    let name = |number: u32| &names[number as usize * letters..][..letters];

    if start == end {
        name(start).into()
    } else {
        [name(start), name(end)].join("-")
    }
}

fn span(span: &Span) -> String {
    let time = |time: &Time| format!("{:02}:{:02}", time.minutes / 60, time.minutes % 60);
    let open_end = if span.open_end == 1 { "+" } else { "" };

    format!("{}-{}{open_end}", time(&span.start), time(&span.end))
}
