//! What a rule of a sheet holds. Offsets are the sixteen bits as they stand; every value of a field is kept, lawful or not.

pub const NORMAL: u32 = 0;
pub const ADDITIONAL: u32 = 1;
pub const FALLBACK: u32 = 2;

pub const OPEN: u32 = 0;
pub const CLOSED: u32 = 1;
pub const UNKNOWN: u32 = 2;

pub const RULE_LIMIT: usize = 256;
pub const ITEM_LIMIT: usize = 16;
pub const ALL_NTH: u32 = 0b11111;
pub const MIDNIGHT: u32 = 1440;

pub const MONTHS: u32 = 0;
pub const MONTHS_OF_YEAR: u32 = 1;
pub const DATED: u32 = 2;

/// A range of years or weeks.
#[derive(Clone, Debug, Default)]
pub struct Stepped {
    pub start: u32,
    pub end: u32,
    pub step: u32,
}

#[derive(Clone, Debug, Default)]
pub struct Monthday {
    pub tag: u32,
    pub start: u32,
    pub end: u32,
    pub year: u32,
    pub reference: u32,
}

/// Tag 0 a range of weekdays, tag 1 a holiday of a kind.
#[derive(Clone, Debug, Default)]
pub struct Weekday {
    pub tag: u32,
    pub start: u32,
    pub end: u32,
    pub kind: u32,
    pub offset: u32,
    pub nth_from_start: u32,
    pub nth_from_end: u32,
}

/// Tag 0 fixed minutes, tag 1 an event with an offset.
#[derive(Clone, Debug, Default)]
pub struct Time {
    pub tag: u32,
    pub minutes: u32,
    pub event: u32,
    pub offset: u32,
}

#[derive(Clone, Debug, Default)]
pub struct Span {
    pub start: Time,
    pub end: Time,
    pub open_end: u32,
    pub repeats_flag: u32,
    pub repeats: u32,
}

#[derive(Clone, Debug, Default)]
pub struct Rule {
    pub operator: u32,
    pub kind: u32,
    pub comment: u32,
    pub years: Vec<Stepped>,
    pub monthdays: Vec<Monthday>,
    pub weeks: Vec<Stepped>,
    pub weekdays: Vec<Weekday>,
    pub spans: Vec<Span>,
}

/// An item of one of the four day selectors, by the ends of its range.
pub trait DayItem: Clone {
    /// The one that drains.
    fn between(start: u32, end: u32) -> Self;

    fn ends(&self) -> (u32, u32);
}

impl DayItem for Stepped {
    fn between(start: u32, end: u32) -> Self {
        range(start, end)
    }

    fn ends(&self) -> (u32, u32) {
        (self.start, self.end)
    }
}

impl DayItem for Monthday {
    fn between(start: u32, end: u32) -> Self {
        months(start, end)
    }

    fn ends(&self) -> (u32, u32) {
        (self.start, self.end)
    }
}

impl DayItem for Weekday {
    fn between(start: u32, end: u32) -> Self {
        weekdays(start, end)
    }

    fn ends(&self) -> (u32, u32) {
        (self.start, self.end)
    }
}

// Short ways to write down what drains.

pub fn range(start: u32, end: u32) -> Stepped {
    Stepped {
        start,
        end,
        step: 1,
    }
}

pub fn months(start: u32, end: u32) -> Monthday {
    Monthday {
        start,
        end,
        ..Monthday::default()
    }
}

pub fn weekdays(start: u32, end: u32) -> Weekday {
    Weekday {
        start,
        end,
        nth_from_start: ALL_NTH,
        nth_from_end: ALL_NTH,
        ..Weekday::default()
    }
}

pub fn fixed_time(minutes: u32) -> Time {
    Time {
        minutes,
        ..Time::default()
    }
}

pub fn fixed(start: u32, end: u32) -> Span {
    Span {
        start: fixed_time(start),
        end: fixed_time(end),
        ..Span::default()
    }
}
