//! The ranges and spans from which one sheet's rules are put together. They are few for each sheet, so that ranges meet and wrap, days
//! repeat and groups grow.

use oracle::form::Form;

use crate::points::{DIMENSIONS, Dimension};
use crate::random::Random;
use crate::rule::{
    ADDITIONAL, CLOSED, DayItem, MIDNIGHT, Monthday, NORMAL, OPEN, Rule, Span, Stepped, Time,
    UNKNOWN, Weekday, fixed, fixed_time,
};

const WEEK_VALUES: [u32; 11] = [1, 2, 3, 10, 11, 26, 27, 50, 51, 52, 53];
pub const YEAR_VALUES: [u32; 11] = [
    1900, 1901, 1999, 2000, 2001, 2002, 2003, 2024, 2026, 9998, 9999,
];
pub const MINUTES: [u32; 11] = [0, 1, 480, 599, 600, 660, 720, 780, 1080, 1439, MIDNIGHT];
const COMMENTS: [u32; 8] = [0, 0, 0, 0, 1, 1, 2, 65535];
const BUSY_COMMENTS: [u32; 5] = [0, 1, 2, 3, 4];
/// Those of form 2. Some are the same in their last sixteen bits.
const LONG_COMMENTS: [u32; 9] = [0, 0, 0, 1, 2, 65535, 65536, 65537, 0xFF_FFFF];
const LONG_BUSY_COMMENTS: [u32; 5] = [0, 1, 2, 65536, 65537];
/// Offsets of an event in minutes, as sixteen bits in two's complement: 30, -30, -1, the highest and the lowest among them.
const OFFSETS: [u32; 7] = [0, 0, 30, 0xFFE2, 0xFFFF, 0x7FFF, 0x8000];

pub struct Stock<'a> {
    pub random: &'a mut Random,
    /// Whether years and weeks rise, as the Rust's constructors ask.
    pub rising: bool,
    /// Whose comments the rules have.
    comment_form: Form,
    years: Vec<Stepped>,
    monthdays: Vec<Monthday>,
    weeks: Vec<Stepped>,
    weekdays: Vec<Weekday>,
    comments: &'static [u32],
    spans: Vec<Span>,
}

impl<'a> Stock<'a> {
    pub fn new(random: &'a mut Random, rising: bool, comment_form: Form) -> Self {
        let mut stock = Self {
            random,
            rising,
            comment_form,
            years: Vec::new(),
            monthdays: Vec::new(),
            weeks: Vec::new(),
            weekdays: Vec::new(),
            comments: match comment_form {
                Form::One => &COMMENTS,
                Form::Two => &LONG_COMMENTS,
            },
            spans: Vec::new(),
        };

        stock.take_days();
        stock.take_spans();
        stock
    }

    fn take_days(&mut self) {
        let [weekdays, weeks, months, years] = &DIMENSIONS;
        let (rising, random) = (self.rising, &mut *self.random);
        let listed = |random: &mut Random, values| random.percent(50).then_some(values);

        let listed_years = listed(random, &YEAR_VALUES);
        self.years = ranges(random, years, listed_years, rising);
        let listed_weeks = listed(random, &WEEK_VALUES);
        self.weeks = ranges(random, weeks, listed_weeks, rising);
        self.monthdays = ranges(random, months, None, false);
        self.weekdays = ranges(random, weekdays, None, false);
    }

    fn take_spans(&mut self) {
        let count = self.random.within(1, 5);
        self.spans = (0..count).map(|_| self.draining_span()).collect();

        if self.random.percent(40) {
            for _ in 0..self.random.within(1, 3) {
                let span = self.random.of(&self.spans);
                let sibling = self.sibling(span);
                self.spans.push(sibling);
            }
        }

        // Many states painted one over the other.
        if self.random.percent(20) {
            self.comments = match self.comment_form {
                Form::One => &BUSY_COMMENTS,
                Form::Two => &LONG_BUSY_COMMENTS,
            };
            self.spans.truncate(1);
            for _ in 0..8 {
                let (start, end) = self.rising_minutes();
                self.spans.push(fixed(start, end));
            }
        }
    }

    fn rising_minutes(&mut self) -> (u32, u32) {
        let listed = self.random.percent(70);

        loop {
            let mut minute = || match listed {
                true => self.random.of(&MINUTES),
                false => self.random.within(0, MIDNIGHT),
            };
            let (start, end) = (minute(), minute());

            if start < end {
                return (start, end);
            }
        }
    }

    /// Simple, with an open end, with repeats, with both, or from an event.
    fn draining_span(&mut self) -> Span {
        let (start, end) = self.rising_minutes();
        let mut span = fixed(start, end);

        match self
            .random
            .weighed(&[(60, 0), (12, 1), (8, 2), (4, 3), (10, 4)])
        {
            0 => {}
            1 => span.open_end = 1,
            2 => self.repeat(&mut span),
            3 => {
                span.open_end = 1;
                self.repeat(&mut span);
            }
            _ => {
                span = Span {
                    start: variable_time(self.random),
                    end: fixed_time(MIDNIGHT),
                    ..Span::default()
                };
                span = self.sibling(span);
            }
        }

        span
    }

    fn repeat(&mut self, span: &mut Span) {
        span.repeats_flag = 1;
        span.repeats = self.random.of(&[0, 1, 30, 4095]);
    }

    /// A span that differs only in the later parts of the order of spans.
    fn sibling(&mut self, span: Span) -> Span {
        let mut sibling = Span {
            open_end: self.random.within(0, 1),
            repeats_flag: 0,
            repeats: 0,
            ..span
        };

        if sibling.start.tag == 1 {
            sibling.start.offset = self.random.of(&OFFSETS);
        }
        if self.random.percent(60) {
            self.repeat(&mut sibling);
        }

        sibling
    }

    /// A few of the items, at times the same one twice; from drained rules overlaps are taken in the end.
    fn some<T: Clone>(random: &mut Random, items: &[T]) -> Vec<T> {
        if items.is_empty() || random.percent(25) {
            return Vec::new();
        }

        let count = random.weighed(&[(40, 1), (35, 2), (25, 3)]);
        (0..count).map(|_| random.of(items)).collect()
    }

    pub fn some_spans(&mut self, count: usize) -> Vec<Span> {
        (0..count).map(|_| self.random.of(&self.spans)).collect()
    }

    /// A rule that drains.
    pub fn rule(&mut self) -> Rule {
        let span_count = self
            .random
            .weighed(&[(4, 0), (50, 1), (30, 2), (12, 3), (4, 4)]);

        Rule {
            operator: self.random.weighed(&[(55, NORMAL), (45, ADDITIONAL)]),
            spans: self.some_spans(span_count),
            years: Self::some(self.random, &self.years),
            monthdays: Self::some(self.random, &self.monthdays),
            weeks: Self::some(self.random, &self.weeks),
            weekdays: Self::some(self.random, &self.weekdays),
            ..self.rule_of_all_days()
        }
    }

    /// An Additional rule of one span on all days.
    pub fn rule_of_all_days(&mut self) -> Rule {
        Rule {
            operator: ADDITIONAL,
            kind: self
                .random
                .weighed(&[(50, OPEN), (25, CLOSED), (25, UNKNOWN)]),
            comment: self.random.of(self.comments),
            spans: self.some_spans(1),
            ..Rule::default()
        }
    }

    pub fn rules(&mut self) -> Vec<Rule> {
        let count = self
            .random
            .weighed(&[(6, 1), (14, 2), (30, 4), (30, 7), (15, 12), (5, 20)]);
        (0..count).map(|_| self.rule()).collect()
    }
}

/// None to three items, of the listed values alone where there are such: as they come, or one next to the other.
fn ranges<T: DayItem>(
    random: &mut Random,
    dimension: &Dimension,
    listed: Option<&[u32; 11]>,
    rising: bool,
) -> Vec<T> {
    let count = random.weighed(&[(20, 0), (30, 1), (30, 2), (20, 3)]);
    let next_to_another = random.percent(60);
    let mut values: Vec<u32> = (0..2 * count)
        .map(|_| match listed {
            Some(values) => random.of(values),
            None => random.within(dimension.start, dimension.end - 1),
        })
        .collect();

    let ends: Vec<(u32, u32)> = if next_to_another {
        values.truncate(count + 1);
        neighbours(values, dimension.start, rising)
    } else {
        let pairs = values.chunks(2).map(|pair| (pair[0], pair[1]));
        pairs
            .map(|(one, other)| match rising {
                true => (one.min(other), one.max(other)),
                false => (one, other),
            })
            .collect()
    };

    ends.into_iter()
        .map(|(start, end)| T::between(start, end))
        .collect()
}

/// The ends of the ranges from each cut up to the next one; where not all are to rise, the last wraps to the first.
fn neighbours(mut cuts: Vec<u32>, lowest: u32, rising: bool) -> Vec<(u32, u32)> {
    cuts.sort_unstable();
    cuts.dedup();
    let mut ends: Vec<_> = cuts.windows(2).map(|pair| (pair[0], pair[1] - 1)).collect();

    match (cuts.first(), cuts.last()) {
        (Some(first), Some(last)) if !rising && lowest < *first => ends.push((*last, *first - 1)),
        _ => {}
    }

    ends
}

pub fn variable_time(random: &mut Random) -> Time {
    Time {
        tag: 1,
        event: random.within(0, 3),
        offset: random.of(&OFFSETS),
        ..Time::default()
    }
}
