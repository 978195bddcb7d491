//! From a packed sheet to the rules of docs/src, by the Rust's own constructors where it has any.
//!
//! Two sorts of refusal are kept apart. What is no packed sheet ends the reading at once. A value that a constructor refuses or changes
//! is noted and the reading goes on, so that `unreadable` is said of every sheet that is no sheet, whatever else is in it.

use alloc::sync::Arc;

use chrono::Duration;

use crate::bits::BitReader;
use crate::extended_time::ExtendedTime;
use crate::form::Form;
use crate::numbering::{HOLIDAY_KINDS, KINDS, OPERATORS, TIME_EVENTS, WEEKDAYS};
use crate::outside::Outside;
use crate::rules::RuleSequence;
use crate::rules::day::{
    Date, DateOffset, DaySelector, Month, MonthdayRange, WeekDayRange, WeekNum, WeekRange, Year,
    YearRange,
};
use crate::rules::time::{Time, TimeSelector, TimeSpan, VariableTime};

/// A field ran past the end or held an unlawful value.
struct NoSheet;

type Read<T> = Result<T, NoSheet>;

/// The rules of a sheet in their order.
pub(crate) fn read_sheet(form: Form, bytes: &[u8]) -> Result<Vec<RuleSequence>, Outside> {
    let mut reader = SheetReader {
        form,
        bits: BitReader::new(bytes),
        outside: None,
    };

    let rules = reader.rules().map_err(|NoSheet| Outside::Unreadable)?;

    match reader.outside {
        None => Ok(rules),
        Some(reason) => Err(reason),
    }
}

struct SheetReader<'a> {
    form: Form,
    bits: BitReader<'a>,
    /// The first value that the Rust's constructors refuse or change.
    outside: Option<Outside>,
}

impl SheetReader<'_> {
    fn rules(&mut self) -> Read<Vec<RuleSequence>> {
        if let Some(head) = self.form.head() {
            self.field_within(head.width, head.value, head.value)?;
        }

        let count = self.count(self.form.rule_count_width())?;
        let rules = self.items(count, Self::rule)?;

        if self.bits.only_padding_left() {
            Ok(rules)
        } else {
            Err(NoSheet)
        }
    }

    fn rule(&mut self) -> Read<RuleSequence> {
        let operator = self.choice(2, &OPERATORS)?;
        let kind = self.choice(2, &KINDS)?;
        let comment = comment_text(self.field(self.form.comment_width())?);
        let years = self.item_count()?;
        let monthdays = self.item_count()?;
        let weeks = self.item_count()?;
        let weekdays = self.item_count()?;
        let spans = self.item_count()?;

        Ok(RuleSequence {
            day_selector: DaySelector {
                year: self
                    .items(years, Self::year)?
                    .into_iter()
                    .flatten()
                    .collect(),
                monthday: self.items(monthdays, Self::monthday)?,
                week: self
                    .items(weeks, Self::week)?
                    .into_iter()
                    .flatten()
                    .collect(),
                weekday: self.items(weekdays, Self::weekday)?,
            },
            // Not by `TimeSelector::new`, which takes no spans for the whole day; in a sheet they are no time at all.
            time_selector: TimeSelector {
                spans: self.items(spans, Self::span)?,
            },
            kind,
            operator,
            comment,
        })
    }

    /// Nothing where `YearRange::new` refuses the values or changes the step.
    fn year(&mut self) -> Read<Option<YearRange>> {
        let start = Year(self.field_within(14, 1900, 9999)? as i32);
        let end = Year(self.field_within(14, 1900, 9999)? as i32);
        let step = self.field_within(16, 1, u16::MAX.into())? as u16;
        let range = YearRange::new(start..=end, step);

        Ok(match range {
            None => self.note(Outside::YearOrder),
            Some(range) if range.into_parts().1 != step => self.note(Outside::YearStep),
            range => range,
        })
    }

    fn monthday(&mut self) -> Read<MonthdayRange> {
        let tag = self.field_within(2, 0, 2)?;

        if tag == 2 {
            return Ok(dated_range(self.field(32)?));
        }

        let range = self.month()?..=self.month()?;

        let year = match tag {
            0 => None,
            _ => Some(Year(self.field_within(14, 1900, 9999)? as i32)),
        };

        Ok(MonthdayRange::Month { range, year })
    }

    fn month(&mut self) -> Read<Month> {
        Month::try_from(self.field(4)?).map_err(|_| NoSheet)
    }

    /// Nothing where `WeekRange::new` refuses the values or changes the step.
    fn week(&mut self) -> Read<Option<WeekRange>> {
        let start = WeekNum(self.field_within(6, 1, 53)? as u8);
        let end = WeekNum(self.field_within(6, 1, 53)? as u8);
        let step = self.field_within(8, 1, u8::MAX.into())? as u8;
        let range = WeekRange::new(start..=end, step);

        Ok(match range {
            None => self.note(Outside::WeekOrder),
            Some(range) if range.into_parts().1 != step => self.note(Outside::WeekStep),
            range => range,
        })
    }

    fn weekday(&mut self) -> Read<WeekDayRange> {
        if self.flag()? {
            let kind = self.choice(1, &HOLIDAY_KINDS)?;
            let offset = self.offset()?;
            return Ok(WeekDayRange::Holiday { kind, offset });
        }

        Ok(WeekDayRange::Fixed {
            range: self.choice(3, &WEEKDAYS)?..=self.choice(3, &WEEKDAYS)?,
            offset: self.offset()?,
            nth_from_start: self.five_flags()?,
            nth_from_end: self.five_flags()?,
        })
    }

    fn span(&mut self) -> Read<TimeSpan> {
        Ok(TimeSpan {
            range: self.time()?..self.time()?,
            open_end: self.flag()?,
            repeats: match self.flag()? {
                true => Some(Duration::minutes(self.field(12)?.into())),
                false => None,
            },
        })
    }

    fn time(&mut self) -> Read<Time> {
        if self.flag()? {
            let event = self.choice(2, &TIME_EVENTS)?;
            let offset = self.offset()?;
            return Ok(Time::Variable(VariableTime { event, offset }));
        }

        ExtendedTime::from_mins_from_midnight(self.field(12)? as u16)
            .map(Time::Fixed)
            .ok_or(NoSheet)
    }

    /// Notes that the sheet is outside the Rust, and stands in for the value it does not have.
    fn note<T>(&mut self, reason: Outside) -> Option<T> {
        self.outside.get_or_insert(reason);
        None
    }

    fn items<T>(
        &mut self,
        count: usize,
        mut item: impl FnMut(&mut Self) -> Read<T>,
    ) -> Read<Vec<T>> {
        (0..count).map(|_| item(self)).collect()
    }

    fn item_count(&mut self) -> Read<usize> {
        self.count(self.form.item_count_width())
    }

    fn count(&mut self, width: usize) -> Read<usize> {
        Ok(self.field(width)? as usize)
    }

    fn field(&mut self, width: usize) -> Read<u32> {
        self.bits.field(width).ok_or(NoSheet)
    }

    fn field_within(&mut self, width: usize, lowest: u32, highest: u32) -> Read<u32> {
        let value = self.field(width)?;
        (lowest..=highest)
            .contains(&value)
            .then_some(value)
            .ok_or(NoSheet)
    }

    /// The value that stands at the field's number.
    fn choice<T: Copy>(&mut self, width: usize, values: &[T]) -> Read<T> {
        let number = self.field(width)? as usize;
        values.get(number).copied().ok_or(NoSheet)
    }

    fn flag(&mut self) -> Read<bool> {
        Ok(self.field(1)? == 1)
    }

    fn five_flags(&mut self) -> Read<[bool; 5]> {
        let set = self.field(5)?;
        Ok([16, 8, 4, 2, 1].map(|bit| set & bit != 0))
    }

    /// Sixteen bits in two's complement.
    fn offset(&mut self) -> Read<i16> {
        Ok((self.field(16)? as u16).cast_signed())
    }
}

/// Comments of a sheet are numbers that stand one to one for texts, 0 for the empty one.
fn comment_text(number: u32) -> Arc<str> {
    match number {
        0 => "".into(),
        _ => number.to_string().into(),
    }
}

/// Some dated range that carries a caller's reference, its halves as the two offsets of days. The fold never looks into it.
fn dated_range(reference: u32) -> MonthdayRange {
    let bound = |half: u32| {
        let day_offset = (half as u16).cast_signed();
        let offset = DateOffset {
            day_offset,
            ..Default::default()
        };
        (Date::Easter { year: None }, offset)
    };

    MonthdayRange::Date {
        start: bound(reference >> 16),
        end: bound(reference & 0xFFFF),
    }
}
