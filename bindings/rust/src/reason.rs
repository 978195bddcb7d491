//! Why a fold stopped: the reasons of document 02, each with its number.

/// What makes a rule one that can't be folded exactly. Where several reasons apply to a rule, the first in this order is told.
#[derive(Clone, Copy, Debug, PartialEq, Eq)]
pub enum Reason {
    /// 1: the operator is Fallback.
    Fallback = 1,
    /// 2: a span may reach tomorrow.
    Time = 2,
    /// 3: a step of years other than 1.
    YearStep = 3,
    /// 4: a month range of a year, or a reference to a dated range.
    Monthday = 4,
    /// 5: a step of weeks other than 1.
    WeekStep = 5,
    /// 6: a holiday, with an offset or without.
    Holiday = 6,
    /// 7: a weekday offset other than 0.
    WeekdayOffset = 7,
    /// 8: an unset nth bit of a weekday.
    Nth = 8,
}

impl Reason {
    /// The reason of a number from 1 to 8, none for 0. The archive tells no other.
    pub(crate) fn of(number: u64) -> Option<Self> {
        Some(match number {
            0 => return None,
            1 => Self::Fallback,
            2 => Self::Time,
            3 => Self::YearStep,
            4 => Self::Monthday,
            5 => Self::WeekStep,
            6 => Self::Holiday,
            7 => Self::WeekdayOffset,
            8 => Self::Nth,
            _ => unreachable!("the archive tells no reason {number}"),
        })
    }

    /// The number, 1 to 8.
    #[must_use]
    pub fn number(self) -> u8 {
        self as u8
    }
}
