//! Why a sheet stands for no value of the Rust, so that the oracle has nothing to say about it.

use core::fmt::{Display, Formatter, Result};

#[derive(Clone, Copy, Debug)]
pub enum Outside {
    /// The line is not hex.
    NotHex,
    /// The bytes are no packed sheet: cut short, an unlawful value, a set padding bit, or bytes after the padding.
    Unreadable,
    /// `YearRange::new` refuses a start above the end.
    YearOrder,
    /// `WeekRange::new` refuses a start above the end.
    WeekOrder,
    /// `YearRange::new` turns a step above end less start into 1.
    YearStep,
    /// `WeekRange::new` turns a step above end less start into 1.
    WeekStep,
}

impl Outside {
    pub fn is_unreadable(self) -> bool {
        matches!(self, Self::Unreadable)
    }
}

impl Display for Outside {
    fn fmt(&self, f: &mut Formatter<'_>) -> Result {
        f.write_str(match self {
            Self::NotHex => "not-hex",
            Self::Unreadable => "unreadable",
            Self::YearOrder => "year-order",
            Self::WeekOrder => "week-order",
            Self::YearStep => "year-step",
            Self::WeekStep => "week-step",
        })
    }
}
