//! Why a sheet, a buffer or a date is refused: the codes of document 01's table and those that 02 adds, each with its place.

use core::error::Error;
use core::fmt::{Display, Formatter, Result};

/// The first reason to refuse, in the order 1, 2 and 4 as met from the first bit on, then 3, 8, 11, 5, then 6 and 14 rule by rule, 6 first at
/// the same rule, then 9, 10, 12, 13, 7. Bits and rules are counted from 0, bits from the most significant one on.
#[derive(Clone, Copy, Debug, PartialEq, Eq)]
pub enum Refusal {
    /// 1: a field runs past the end.
    PastEnd {
        /// The field's first bit.
        bit: usize,
    },
    /// 2: a field that isn't a count holds an unlawful value. Form 2's first four bits are such a field.
    Unlawful {
        /// The field's first bit.
        bit: usize,
    },
    /// 3: a padding bit is set, or bytes follow.
    BadEnd {
        /// The first such bit, else the first bit after the padding.
        bit: usize,
    },
    /// 4: a count passes its limit: 256 rules, 16 items of each sort, 16 spans.
    OverLimit {
        /// The count's first bit.
        bit: usize,
    },
    /// 5: the drained rules cut over 4,096 boxes.
    ManyBoxes {
        /// How many they cut.
        boxes: usize,
    },
    /// 6: some point's list passes 32 entries after a drained rule.
    LongList {
        /// That rule's index.
        rule: usize,
    },
    /// 7: the buffer is shorter than the result.
    NoRoom {
        /// The bytes that the result needs.
        needed: usize,
    },
    /// 8: a lookup of no such date or minute.
    NoDate,
    /// 9: a lookup where a rule is left, or the point's list holds a span that isn't simple.
    Unsettled,
    /// 10: a line where some rule holds a month range of a year, a reference to a dated range, a holiday, a weekday offset, an unset nth
    /// bit, a variable time or repeats, or has no spans, or where the first rule isn't Normal.
    NoLine {
        /// The first such rule's index.
        rule: usize,
    },
    /// 11: a fold or a lookup where two ranges of one day selector of a drained rule share a value, so that a day is named twice. Ranges
    /// that only touch are fine.
    Overlap {
        /// The first such rule's index.
        rule: usize,
    },
    /// 12: a conversion from form 2 where a comment is above 65,535.
    LongComment {
        /// The first such rule's index.
        rule: usize,
    },
    /// 13: a fold of form 1 where the result has more rules or items than form 1 can count: 65,535 rules, those left among them, or 1,023
    /// items of a sort in a rule. Moved to form 2, the sheet can be folded.
    PastCounts,
    /// 14: a fold or a lookup where, after a drained rule, more than 512 lists that aren't empty stand at the points, each counted once. Lists
    /// differ by the indexes of their rules.
    ManyLists {
        /// That rule's index.
        rule: usize,
    },
}

impl Refusal {
    /// The refusal of a code from 1 to 14. The archive answers no other.
    pub(crate) fn of(code: u64, place: usize) -> Self {
        match code {
            1 => Self::PastEnd { bit: place },
            2 => Self::Unlawful { bit: place },
            3 => Self::BadEnd { bit: place },
            4 => Self::OverLimit { bit: place },
            5 => Self::ManyBoxes { boxes: place },
            6 => Self::LongList { rule: place },
            7 => Self::NoRoom { needed: place },
            8 => Self::NoDate,
            9 => Self::Unsettled,
            10 => Self::NoLine { rule: place },
            11 => Self::Overlap { rule: place },
            12 => Self::LongComment { rule: place },
            13 => Self::PastCounts,
            14 => Self::ManyLists { rule: place },
            _ => unreachable!("the archive refuses by no code {code}"),
        }
    }

    /// The code, 1 to 14.
    #[must_use]
    pub fn code(self) -> u8 {
        match self {
            Self::PastEnd { .. } => 1,
            Self::Unlawful { .. } => 2,
            Self::BadEnd { .. } => 3,
            Self::OverLimit { .. } => 4,
            Self::ManyBoxes { .. } => 5,
            Self::LongList { .. } => 6,
            Self::NoRoom { .. } => 7,
            Self::NoDate => 8,
            Self::Unsettled => 9,
            Self::NoLine { .. } => 10,
            Self::Overlap { .. } => 11,
            Self::LongComment { .. } => 12,
            Self::PastCounts => 13,
            Self::ManyLists { .. } => 14,
        }
    }

    /// The code's place: a bit, a number of boxes, a rule's index, a number of bytes, or 0.
    #[must_use]
    pub fn place(self) -> usize {
        match self {
            Self::PastEnd { bit: place }
            | Self::Unlawful { bit: place }
            | Self::BadEnd { bit: place }
            | Self::OverLimit { bit: place }
            | Self::ManyBoxes { boxes: place }
            | Self::LongList { rule: place }
            | Self::NoRoom { needed: place }
            | Self::NoLine { rule: place }
            | Self::Overlap { rule: place }
            | Self::LongComment { rule: place }
            | Self::ManyLists { rule: place } => place,
            Self::NoDate | Self::Unsettled | Self::PastCounts => 0,
        }
    }
}

impl Display for Refusal {
    fn fmt(&self, text: &mut Formatter<'_>) -> Result {
        match self {
            Self::PastEnd { bit } => write!(text, "the field at bit {bit} runs past the end"),
            Self::Unlawful { bit } => write!(text, "the field at bit {bit} has an unlawful value"),
            Self::BadEnd { bit } => {
                write!(text, "the sheet does not end as it should at bit {bit}")
            }
            Self::OverLimit { bit } => write!(text, "the count at bit {bit} passes its limit"),
            Self::ManyBoxes { boxes } => write!(text, "the rules cut {boxes} boxes, over 4096"),
            Self::LongList { rule } => {
                write!(text, "rule {rule} makes a point's list pass 32 entries")
            }
            Self::NoRoom { needed } => write!(text, "the buffer needs {needed} bytes"),
            Self::NoDate => write!(text, "there is no such date or minute"),
            Self::Unsettled => write!(text, "the rules do not settle the state"),
            Self::NoLine { rule } => write!(text, "rule {rule} can't be said in a line"),
            Self::Overlap { rule } => write!(text, "rule {rule} names a day twice"),
            Self::LongComment { rule } => write!(text, "rule {rule} has a comment above 65535"),
            Self::PastCounts => {
                write!(
                    text,
                    "the result has more rules or items than form 1 can count"
                )
            }
            Self::ManyLists { rule } => write!(text, "rule {rule} makes the lists pass 512"),
        }
    }
}

impl Error for Refusal {}
