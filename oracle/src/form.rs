//! The two forms of a packed sheet, document 02's M-106: "Form 2 of the packed sheet starts with the four bits 0010, then a rule count of 24
//! bits; comments have 24 bits and the five counts 12 each; the rest is as in form 1."

#[derive(Clone, Copy, Debug, PartialEq, Eq)]
pub enum Form {
    One = 1,
    Two = 2,
}

/// The field that a form begins with: its width, and what it holds.
#[derive(Clone, Copy)]
pub struct Head {
    pub width: usize,
    pub value: u32,
}

impl Form {
    /// The form of a number, where there is one.
    pub fn of(number: u64) -> Option<Self> {
        match number {
            1 => Some(Self::One),
            2 => Some(Self::Two),
            _ => None,
        }
    }

    pub fn number(self) -> u64 {
        self as u64
    }

    pub fn other(self) -> Self {
        match self {
            Self::One => Self::Two,
            Self::Two => Self::One,
        }
    }

    pub fn head(self) -> Option<Head> {
        match self {
            Self::One => None,
            Self::Two => Some(Head {
                width: 4,
                value: 0b0010,
            }),
        }
    }

    /// The first bit of the rule count.
    pub fn rule_count_place(self) -> usize {
        self.head().map_or(0, |head| head.width)
    }

    pub fn rule_count_width(self) -> usize {
        match self {
            Self::One => 16,
            Self::Two => 24,
        }
    }

    pub fn comment_width(self) -> usize {
        match self {
            Self::One => 16,
            Self::Two => 24,
        }
    }

    /// Of each of a rule's five counts.
    pub fn item_count_width(self) -> usize {
        match self {
            Self::One => 10,
            Self::Two => 12,
        }
    }
}
