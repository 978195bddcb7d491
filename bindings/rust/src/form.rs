//! The two forms of a packed sheet, of document 02.

/// The form of a packed sheet. Form 2 begins with the four bits 0010; its rule count has 24 bits where form 1's has 16, its comments 24 where
/// form 1's have 16, and the five counts of a rule 12 where form 1's have 10. All else is the same, the limits too.
#[derive(Clone, Copy, Debug, PartialEq, Eq)]
pub enum Form {
    /// Comments up to 65,535.
    One = 1,
    /// Comments up to 16,777,215.
    Two = 2,
}

impl Form {
    /// The number, 1 or 2.
    #[must_use]
    pub fn number(self) -> u64 {
        self as u64
    }

    /// The one that [`convert`](crate::convert) writes for a sheet of this one.
    #[must_use]
    pub fn other(self) -> Self {
        match self {
            Self::One => Self::Two,
            Self::Two => Self::One,
        }
    }
}
