//! What a run met of large sheets, document 02's M-107: how many rules sheets had and how many boxes their folds, and beyond which limits of
//! before.

use std::fmt::{Display, Formatter, Result};

use crate::sizes::Sizes;

/// The limits of document 01, above which a sheet is large.
const SMALL_RULES: usize = 64;
const SMALL_BOXES: usize = 1024;

#[derive(Default)]
pub struct Large {
    rules: Sizes,
    boxes: Sizes,
    more_rules: u64,
    more_boxes: u64,
}

impl Large {
    /// Of an accepted sheet.
    pub fn sheet(&mut self, rules: usize) {
        self.rules.count(rules as u64);
        self.more_rules += u64::from(rules > SMALL_RULES);
    }

    /// Of an accepted fold.
    pub fn fold(&mut self, boxes: usize) {
        self.boxes.count(boxes as u64);
        self.more_boxes += u64::from(boxes > SMALL_BOXES);
    }

    pub fn add(&mut self, other: &Self) {
        self.rules.add(&other.rules);
        self.boxes.add(&other.boxes);
        self.more_rules += other.more_rules;
        self.more_boxes += other.more_boxes;
    }
}

impl Display for Large {
    fn fmt(&self, f: &mut Formatter<'_>) -> Result {
        writeln!(f, "  rules of accepted sheets {}", self.rules)?;
        writeln!(f, "  boxes of accepted folds {}", self.boxes)?;
        write!(
            f,
            "  accepted sheets of more than {SMALL_RULES} rules: {}, folds of more than {SMALL_BOXES} boxes: {}",
            self.more_rules, self.more_boxes
        )
    }
}
