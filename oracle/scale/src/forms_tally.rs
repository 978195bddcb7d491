//! What a run met of the two forms: sheets of each, conversions, comments on both sides of what form 1 has room for, and forms that are none.

use std::fmt::{Display, Formatter, Result};

use oracle::form::Form;

use crate::answer::Answer;
use crate::convert::{LAST_SHORT_COMMENT, LONG_COMMENT, has_long_comment};
use crate::rule::Rule;
use crate::sizes::{Sizes, add_each, met};
use crate::tally::{CODES, by_code};

#[derive(Default)]
pub struct Forms {
    /// Folds of sheets that were moved to the other form, and those of which form 1 can't count the result.
    folds_moved: u64,
    folded_in_one: u64,
    /// Sheets given in a form that is none, to all functions.
    pub refused: u64,
    /// How many sheets were given in form 1, and in form 2.
    sheets: [u64; 2],
    codes: [u64; CODES],
    places: Sizes,
    /// Rules whose comment is the last that form 1 has room for, the first that it has none for, and any of the latter.
    comments: [u64; 3],
    with_long_comments: u64,
}

impl Forms {
    pub fn conversion(&mut self, form: u64, numbers: &[u64]) {
        let [code, _, place] = numbers else {
            unreachable!("a conversion answers three numbers");
        };
        let sheets = [Form::One, Form::Two].map(|each| u64::from(each.number() == form));

        add_each(&mut self.sheets, &sheets);
        self.codes[*code as usize] += 1;
        if *code == LONG_COMMENT {
            self.places.count(*place);
        }
    }

    /// The same sheet folded in its form, and in the other one.
    pub fn fold_moved(&mut self, here: &Answer, there: &Answer) {
        self.folds_moved += 1;
        self.folded_in_one += u64::from(here.numbers[0] != there.numbers[0]);
    }

    /// Those of an accepted sheet.
    pub fn comments(&mut self, rules: &[Rule]) {
        for rule in rules {
            let comment = rule.comment;
            let sorts = [
                comment == LAST_SHORT_COMMENT,
                comment == LAST_SHORT_COMMENT + 1,
                has_long_comment(rule),
            ];
            add_each(&mut self.comments, &sorts.map(u64::from));
        }
        self.with_long_comments += u64::from(rules.iter().any(has_long_comment));
    }

    pub fn add(&mut self, other: &Self) {
        self.folds_moved += other.folds_moved;
        self.folded_in_one += other.folded_in_one;
        self.refused += other.refused;
        add_each(&mut self.sheets, &other.sheets);
        add_each(&mut self.codes, &other.codes);
        self.places.add(&other.places);
        add_each(&mut self.comments, &other.comments);
        self.with_long_comments += other.with_long_comments;
    }
}

impl Display for Forms {
    fn fmt(&self, f: &mut Formatter<'_>) -> Result {
        let [last_short, first_long, long] = self.comments;
        let sheets = [Form::One, Form::Two].map(Form::number);

        writeln!(
            f,
            "  sheets in form {}",
            met(sheets.into_iter().zip(self.sheets))
        )?;
        writeln!(f, "  conversions by code: {}", by_code(&self.codes))?;
        if self.codes[LONG_COMMENT as usize] > 0 {
            writeln!(f, "  conversions refused by 12 at rule {}", self.places)?;
        }
        writeln!(
            f,
            "  comments of 65535: {last_short}, of 65536: {first_long}, above 65535: {long}, in {} sheets",
            self.with_long_comments
        )?;
        writeln!(
            f,
            "  folds of sheets moved to the other form: {}, of them {} refused by 13 in form 1 alone",
            self.folds_moved, self.folded_in_one
        )?;
        write!(f, "  sheets given in a form that is none: {}", self.refused)
    }
}
