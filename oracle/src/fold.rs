//! A sheet folded by the functions of docs/src, from its bytes to the bytes of the result.

use alloc::collections::VecDeque;

use crate::bits::BitWriter;
use crate::form::Form;
use crate::normalize::{canonical_to_ruleseq, drain_ruleseq_into_canonical};
use crate::outside::Outside;
use crate::rules::{OpeningHoursExpression, RuleSequence};
use crate::sheet_reader::read_sheet;
use crate::sheet_writer::{most_items, write_rules, write_sheet};

/// The fold's counts and its result, the folded rules first and those left after them.
pub struct Folded<Result> {
    pub drained: usize,
    pub emitted: usize,
    pub left: usize,
    /// The most items of a sort, or spans, that a rule of the result has.
    pub most_items: usize,
    pub result: Result,
}

impl<Result> Folded<Result> {
    /// Whether the counts of a form can carry the result.
    pub fn is_counted_in(&self, form: Form) -> bool {
        let has_room = |count: usize, width| count >> width == 0;

        has_room(self.emitted + self.left, form.rule_count_width())
            && has_room(self.most_items, form.item_count_width())
    }
}

/// A sheet's fold with its counts, the result before its last byte is filled, or why the sheet is outside the Rust. There is no result where
/// the form's counts can't carry it.
pub fn fold_sheet(form: Form, sheet: &[u8]) -> Result<Folded<Option<BitWriter>>, Outside> {
    let folded = fold_rules(read_sheet(form, sheet)?);
    let result = folded
        .is_counted_in(form)
        .then(|| write_rules(form, &folded.result));

    Ok(Folded {
        drained: folded.drained,
        emitted: folded.emitted,
        left: folded.left,
        most_items: folded.most_items,
        result,
    })
}

/// A sheet's fold by `OpeningHoursExpression::normalize` itself, or why the sheet is outside the Rust.
pub fn normalize_sheet(form: Form, sheet: &[u8]) -> Result<Vec<u8>, Outside> {
    let expression = read_expression(form, sheet)?;
    Ok(write_sheet(form, &expression.normalize().rules))
}

/// A sheet as a value of the Rust, or why there is none.
pub fn read_expression(form: Form, sheet: &[u8]) -> Result<OpeningHoursExpression, Outside> {
    read_sheet(form, sheet).map(|rules| OpeningHoursExpression { rules })
}

/// Takes the two steps of `OpeningHoursExpression::normalize` one by one, for the counts between them.
pub(crate) fn fold_rules(rules: Vec<RuleSequence>) -> Folded<Vec<RuleSequence>> {
    let count = rules.len();
    let mut left: VecDeque<RuleSequence> = rules.into();
    let canonical = drain_ruleseq_into_canonical(&mut left);
    let mut result = canonical_to_ruleseq(canonical);

    let (emitted, left_count) = (result.len(), left.len());
    result.extend(left);

    Folded {
        drained: count - left_count,
        emitted,
        left: left_count,
        most_items: most_items(&result),
        result,
    }
}
