//! A sheet moved to the other form, document 02's M-106: "Stored sheets move to form 2 and back, each giving the original bytes when
//! returned. .. Refusals: .. 12, going back, exactly when a comment is above 65,535; place the first such rule's index; after 3, before 7."

use oracle::form::Form;

use crate::layout::Refusal;
use crate::rule::Rule;
use crate::sheet::write_sheet;

pub const LONG_COMMENT: u64 = 12;
/// The last comment that form 1 has room for.
pub const LAST_SHORT_COMMENT: u32 = 65_535;

/// The sheet of these rules in a form, or its refusal by 12.
pub fn moved_to(form: Form, rules: &[Rule]) -> Result<Vec<u8>, Refusal> {
    let first_long = rules.iter().position(has_long_comment);

    match (form, first_long) {
        (Form::One, Some(index)) => Err(Refusal::at(LONG_COMMENT, index)),
        _ => Ok(write_sheet(form, rules.to_vec())),
    }
}

pub fn has_long_comment(rule: &Rule) -> bool {
    rule.comment > LAST_SHORT_COMMENT
}
