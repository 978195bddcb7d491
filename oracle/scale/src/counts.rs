//! What form 1 can't count of a result, document 02's M-107: "13, form 1 only, exactly when the result has more than 65,535 rules or a rule
//! with more than 1,023 items of a sort; place 0; after 9, before 7." The counts are those of the Rust's own result.

use oracle::fold::Folded;
use oracle::form::Form;

use crate::layout::Refusal;

pub const PAST_COUNTS: u64 = 13;
pub const MOST_RULES: usize = 65_535;
pub const MOST_ITEMS: usize = 1_023;

/// Refuses a result of form 1 that has more rules, left ones among them, or more items of a sort in a rule.
pub fn check_counts<T>(form: Form, folded: &Folded<T>) -> Result<(), Refusal> {
    let rules = folded.emitted + folded.left;

    match form {
        Form::One if rules > MOST_RULES || folded.most_items > MOST_ITEMS => {
            Err(Refusal::at(PAST_COUNTS, 0))
        }
        _ => Ok(()),
    }
}
