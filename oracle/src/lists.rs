//! The Rust's own lists after each drained rule, as document 02's M-108 counts them: "512 distinct non-empty lists over all points, counted
//! after each drained rule; two lists are equal when the same rule indexes stand in them in the same order."
//!
//! A list of the Rust holds states and times and no indexes. So each rule gets its index for a comment before it is drained: then lists that
//! differ in an index differ, and no others do.

use alloc::collections::{BTreeSet, VecDeque};
use alloc::sync::Arc;

use crate::form::Form;
use crate::normalize::canonical_time::TimeRules;
use crate::normalize::drain_ruleseq_into_canonical;
use crate::normalize::paving::Paving;
use crate::outside::Outside;
use crate::rules::RuleSequence;
use crate::sheet_reader::read_sheet;

/// The lists that stand after a rule: how many differ, the empty one aside, and how long the longest is.
#[derive(Clone, Copy, Debug, PartialEq, Eq)]
pub struct Standing {
    pub different: usize,
    pub longest: usize,
}

/// What stands after each drained rule of a sheet, or why the sheet is outside the Rust.
pub fn lists_of_sheet(form: Form, sheet: &[u8]) -> Result<Vec<Standing>, Outside> {
    Ok(after_each_rule(read_sheet(form, sheet)?))
}

/// Drains the first rule, the first two, and so on to all that can be drained.
pub(crate) fn after_each_rule(mut rules: Vec<RuleSequence>) -> Vec<Standing> {
    rules.truncate(count_drained(&rules));
    for (index, rule) in rules.iter_mut().enumerate() {
        rule.comment = index.to_string().into();
    }

    (1..=rules.len())
        .map(|count| after_all(&rules[..count]))
        .collect()
}

fn count_drained(rules: &[RuleSequence]) -> usize {
    let mut left: VecDeque<RuleSequence> = rules.to_vec().into();
    drain_ruleseq_into_canonical(&mut left);
    rules.len() - left.len()
}

fn after_all(rules: &[RuleSequence]) -> Standing {
    let mut left: VecDeque<RuleSequence> = rules.to_vec().into();
    let mut lists = BTreeSet::new();
    drain_ruleseq_into_canonical(&mut left).map(|list| {
        lists.insert(comments_of(list));
    });
    lists.remove(&Vec::new());

    Standing {
        different: lists.len(),
        longest: lists.iter().map(Vec::len).max().unwrap_or(0),
    }
}

fn comments_of(list: TimeRules) -> Vec<Arc<str>> {
    list.into_iter().map(|((_, comment), _)| comment).collect()
}

#[cfg(test)]
mod tests {
    use crate::answer::lists_line;
    use crate::form::Form;

    #[track_caller]
    fn stand(sheet: &str, lists: &str) {
        assert_eq!(lists_line(Form::One, sheet), lists);
    }

    #[test]
    fn lists_are_counted_after_each_rule_and_told_apart_by_indexes() {
        stand("0000", "");
        // P2: on Tuesdays the second rule is appended.
        stand(
            "0002000000000000001004200007FE25821C020000000000000200890000FFC5A030C0",
            "1 1,2 2",
        );
        // The same rule twice on every day, Normal, then Additional.
        stand("0002000000000000000000000000000000000000", "1 1,1 1");
        stand("0002400000000000000001000000000000000000", "1 1,1 2");
        // Mo, Tu, Tu: rules that say the same make lists that differ.
        stand(
            "0003400000000000001000000007FE80000000000000200090000FFD00000000000000400120001FF8",
            "1 1,2 1,2 2",
        );
        // Mo, Tu, a Normal rule that replaces both, Mo, and a Fallback that is left.
        stand(
            "0005400000000000001000000007FE80000000000000200090000FFC00000000000000000400000000000001000000007FF0000000000000000000",
            "1 1,2 1,1 1,2 2",
        );
    }
}
