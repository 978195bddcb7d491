//! The answers of the oracle: each calls the functions of docs/src and prints what they gave.

use crate::bits::{from_hex, to_hex};
use crate::fold::fold_rules;
use crate::form::Form;
use crate::lists::{Standing, after_each_rule};
use crate::normalize::canonical_time::normalize_time_rules;
use crate::outside::Outside;
use crate::rules::day::DaySelector;
use crate::rules::{OpeningHoursExpression, RuleOperator, RuleSequence};
use crate::sheet_reader::read_sheet;
use crate::sheet_writer::write_sheet;

/// `DRAINED EMITTED LEFT RESULTHEX` for a sheet in hex, `DRAINED EMITTED LEFT items MOST` where the form's counts can't carry the result,
/// of which a rule has so many items of a sort at most, or why the sheet is outside the Rust.
pub fn fold_line(form: Form, line: &str) -> String {
    answer(form, line, |rules| fold(form, rules))
}

/// `RESULTHEX` for a sheet in hex, the day of all its rules as one list, or why it is outside the Rust.
pub fn day_line(form: Form, line: &str) -> String {
    answer(form, line, |rules| {
        to_hex(&write_sheet(form, &day_of_all(rules)))
    })
}

/// `DIFFERENT LONGEST` after each drained rule of a sheet in hex, a comma between two, or why the sheet is outside the Rust: how many lists
/// differ, the empty one aside, and how many entries the longest has.
pub fn lists_line(form: Form, line: &str) -> String {
    let told = |standing: &Standing| format!("{} {}", standing.different, standing.longest);

    answer(form, line, |rules| {
        let after_each: Vec<String> = after_each_rule(rules).iter().map(told).collect();
        after_each.join(",")
    })
}

fn answer(form: Form, line: &str, of_rules: impl FnOnce(Vec<RuleSequence>) -> String) -> String {
    let _named = NamedOnPanic(line);

    let rules = from_hex(line)
        .ok_or(Outside::NotHex)
        .and_then(|bytes| read_sheet(form, &bytes));

    match rules {
        Ok(rules) => of_rules(rules),
        Err(reason) => format!("outside {reason}"),
    }
}

/// The fold's counts and its result, which `OpeningHoursExpression::normalize` must give as well.
fn fold(form: Form, rules: Vec<RuleSequence>) -> String {
    let folded = fold_rules(rules.clone());

    assert!(
        OpeningHoursExpression { rules }.normalize().rules == folded.result,
        "the two steps and normalize() must give the same rules"
    );

    let result = match folded.is_counted_in(form) {
        true => to_hex(&write_sheet(form, &folded.result)),
        false => format!("items {}", folded.most_items),
    };

    format!(
        "{} {} {} {result}",
        folded.drained, folded.emitted, folded.left
    )
}

/// The canonical day of the list of all rules, whatever their days and operators, written as rules without day items.
fn day_of_all(rules: Vec<RuleSequence>) -> Vec<RuleSequence> {
    let list = rules
        .into_iter()
        .map(|rule| ((rule.kind, rule.comment), rule.time_selector))
        .collect();

    let rule_of_entry = |(place, ((kind, comment), time_selector))| RuleSequence {
        day_selector: DaySelector::default(),
        time_selector,
        kind,
        operator: match place {
            0 => RuleOperator::Normal,
            _ => RuleOperator::Additional,
        },
        comment,
    };

    normalize_time_rules(list)
        .into_iter()
        .enumerate()
        .map(rule_of_entry)
        .collect()
}

/// Names the sheet on which the oracle stumbled, among the many of a run.
struct NamedOnPanic<'a>(&'a str);

impl Drop for NamedOnPanic<'_> {
    fn drop(&mut self) {
        if std::thread::panicking() {
            eprintln!("oracle: stumbled over the sheet {}", self.0);
        }
    }
}
