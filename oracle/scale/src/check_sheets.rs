//! The sheets of the bench that are checked alone, the largest accepted one among them.

use crate::bench_sheets::{
    BenchSheet, MANY_RULES, all_dimensions, landing_site, landing_site_of_form_2, named,
    worked_day_p2,
};
use crate::rule::{DATED, ITEM_LIMIT, Monthday, RULE_LIMIT, Rule, Span, Time, range, weekdays};

pub fn check_sheets() -> Vec<BenchSheet> {
    let mut sheets = named([
        ("two rules (P2)", worked_day_p2()),
        ("20 rules of a landing site", landing_site()),
        ("64 rules, in all dimensions", all_dimensions()),
        ("64 full rules", full_rules(MANY_RULES as usize)),
        ("256 full rules, the largest sheet", full_rules(RULE_LIMIT)),
    ]);

    sheets.push(landing_site_of_form_2());
    sheets
}

/// So many rules of as many items and spans as there may be, each of the sort that takes most bits.
pub fn full_rules(count: usize) -> Vec<Rule> {
    let reference = Monthday {
        tag: DATED,
        ..Monthday::default()
    };
    let event = Time {
        tag: 1,
        ..Time::default()
    };
    let span = Span {
        start: event.clone(),
        end: event,
        repeats_flag: 1,
        ..Span::default()
    };
    let rule = Rule {
        years: vec![range(1900, 9999); ITEM_LIMIT],
        monthdays: vec![reference; ITEM_LIMIT],
        weeks: vec![range(1, 53); ITEM_LIMIT],
        weekdays: vec![weekdays(0, 6); ITEM_LIMIT],
        spans: vec![span; ITEM_LIMIT],
        ..Rule::default()
    };

    vec![rule; count]
}

#[cfg(test)]
mod tests {
    use oracle::form::Form;

    use super::*;
    use crate::sheet::write_sheet;

    /// 70 bits of a rule's head, and 16 times 44 of a year, 34 of a monthday, 20 of a week, 33 of a weekday and 52 of a span; and the count
    /// of rules. In form 2 a rule's head has 18 bits more, and head and count of the sheet have 28.
    #[test]
    fn largest() {
        let bytes = |form, count| write_sheet(form, full_rules(count)).len();
        assert_eq!(bytes(Form::One, 64), 23_986);
        assert_eq!(bytes(Form::One, RULE_LIMIT), (16 + 256 * 2998) / 8);
        assert_eq!(
            bytes(Form::Two, RULE_LIMIT),
            (28 + 256 * 3016_usize).div_ceil(8)
        );
    }
}
