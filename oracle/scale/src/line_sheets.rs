//! The sheets of the bench that have a line. The Rust has no writer of such lines, so that the archive is timed alone.

use crate::bench_sheets::{
    BenchSheet, MANY_RULES, all_dimensions, landing_site, named, worked_day_p2,
};
use crate::rule::{
    FALLBACK, ITEM_LIMIT, NORMAL, RULE_LIMIT, Rule, Span, Stepped, UNKNOWN, fixed, months, weekdays,
};

pub fn line_sheets() -> Vec<BenchSheet> {
    named([
        ("two rules (P2)", worked_day_p2()),
        ("19 rules of a landing site", landing_site_by_the_clock()),
        ("64 rules, in all dimensions", all_dimensions()),
        ("64 full rules", long_line(MANY_RULES as usize)),
        ("256 full rules, the longest line", long_line(RULE_LIMIT)),
    ])
}

/// A line can't say from dusk on.
fn landing_site_by_the_clock() -> Vec<Rule> {
    let mut rules = landing_site();
    rules.retain(|rule| rule.spans.iter().all(|span| span.start.tag == 0));
    rules
}

/// So many rules of as many items and spans as there may be, each as long as it can be written.
fn long_line(count: usize) -> Vec<Rule> {
    let stepped = |start, end, step| vec![Stepped { start, end, step }; ITEM_LIMIT];
    let span = Span {
        open_end: 1,
        ..fixed(2879, 2880)
    };
    let rule = Rule {
        operator: FALLBACK,
        kind: UNKNOWN,
        comment: 65535,
        years: stepped(1900, 9999, 65535),
        monthdays: vec![months(11, 2); ITEM_LIMIT],
        weeks: stepped(52, 2, 255),
        weekdays: vec![weekdays(4, 0); ITEM_LIMIT],
        spans: vec![span; ITEM_LIMIT],
    };

    let mut rules = vec![rule; count];
    rules[0].operator = NORMAL;
    rules
}

#[cfg(test)]
mod tests {
    use super::*;
    use crate::line::line_of;

    /// 255 bytes of years, 127 of months, 164 of weeks, 95 of weekdays, 207 of spans, 4 spaces between them, 16 for kind and comment; and
    /// ` || ` before each rule but the first.
    #[test]
    fn longest() {
        for count in [64, RULE_LIMIT] {
            let line = line_of(&long_line(count)).expect("it has a line");
            assert_eq!(line.len(), count * 868 + (count - 1) * 4);
        }
    }
}
