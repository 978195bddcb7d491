//! What a run met of ranges that share values or touch: where 11 was given, in which selectors, and what it hid.

use std::fmt::{Display, Formatter, Result};

use crate::expected::Accepted;
use crate::overlap::{only_touch, overlaps, share_a_value};
use crate::points::selector_of;
use crate::rule::{MONTHS, Rule};
use crate::sizes::{Sizes, add_each, met};

/// In the order of the dimensions.
const SELECTORS: [&str; 4] = ["weekdays", "weeks", "months", "years"];

/// The codes that 11 comes before.
const HIDDEN: [u64; 3] = [5, 6, 14];

#[derive(Default)]
pub struct Overlaps {
    refused: u64,
    places: Sizes,
    selectors: [u64; SELECTORS.len()],
    /// How often the limits would have refused, by each of the codes.
    hidden: [u64; HIDDEN.len()],
    touching: u64,
    in_rules_left: u64,
}

impl Overlaps {
    pub fn count(&mut self, accepted: &Accepted, is_folded: bool) {
        let selectors = accepted.selectors();

        if let Some(first) = selectors.iter().position(overlaps) {
            let shared = selectors[first]
                .each_ref()
                .map(|ranges| share_a_value(ranges).into());
            add_each(&mut self.selectors, &shared);
            self.refused += 1;
            self.places.count(first as u64);

            let hidden = accepted.past_a_limit().map(|refusal| refusal.code);
            let codes = HIDDEN.map(|code| u64::from(hidden == Some(code)));
            add_each(&mut self.hidden, &codes);
        } else if is_folded {
            let touching = selectors.iter().flatten().any(|ranges| only_touch(ranges));
            let in_rules_left = accepted.left().iter().any(ranges_overlap);
            self.touching += u64::from(touching);
            self.in_rules_left += u64::from(in_rules_left);
        }
    }

    pub fn add(&mut self, other: &Self) {
        self.refused += other.refused;
        self.places.add(&other.places);
        add_each(&mut self.selectors, &other.selectors);
        add_each(&mut self.hidden, &other.hidden);
        self.touching += other.touching;
        self.in_rules_left += other.in_rules_left;
    }
}

/// Of a rule left, whose holidays, dated months and references are no ranges.
fn ranges_overlap(rule: &Rule) -> bool {
    let mut ranges = rule.clone();
    ranges.monthdays.retain(|item| item.tag == MONTHS);
    ranges.weekdays.retain(|item| item.tag == 0);

    overlaps(&selector_of(&ranges))
}

impl Display for Overlaps {
    fn fmt(&self, f: &mut Formatter<'_>) -> Result {
        if self.refused > 0 {
            let selectors = SELECTORS.into_iter().zip(self.selectors);
            let hidden = HIDDEN.into_iter().zip(self.hidden);
            writeln!(f, "  folds refused by 11 at rule {}", self.places)?;
            writeln!(f, "  folds refused by 11 for {}", met(selectors))?;
            writeln!(f, "  folds refused by 11 before {}", met(hidden))?;
        }
        write!(
            f,
            "  folds of ranges that touch: {}, with overlaps in rules left: {}",
            self.touching, self.in_rules_left
        )
    }
}
