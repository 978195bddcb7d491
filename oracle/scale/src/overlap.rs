//! Planners typing the same days twice, document 02's M-101: "Two ranges of one selector that share a value in a drained rule are refused;
//! ranges that only touch are fine, and rules left may overlap. .. Refusals: 11, place the first such rule's index; after 8, before 5."
//!
//! The Rust folds such rules. This writing shares nothing with oracle/reference/overlap.py, which it is held against by the stored answers:
//! there the values of each two items are compared, here all ranges of a dimension are put in order, and each begins behind the one before.

use std::ops::Range;

use crate::layout::Refusal;
use crate::points::Selector;

pub const RANGES_SHARE: u64 = 11;

/// Refuses the first drained rule that overlaps.
pub fn check_overlaps(drained: &[Selector]) -> Result<(), Refusal> {
    match drained.iter().position(overlaps) {
        Some(index) => Err(Refusal::at(RANGES_SHARE, index)),
        None => Ok(()),
    }
}

pub fn overlaps(selector: &Selector) -> bool {
    selector.iter().any(|ranges| share_a_value(ranges))
}

/// Whether two of the ranges share a value. The two parts of an item that wraps never do, so that they need not be told from others.
pub fn share_a_value(ranges: &[Range<u32>]) -> bool {
    any_neighbours(ranges, |one, next| next.start < one.end)
}

/// Whether one of the ranges begins where another ends, and no two share a value.
pub fn only_touch(ranges: &[Range<u32>]) -> bool {
    !share_a_value(ranges) && any_neighbours(ranges, |one, next| next.start == one.end)
}

/// Whether it holds of a range and the next one, in the order of their starts.
fn any_neighbours(ranges: &[Range<u32>], holds: impl Fn(&Range<u32>, &Range<u32>) -> bool) -> bool {
    let mut rising = ranges.to_vec();
    rising.sort_unstable_by_key(|range| range.start);
    rising.windows(2).any(|pair| holds(&pair[0], &pair[1]))
}

#[cfg(test)]
mod tests {
    use super::*;
    use crate::points::selector_of;
    use crate::rule::{Rule, fixed, months, range, weekdays};

    fn on(days: &[(u32, u32)]) -> Rule {
        Rule {
            weekdays: days
                .iter()
                .map(|(start, end)| weekdays(*start, *end))
                .collect(),
            ..Rule::default()
        }
    }

    fn place_of(rules: &[Rule]) -> Option<u64> {
        let selectors: Vec<Selector> = rules.iter().map(selector_of).collect();
        check_overlaps(&selectors)
            .err()
            .map(|refusal| refusal.place)
    }

    #[test]
    fn weekdays_share_or_only_touch() {
        let sharing: [&[(u32, u32)]; 8] = [
            &[(0, 2), (1, 3)],
            &[(1, 3), (0, 2)],
            &[(4, 0), (0, 1)],
            &[(4, 0), (6, 0)],
            &[(0, 6), (2, 2)],
            &[(4, 3), (2, 2)],
            &[(2, 2), (5, 5), (2, 2)],
            &[(0, 5), (1, 1), (6, 6)],
        ];
        for days in sharing {
            assert_eq!(place_of(&[on(days)]), Some(0), "{days:?}");
        }

        let apart: [&[(u32, u32)]; 6] = [
            &[],
            &[(4, 3)],
            &[(0, 2), (3, 4)],
            &[(3, 4), (0, 2)],
            &[(4, 0), (1, 2)],
            &[(6, 0), (1, 5)],
        ];
        for days in apart {
            assert_eq!(place_of(&[on(days)]), None, "{days:?}");
        }
    }

    #[test]
    fn each_selector_is_asked_by_itself() {
        let numbers = Rule {
            years: vec![range(2000, 2001)],
            monthdays: vec![months(1, 2)],
            weeks: vec![range(1, 2)],
            weekdays: vec![weekdays(1, 2)],
            spans: vec![fixed(600, 720), fixed(600, 720)],
            ..Rule::default()
        };
        assert_eq!(place_of(&[numbers.clone(), numbers.clone()]), None);

        let mut doubled = [(); 4].map(|()| numbers.clone());
        doubled[0].years.push(range(2001, 1999));
        doubled[1].monthdays.push(months(2, 12));
        doubled[2].weeks.push(range(50, 1));
        doubled[3].weekdays.push(weekdays(2, 2));
        for rule in doubled {
            assert_eq!(
                place_of(&[numbers.clone(), rule.clone(), numbers.clone(), rule]),
                Some(1)
            );
        }
    }

    #[test]
    fn ranges_that_touch() {
        assert!(only_touch(&[3..5, 1..3]));
        assert!(!only_touch(&[1..3, 4..5]));
        assert!(!only_touch(&[1..3, 3..5, 4..6]));
    }
}
