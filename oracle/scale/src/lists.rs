//! Room for lists used again, document 02's M-108: "The limit is 512 distinct non-empty lists over all points, counted after each drained
//! rule; two lists are equal when the same rule indexes stand in them in the same order. .. Refusals: 14, when the count passes 512 after a
//! drained rule; place that rule's index. 6 and 14 are judged rule by rule, 6 first at the same rule; the first met is given, in the old place
//! of 6."
//!
//! This writing shares nothing with oracle/reference/lists.py, which it is held against by the stored answers: there the lists themselves are
//! compared, here they have numbers. What a rule makes of two boxes is the same list exactly where it was the same before or the rule replaces
//! it, since no other rule puts this one's index into a list.

use std::collections::HashMap;

use crate::layout::Refusal;

pub const LIST_LIMIT: usize = 32;
pub const DIFFERENT_LIMIT: usize = 512;
pub const LIST_TOO_LONG: u64 = 6;
pub const TOO_MANY_LISTS: u64 = 14;

/// The lists of all boxes after some rules.
#[derive(Clone)]
pub struct Lists {
    /// The number of each box's list. That of the empty list is 0.
    of_boxes: Vec<usize>,
    /// The length of each list that there was, by its number.
    lengths: Vec<usize>,
}

impl Lists {
    pub fn before_any_rule(boxes: usize) -> Self {
        Self {
            of_boxes: vec![0; boxes],
            lengths: vec![0],
        }
    }

    /// One more rule, which covers each box in so many combinations of ranges and replaces lists or appends to them.
    pub fn draw(&mut self, replaces: bool, combinations: &[usize]) {
        let mut made = HashMap::new();

        for (list, times) in self.of_boxes.iter_mut().zip(combinations) {
            if *times == 0 {
                continue;
            }
            let (from, length) = match replaces {
                true => (None, 1),
                false => (Some((*list, times)), self.lengths[*list] + times),
            };
            *list = *made.entry(from).or_insert_with(|| {
                self.lengths.push(length);
                self.lengths.len() - 1
            });
        }
    }

    /// How many lists differ, the empty one aside.
    pub fn different(&self) -> usize {
        let mut stands = vec![false; self.lengths.len()];
        for list in &self.of_boxes {
            stands[*list] = true;
        }
        stands.iter().skip(1).filter(|stands| **stands).count()
    }

    pub fn longest(&self) -> usize {
        let lengths = self.of_boxes.iter().map(|list| self.lengths[*list]);
        lengths.max().unwrap_or(0)
    }

    /// How many there were so far, whether or not a box still has them.
    pub fn made(&self) -> usize {
        self.lengths.len() - 1
    }
}

/// What the lists were after each of the drained rules.
#[derive(Clone, Copy, Default)]
pub struct ListCounts {
    /// The longest after any rule, the most that differed after any rule, and how many there were in all.
    pub longest: usize,
    pub most: usize,
    pub made: usize,
    /// The first rule after which a list was too long, the first after which too many differed, and how many these were.
    pub too_long: Option<usize>,
    pub too_many: Option<usize>,
    pub first_too_many: usize,
}

impl ListCounts {
    pub fn count(&mut self, rule: usize, lists: &Lists) {
        let (longest, different) = (lists.longest(), lists.different());

        self.longest = self.longest.max(longest);
        self.most = self.most.max(different);
        self.made = lists.made();
        if longest > LIST_LIMIT {
            self.too_long.get_or_insert(rule);
        }
        if different > DIFFERENT_LIMIT && self.too_many.is_none() {
            self.too_many = Some(rule);
            self.first_too_many = different;
        }
    }

    /// Refuses by the earlier of the two rules, by the length where they are one.
    pub fn check(&self) -> Result<(), Refusal> {
        match (self.too_long, self.too_many) {
            (None, None) => Ok(()),
            (Some(rule), None) => Err(Refusal::at(LIST_TOO_LONG, rule)),
            (None, Some(rule)) => Err(Refusal::at(TOO_MANY_LISTS, rule)),
            (Some(long), Some(many)) if long <= many => Err(Refusal::at(LIST_TOO_LONG, long)),
            (Some(_), Some(many)) => Err(Refusal::at(TOO_MANY_LISTS, many)),
        }
    }
}

#[cfg(test)]
mod tests {
    use oracle::form::Form;
    use oracle::lists::lists_of_sheet;

    use super::*;
    use crate::many_lists::MANY_LISTS;
    use crate::overlapping::take_overlaps;
    use crate::points::{Selector, counts_of_lists, cuts_of, selector_of};
    use crate::random::Random;
    use crate::recipes::rules;
    use crate::rule::Rule;
    use crate::sheet::write_sheet;
    use crate::why::stops;

    const SHEETS: u64 = 60;
    /// The Rust drains anew for each rule, so that many rules over many boxes take long.
    const FEW_RULES: usize = 80;

    fn checked(too_long: Option<usize>, too_many: Option<usize>) -> Option<(u64, u64)> {
        let counts = ListCounts {
            too_long,
            too_many,
            ..ListCounts::default()
        };
        counts
            .check()
            .err()
            .map(|refusal| (refusal.code, refusal.place))
    }

    #[test]
    fn the_earlier_rule_is_refused_and_6_comes_first_at_the_same() {
        assert_eq!(checked(None, None), None);
        assert_eq!(checked(Some(3), None), Some((6, 3)));
        assert_eq!(checked(None, Some(0)), Some((14, 0)));
        assert_eq!(checked(Some(3), Some(4)), Some((6, 3)));
        assert_eq!(checked(Some(4), Some(4)), Some((6, 4)));
        assert_eq!(checked(Some(5), Some(4)), Some((14, 4)));
    }

    #[test]
    fn lists_that_no_box_has_are_counted_as_made_alone() {
        let mut lists = Lists::before_any_rule(3);
        assert_eq!(
            (lists.different(), lists.longest(), lists.made()),
            (0, 0, 0)
        );

        lists.draw(false, &[1, 0, 1]);
        assert_eq!(
            (lists.different(), lists.longest(), lists.made()),
            (1, 1, 1)
        );
        lists.draw(false, &[1, 1, 0]);
        assert_eq!(
            (lists.different(), lists.longest(), lists.made()),
            (3, 2, 3)
        );
        lists.draw(true, &[1, 0, 1]);
        assert_eq!(
            (lists.different(), lists.longest(), lists.made()),
            (2, 1, 4)
        );
        lists.draw(false, &[1, 2, 1]);
        assert_eq!(
            (lists.different(), lists.longest(), lists.made()),
            (2, 3, 6)
        );
    }

    /// What differs and how long the longest is after the drained rules.
    fn counted(drained: &[Rule]) -> (usize, usize) {
        let selectors: Vec<Selector> = drained.iter().map(selector_of).collect();
        let (_, lists) = counts_of_lists(drained, &selectors, &cuts_of(&selectors));
        (lists.different(), lists.longest())
    }

    #[test]
    fn the_rust_has_as_many_lists_after_each_rule() {
        for number in 0..SHEETS {
            let mut rules = rules(&mut Random::new(1, number), Form::Two, &MANY_LISTS);
            rules.truncate(rules.iter().position(stops).unwrap_or(rules.len()));
            rules.truncate(FEW_RULES);
            take_overlaps(&mut rules);
            let Ok(theirs) = lists_of_sheet(Form::Two, &write_sheet(Form::Two, rules.clone()))
            else {
                continue;
            };

            assert_eq!(theirs.len(), rules.len(), "sheet {number}");
            for (rule, standing) in theirs.iter().enumerate() {
                let told = (standing.different, standing.longest);
                assert_eq!(counted(&rules[..=rule]), told, "sheet {number} rule {rule}");
            }
        }
    }
}
