//! What a run met of lists, document 02's M-108: how many differed at once and how many there were in all, and where 6 and 14 were given.

use std::cmp::Ordering;
use std::fmt::{Display, Formatter, Result};

use crate::lists::{DIFFERENT_LIMIT, ListCounts};
use crate::points::Extent;
use crate::sizes::{Sizes, add_each, met};

/// What a store of lists has room for at once: as many as may stand before a rule, and what the rule can make of these and of the empty one.
const ROOM: usize = 2 * DIFFERENT_LIMIT + 1;
/// Boxes up to which folds with more lists than that are counted apart.
const BOXES: [usize; 3] = [16, 1024, 4096];

#[derive(Default)]
pub struct ListsMet {
    most: Sizes,
    made: Sizes,
    /// Accepted folds with more lists in all than there is room for, by their boxes.
    past_room: [u64; BOXES.len()],
    /// How often and where 14 was given, and how often for one list too many.
    refused: u64,
    places: Sizes,
    one_too_many: u64,
    /// Where both 6 and 14 hold: 6 at an earlier rule, at the same one, at a later one.
    both: [u64; 3],
}

impl ListsMet {
    /// Of an accepted fold.
    pub fn fold(&mut self, extent: Extent) {
        let lists = extent.lists;
        self.most.count(lists.most as u64);
        self.made.count(lists.made as u64);

        if lists.made > ROOM {
            let sort = BOXES.iter().position(|most| extent.boxes <= *most);
            self.past_room[sort.expect("boxes are within the limit")] += 1;
        }
    }

    /// Of lists that 6 or 14 refuses.
    pub fn refused(&mut self, lists: ListCounts) {
        let Some(many) = lists.too_many else { return };

        if let Some(long) = lists.too_long {
            let sort = match long.cmp(&many) {
                Ordering::Less => 0,
                Ordering::Equal => 1,
                Ordering::Greater => 2,
            };
            self.both[sort] += 1;
        }
        if lists.too_long.is_none_or(|long| many < long) {
            self.refused += 1;
            self.places.count(many as u64);
            self.one_too_many += u64::from(lists.first_too_many == DIFFERENT_LIMIT + 1);
        }
    }

    pub fn add(&mut self, other: &Self) {
        self.most.add(&other.most);
        self.made.add(&other.made);
        add_each(&mut self.past_room, &other.past_room);
        self.refused += other.refused;
        self.places.add(&other.places);
        self.one_too_many += other.one_too_many;
        add_each(&mut self.both, &other.both);
    }
}

impl Display for ListsMet {
    fn fmt(&self, f: &mut Formatter<'_>) -> Result {
        let boxes = BOXES.map(|most| format!("{most} boxes at most"));
        let both = ["before 14's", "14's own", "behind 14's"];

        writeln!(f, "  lists at once of accepted folds {}", self.most)?;
        write!(f, "  lists in all of accepted folds {}", self.made)?;
        if self.past_room.iter().any(|folds| *folds > 0) {
            let past_room = met(boxes.into_iter().zip(self.past_room));
            write!(
                f,
                "\n  folds of more than {ROOM} lists in all over {past_room}"
            )?;
        }
        if self.refused > 0 {
            let (places, one_too_many) = (&self.places, self.one_too_many);
            let both = met(both.into_iter().zip(self.both));
            write!(f, "\n  folds refused by 14 at rule {places}")?;
            write!(
                f,
                "\n  folds refused by 14 for {} lists: {one_too_many}",
                DIFFERENT_LIMIT + 1
            )?;
            write!(f, "\n  folds that 6 and 14 refuse, 6 at a rule {both}")?;
        }
        Ok(())
    }
}
