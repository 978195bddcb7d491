//! `NaiveDate`: a type without values. docs/src names dates in `DateOffset::apply` and `Month::from_date` alone, which evaluate dated
//! ranges and have no part in the fold. With no value to be had, no answer of the oracle can rest on a calendar made up here.

use crate::{Duration, Weekday};
use core::ops::{AddAssign, SubAssign};

pub trait Datelike {
    fn month(&self) -> u32;
    fn weekday(&self) -> Weekday;
}

#[derive(Clone, Copy, Debug, Hash, PartialEq, Eq, PartialOrd, Ord)]
pub enum NaiveDate {}

impl Datelike for NaiveDate {
    fn month(&self) -> u32 {
        match *self {}
    }

    fn weekday(&self) -> Weekday {
        match *self {}
    }
}

impl AddAssign<Duration> for NaiveDate {
    fn add_assign(&mut self, _length: Duration) {
        match *self {}
    }
}

impl SubAssign<Duration> for NaiveDate {
    fn sub_assign(&mut self, _length: Duration) {
        match *self {}
    }
}
