//! Stands in for the crate `chrono`, so that the source under docs/src builds without a registry.
//!
//! Only what docs/src uses is here, under chrono's names and with chrono's meaning. The fold uses weekdays and durations. Clock times
//! and dates are named by parts of docs/src that the fold never calls; they are here so that those parts compile.

mod date;
mod duration;
mod time;
mod weekday;

pub use date::{Datelike, NaiveDate};
pub use duration::Duration;
pub use time::{NaiveTime, Timelike};
pub use weekday::Weekday;

pub mod prelude {
    pub use crate::Datelike;
}
