//! The Rust oracle's library: the source under docs/src, compiled here unchanged and in place, behind packed sheets.
//!
//! This file is the crate root that docs/src expects: it names the modules and re-exports that the source reaches by `crate::`. Ours
//! are `answer`, `bits`, `fold`, `form`, `lists`, `numbering`, `outside`, `sheet_reader`, `sheet_writer`, the helpers in `display` and the
//! tests in `readings`. The program `oracle` answers lines by it; the crate in scale/ holds the archive against it.

extern crate alloc;

// `OpeningHoursExpression::normalize` takes a documentation text from a file that is not part of docs/src. A documentation text has no
// effect on the program, so the macro that would read it is replaced, for the modules below, by one that reads nothing.
macro_rules! include_str {
    ($path:literal) => {
        ""
    };
}

pub mod answer;
pub mod bits;
mod display;
pub mod fold;
pub mod form;
pub mod lists;
mod numbering;
pub mod outside;
#[cfg(test)]
mod readings;
mod sheet_reader;
mod sheet_writer;
mod util;

// The modules of docs/src. A formatter would follow them and rewrite what was handed over, so it is told to skip them.
#[path = "../../docs/src/opening-hours-syntax/src/extended_time.rs"]
#[rustfmt::skip]
mod extended_time;

#[path = "../../docs/src/opening-hours-syntax/src/normalize/mod.rs"]
#[rustfmt::skip]
mod normalize;

#[path = "../../docs/src/opening-hours-syntax/src/rules/mod.rs"]
#[rustfmt::skip]
#[allow(dead_code, reason = "the oracle calls only the part that folds")]
mod rules;

pub use extended_time::ExtendedTime;
pub use rules::RuleKind;
