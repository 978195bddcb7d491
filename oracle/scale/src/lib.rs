//! The archive of crates/hours held against the Rust oracle, sheet for sheet, in one program.
//!
//! What a fold gives is the Rust's to say (`oracle::fold`), in either form; both engines of the archive, 02's M-102, are held against it.
//! Where a sheet is refused, what a lookup finds, what a sheet's line is, what it is in the other form, and why a fold stopped, the Rust has
//! no say: that is document 01 written plainly (`sheet`, `points`, `calendar`, `expected`), and 02's M-100 (`line`), M-101 (`overlap`), M-104
//! (`calendar`), M-105 (`why`), M-106 (`layout`, `convert`), M-107 (`counts`) and M-108 (`lists`), as in oracle/reference. The widths of the
//! two forms stand once, with the Rust oracle (`oracle::form`).
//!
//! For oracle/public, where a public evaluator is asked, there are sheets and moments (`public_sheets`, `public_moments`).

mod answer;
pub mod archive;
pub mod arguments;
pub mod bench_sheets;
mod boxes;
mod calendar;
mod calls;
pub mod check_sheets;
mod compare;
mod convert;
#[cfg(test)]
mod counted;
mod counts;
mod damage;
mod dates;
mod expected;
mod forms_tally;
mod groups;
pub mod growth_sheets;
mod large;
mod large_tally;
mod layout;
mod line;
pub mod line_sheets;
pub mod list_sheets;
mod lists;
mod lists_tally;
pub mod lookup_sheets;
mod many_lists;
mod overlap;
mod overlap_tally;
mod overlapping;
mod points;
mod public_moments;
pub mod public_sheets;
mod random;
pub mod random_sheets;
mod recipes;
mod rule;
pub mod run;
pub mod series;
mod sheet;
mod shrink;
mod sizes;
pub mod stack;
mod stock;
mod stoppers;
#[cfg(test)]
mod stored;
mod tally;
mod telling;
pub mod times;
mod why;
