//! The two helpers that the `Display` code of docs/src reaches by `crate::display`. The oracle prints packed sheets only, so they are
//! here for that code to compile; no answer depends on them.

use core::fmt::{Display, Formatter, Result};

/// Writes the items with commas between them.
pub(crate) fn write_selector<T: Display>(f: &mut Formatter<'_>, items: &[T]) -> Result {
    for (place, item) in items.iter().enumerate() {
        let separator = if place == 0 { "" } else { "," };
        write!(f, "{separator}{item}")?;
    }

    Ok(())
}

/// Writes an offset of days with its sign, and nothing for an offset of 0.
pub(crate) fn write_days_offset(f: &mut Formatter<'_>, offset: i16) -> Result {
    match offset {
        0 => Ok(()),
        -1 | 1 => write!(f, " {offset:+} day"),
        _ => write!(f, " {offset:+} days"),
    }
}
