//! Names the modules of docs/src that the source reaches by `crate::util`. The formatter skips them: they stay as handed over.

#[path = "../../docs/src/opening-hours-syntax/src/util/rc.rs"]
#[rustfmt::skip]
pub(crate) mod rc;

#[path = "../../docs/src/opening-hours-syntax/src/util/weekday.rs"]
#[rustfmt::skip]
pub(crate) mod weekday;
