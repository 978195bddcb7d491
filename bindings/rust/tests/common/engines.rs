//! The fold by both engines, which answer alike.

use hours::{Folded, Form, Refusal, fold_plain};

/// What both answer. Into buffers that hold the same they write the same, so what a test sees of one holds of the other.
pub fn fold(form: Form, sheet: &[u8], out: &mut [u8]) -> Result<Folded, Refusal> {
    let mut by_plain = out.to_vec();
    let plain = fold_plain(form, sheet, &mut by_plain);

    let told = hours::fold(form, sheet, out);
    assert_eq!(plain, told, "the plain engine answers {sheet:02X?} alike");
    assert!(
        by_plain == out,
        "the plain engine writes {sheet:02X?} alike"
    );
    told
}
