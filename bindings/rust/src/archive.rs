//! The archive's exports on slices: all the unsafe code of the crate. As in include/hours.h, each answers no where the slice of numbers
//! is too short for its answer, and nothing is written then. A form is any number here.

/// An export that writes bytes: the form, then the sheet, the output buffer and the numbers, each as a pointer and a length.
type Writing = unsafe extern "C" fn(u64, *const u8, usize, *mut u8, usize, *mut u64, usize) -> bool;

/// Declares exports of that type.
macro_rules! writing_exports {
    ($($name:ident),*) => {
        unsafe extern "C" {
            $(fn $name(
                form: u64,
                sheet: *const u8,
                sheet_length: usize,
                out: *mut u8,
                out_length: usize,
                numbers: *mut u64,
                numbers_length: usize,
            ) -> bool;)*
        }
    };
}

writing_exports!(
    hours_fold,
    hours_fold_plain,
    hours_write_back,
    hours_line,
    hours_convert
);

unsafe extern "C" {
    fn hours_lookup(
        form: u64,
        sheet: *const u8,
        sheet_length: usize,
        year: u64,
        month: u64,
        day: u64,
        minute: u64,
        numbers: *mut u64,
        numbers_length: usize,
    ) -> bool;
}

/// Code, drained, emitted, left, bytes, place, why.
pub fn fold(form: u64, sheet: &[u8], out: &mut [u8], numbers: &mut [u64]) -> bool {
    lend(hours_fold, form, sheet, out, numbers)
}

/// The same by the plain engine.
pub fn fold_plain(form: u64, sheet: &[u8], out: &mut [u8], numbers: &mut [u64]) -> bool {
    lend(hours_fold_plain, form, sheet, out, numbers)
}

/// Code, bytes, place.
pub fn write_back(form: u64, sheet: &[u8], out: &mut [u8], numbers: &mut [u64]) -> bool {
    lend(hours_write_back, form, sheet, out, numbers)
}

/// Code, bytes, place.
pub fn line(form: u64, sheet: &[u8], out: &mut [u8], numbers: &mut [u64]) -> bool {
    lend(hours_line, form, sheet, out, numbers)
}

/// Code, bytes, place.
pub fn convert(form: u64, sheet: &[u8], out: &mut [u8], numbers: &mut [u64]) -> bool {
    lend(hours_convert, form, sheet, out, numbers)
}

fn lend(writing: Writing, form: u64, sheet: &[u8], out: &mut [u8], numbers: &mut [u64]) -> bool {
    // SAFETY: each pointer and length is that of a slice that is borrowed through the call, and those written to are borrowed by it
    // alone, so that no two overlap.
    unsafe {
        writing(
            form,
            sheet.as_ptr(),
            sheet.len(),
            out.as_mut_ptr(),
            out.len(),
            numbers.as_mut_ptr(),
            numbers.len(),
        )
    }
}

/// Code, kind, comment, place.
pub fn lookup(
    form: u64,
    sheet: &[u8],
    [year, month, day, minute]: [u64; 4],
    numbers: &mut [u64],
) -> bool {
    // SAFETY: as in `lend`.
    unsafe {
        hours_lookup(
            form,
            sheet.as_ptr(),
            sheet.len(),
            year,
            month,
            day,
            minute,
            numbers.as_mut_ptr(),
            numbers.len(),
        )
    }
}

#[cfg(test)]
mod tests {
    use super::*;

    const EMPTY_SHEET: [u8; 2] = [0; 2];
    const PAINT: u8 = 0xC3;
    const NUMBER: u64 = u64::MAX;
    const LEAP_DAY: [u64; 4] = [2000, 2, 29, 0];
    const NO_DATE: [u64; 4] = [1900, 2, 29, 0];
    /// Two that are forms, and some that are none.
    const FORMS: [u64; 6] = [1, 2, 0, 3, (1 << 32) + 1, u64::MAX];

    #[test]
    fn too_few_numbers_are_answered_no_and_nothing_is_written() {
        let mut out = [PAINT; 4];
        let mut numbers = [NUMBER; 6];

        for form in FORMS {
            for folding in [fold, fold_plain] {
                assert!(!folding(form, &EMPTY_SHEET, &mut out, &mut numbers));
                assert!(!folding(form, &EMPTY_SHEET, &mut out, &mut []));
            }
            assert!(!lookup(form, &EMPTY_SHEET, LEAP_DAY, &mut numbers[..3]));
            for writing in [write_back, line, convert] {
                assert!(!writing(form, &EMPTY_SHEET, &mut out, &mut numbers[..2]));
            }
        }

        assert_eq!(out, [PAINT; 4]);
        assert_eq!(numbers, [NUMBER; 6]);
    }

    #[test]
    fn numbers_beyond_the_answer_stay() {
        let mut out = [PAINT; 6];
        let mut numbers = [NUMBER; 8];

        assert!(line(1, &EMPTY_SHEET, &mut out, &mut numbers));
        assert_eq!(numbers[..4], [0, 0, 0, NUMBER]);
        assert_eq!(out, [PAINT; 6]);
        assert!(write_back(1, &EMPTY_SHEET, &mut out, &mut numbers));
        assert_eq!(numbers[..4], [0, 2, 0, NUMBER]);
        assert!(lookup(1, &EMPTY_SHEET, LEAP_DAY, &mut numbers));
        assert_eq!(numbers[..5], [0, 1, 0, 0, NUMBER]);
        for folding in [fold, fold_plain] {
            (out, numbers) = ([PAINT; 6], [NUMBER; 8]);
            assert!(folding(1, &EMPTY_SHEET, &mut out, &mut numbers));
            assert_eq!(numbers, [0, 0, 0, 0, 2, 0, 0, NUMBER]);
            assert_eq!(out, [0, 0, PAINT, PAINT, PAINT, PAINT]);
        }
        assert!(convert(1, &EMPTY_SHEET, &mut out, &mut numbers));
        assert_eq!(numbers[..4], [0, 4, 0, 0]);
        assert_eq!(out, [0x20, 0, 0, 0, PAINT, PAINT]);
    }

    #[test]
    fn a_form_that_is_none_is_refused_before_all_else() {
        let mut out = [PAINT; 4];

        for form in &FORMS[2..] {
            for sheet in [&EMPTY_SHEET[..], &[]] {
                for folding in [fold, fold_plain] {
                    let mut numbers = [NUMBER; 7];
                    assert!(folding(*form, sheet, &mut out, &mut numbers));
                    assert_eq!(numbers, [2, 0, 0, 0, 0, 0, 0]);
                }
                for writing in [write_back, line, convert] {
                    let mut numbers = [NUMBER; 3];
                    assert!(writing(*form, sheet, &mut out, &mut numbers));
                    assert_eq!(numbers, [2, 0, 0]);
                }
                let mut numbers = [NUMBER; 4];
                assert!(lookup(*form, sheet, NO_DATE, &mut numbers));
                assert_eq!(numbers, [2, 0, 0, 0]);
            }
        }

        assert_eq!(out, [PAINT; 4]);
    }
}
