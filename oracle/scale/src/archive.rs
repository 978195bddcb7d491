//! The archive's six functions. A lent slice is a pointer and a length in C. The form is any number: what is none is refused.

/// The form, then the sheet, the output buffer and the numbers, each as a pointer and a length.
type Exported =
    unsafe extern "C" fn(u64, *const u8, usize, *mut u8, usize, *mut u64, usize) -> bool;

/// Declares exports of that type.
macro_rules! writing_exports {
    ($($name:ident),*) => {
        unsafe extern "C" {
            $(fn $name(
                form: u64,
                sheet: *const u8,
                sheet_length: usize,
                out: *mut u8,
                out_length: usize,
                numbers: *mut u64,
                numbers_length: usize,
            ) -> bool;)*
        }
    };
}

writing_exports!(
    hours_fold,
    hours_fold_plain,
    hours_write_back,
    hours_line,
    hours_convert
);

unsafe extern "C" {
    fn hours_lookup(
        form: u64,
        sheet: *const u8,
        sheet_length: usize,
        year: u64,
        month: u64,
        day: u64,
        minute: u64,
        numbers: *mut u64,
        numbers_length: usize,
    ) -> bool;
}

/// A sheet, and the form in which the caller says that it is.
#[derive(Clone, Copy)]
pub struct Given<'a> {
    pub form: u64,
    pub bytes: &'a [u8],
}

/// A function of the archive that writes a sheet or text.
pub type Writing = fn(Given, &mut [u8], &mut [u64]) -> bool;

/// Code, drained, emitted, left, bytes, place and why go into `numbers`; no where it is too short for them.
pub fn fold(given: Given, out: &mut [u8], numbers: &mut [u64]) -> bool {
    lend(hours_fold, given, out, numbers)
}

/// The same by the plain engine.
pub fn fold_plain(given: Given, out: &mut [u8], numbers: &mut [u64]) -> bool {
    lend(hours_fold_plain, given, out, numbers)
}

/// Code, bytes and place go into `numbers`; no where it is too short for them.
pub fn write_back(given: Given, out: &mut [u8], numbers: &mut [u64]) -> bool {
    lend(hours_write_back, given, out, numbers)
}

/// Code, bytes and place go into `numbers`; no where it is too short for them.
pub fn line(given: Given, out: &mut [u8], numbers: &mut [u64]) -> bool {
    lend(hours_line, given, out, numbers)
}

/// Code, bytes and place go into `numbers`; no where it is too short for them.
pub fn convert(given: Given, out: &mut [u8], numbers: &mut [u64]) -> bool {
    lend(hours_convert, given, out, numbers)
}

/// The numbers that such a function answers, as many as there are of its sort.
pub fn numbers<const N: usize>(function: Writing, given: Given, out: &mut [u8]) -> [u64; N] {
    let mut numbers = [0; N];
    assert!(
        function(given, out, &mut numbers),
        "there is room for the numbers"
    );
    numbers
}

fn lend(function: Exported, given: Given, out: &mut [u8], numbers: &mut [u64]) -> bool {
    let (sheet_length, room, count) = (given.bytes.len(), out.len(), numbers.len());
    let (sheet, out, numbers) = (given.bytes.as_ptr(), out.as_mut_ptr(), numbers.as_mut_ptr());

    // SAFETY: the pointers and lengths are those of slices that live through the call, and the two that are written are lent to it alone.
    unsafe { function(given.form, sheet, sheet_length, out, room, numbers, count) }
}

/// Year, month, day and minute; code, kind, comment and place go into `numbers`; no where it is too short for them.
pub fn lookup(given: Given, [year, month, day, minute]: [u64; 4], numbers: &mut [u64]) -> bool {
    let (sheet_length, count) = (given.bytes.len(), numbers.len());
    let (sheet, numbers) = (given.bytes.as_ptr(), numbers.as_mut_ptr());

    // SAFETY: as in `lend`.
    unsafe {
        hours_lookup(
            given.form,
            sheet,
            sheet_length,
            year,
            month,
            day,
            minute,
            numbers,
            count,
        )
    }
}

#[cfg(test)]
mod tests {
    use super::*;
    use crate::stack::with_stack;

    const EMPTY_SHEET: Given = Given {
        form: 1,
        bytes: &[0; 2],
    };
    const BYTE: u8 = 0xA5;
    const NUMBER: u64 = u64::MAX;

    #[test]
    fn a_fold_takes_seven_numbers_and_writes_nothing_into_six() {
        for engine in [fold, fold_plain] {
            let mut out = [BYTE; 3];
            let mut six = [NUMBER; 6];
            assert!(!with_stack(|| engine(EMPTY_SHEET, &mut out, &mut six)));
            assert_eq!((out, six), ([BYTE; 3], [NUMBER; 6]));

            let mut seven = [NUMBER; 7];
            assert!(with_stack(|| engine(EMPTY_SHEET, &mut out, &mut seven)));
            assert_eq!((out, seven), ([0, 0, BYTE], [0, 0, 0, 0, 2, 0, 0]));
        }
    }

    #[test]
    fn a_form_that_is_none_is_refused() {
        for form in [0, 3, (1 << 32) + 1, u64::MAX] {
            let given = Given {
                form,
                ..EMPTY_SHEET
            };
            for engine in [fold, fold_plain] {
                let mut out = [BYTE; 3];
                let refused = with_stack(|| numbers(engine, given, &mut out));
                assert_eq!(refused, [2, 0, 0, 0, 0, 0, 0]);
                assert_eq!(out, [BYTE; 3]);
            }
        }
    }
}
