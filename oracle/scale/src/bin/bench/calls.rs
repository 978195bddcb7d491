//! What is timed: calls of the archive that answer their numbers.

use std::hint::black_box;

use scale::archive::{self, Given, Writing, numbers};
use scale::lookup_sheets::Moment;
use scale::stack::stack_of;

/// Ample for the longest result of the bench, of some 9 MB.
pub const ROOM: usize = 16 << 20;

/// The seven numbers of a fold.
pub fn fold(sheet: Given, out: &mut [u8]) -> [u64; 7] {
    numbers(archive::fold, sheet, out)
}

/// The same by the plain engine.
pub fn fold_plain(sheet: Given, out: &mut [u8]) -> [u64; 7] {
    numbers(archive::fold_plain, sheet, out)
}

/// Code, bytes and place of a line.
pub fn line(sheet: Given, out: &mut [u8]) -> [u64; 3] {
    numbers(archive::line, sheet, out)
}

/// The code of a sheet written back without room: of an accepted sheet 7, as soon as it is checked.
pub fn check(sheet: Given) -> u64 {
    let [code, _, _] = numbers(archive::write_back, sheet, &mut []);
    code
}

/// Code, kind, comment and place of a lookup.
pub fn lookup(sheet: Given, moment: Moment) -> [u64; 4] {
    let mut numbers = [0; 4];
    assert!(
        archive::lookup(sheet, moment, &mut numbers),
        "there is room for the numbers"
    );
    numbers
}

/// How deep a function that writes goes.
pub fn depth(function: Writing, given: Given, out: &mut [u8]) -> usize {
    stack_of(|| {
        black_box(function(given, out, &mut [0; 7]));
    })
}
