//! What this crate expects, and what the archive gives, held against the answers that the reference stored in crates/replay/data.

use std::fs;
use std::path::Path;

use oracle::bits::from_hex;

use crate::answer::{Answer, LOOKUP_NUMBERS};
use crate::archive::{self, Given};
use crate::calls::{CONVERT, Entry, FOLD, LINE, WRITE_BACK, compare_in_room};
use crate::expected::Sheet;
use crate::stack::with_stack;

struct Case {
    form: u64,
    sheet: Vec<u8>,
    numbers: Vec<u64>,
    /// Nothing where the file has none.
    result: Vec<u8>,
}

impl Case {
    fn given(&self) -> Given<'_> {
        Given {
            form: self.form,
            bytes: &self.sheet,
        }
    }
}

/// The cases of a file, each of which has so many numbers behind its sheet.
fn cases(file: &str, numbers: usize) -> Vec<Case> {
    let folder = Path::new(env!("CARGO_MANIFEST_DIR")).join("../../crates/replay/data");
    let text = fs::read_to_string(folder.join(file)).expect("the stored answers are there");

    text.lines()
        .filter(|line| !line.starts_with('#'))
        .map(|line| {
            let fields: Vec<&str> = line.split(' ').collect();
            let [form, sheet, rest @ ..] = fields.as_slice() else {
                panic!("a case has a form and a sheet");
            };
            let (counted, result) = rest.split_at(numbers);

            Case {
                form: number(form),
                sheet: bytes(sheet),
                numbers: counted.iter().map(|field| number(field)).collect(),
                result: result.first().map_or_else(Vec::new, |hex| bytes(hex)),
            }
        })
        .collect()
}

fn number(field: &str) -> u64 {
    field.parse().expect("a number")
}

fn bytes(hex: &str) -> Vec<u8> {
    match hex {
        "-" => Vec::new(),
        _ => from_hex(hex).expect("hex"),
    }
}

fn check_writing(file: &str, entry: &Entry, ample: fn(&Sheet) -> Answer) {
    with_stack(|| check_cases(file, entry, ample));
}

fn check_cases(file: &str, entry: &Entry, ample: fn(&Sheet) -> Answer) {
    for case in cases(file, 1 + entry.numbers.count) {
        let (form, sheet) = (case.form, &case.sheet);
        let room = case.numbers[0] as usize;
        let stored = Answer {
            sort: entry.numbers,
            numbers: case.numbers[1..].to_vec(),
            result: case.result.clone(),
        };
        let ample = ample(&Sheet::new(case.given()));
        assert_eq!(
            ample.in_room(room),
            stored,
            "expected of {sheet:02X?} in form {form}"
        );

        let compared = compare_in_room(entry, case.given(), &ample, room);
        compared.unwrap_or_else(|difference| panic!("{difference:?} for {sheet:02X?}"));
    }
}

#[test]
fn folds() {
    check_writing("fold.txt", &FOLD, |sheet| sheet.fold());
}

#[test]
fn write_backs() {
    check_writing("back.txt", &WRITE_BACK, |sheet| sheet.write_back());
}

#[test]
fn lines() {
    check_writing("line.txt", &LINE, |sheet| sheet.line());
}

#[test]
fn conversions() {
    check_writing("convert.txt", &CONVERT, |sheet| sheet.convert());
}

#[test]
fn lookups() {
    with_stack(check_lookups);
}

fn check_lookups() {
    for case in cases("lookup.txt", 4 + LOOKUP_NUMBERS.count) {
        let (form, sheet) = (case.form, &case.sheet);
        let (moment, stored) = case
            .numbers
            .split_first_chunk()
            .expect("a moment has four numbers");
        let expected = Sheet::new(case.given()).lookup(*moment);
        assert_eq!(
            expected.numbers, stored,
            "expected of {sheet:02X?} in form {form} at {moment:?}"
        );

        let mut given = vec![0; LOOKUP_NUMBERS.count];
        assert!(archive::lookup(case.given(), *moment, &mut given));
        assert_eq!(
            given, stored,
            "given for {sheet:02X?} in form {form} at {moment:?}"
        );
    }
}
