//! The stored answers of crates/replay/data, asked through the crate, on a stack no longer than it says a call needs.

mod common;

use std::path::Path;
use std::{fs, thread};

use common::{bytes, fold};
use hours::{Date, Folded, Form, Reason, Refusal, STACK, convert, line, lookup, write_back};

/// The fields of each stored case, `-` as no bytes.
fn check_cases(file: &str, check: fn(&[&str])) {
    let folder = Path::new(env!("CARGO_MANIFEST_DIR")).join("../../crates/replay/data");
    let text = fs::read_to_string(folder.join(file)).expect("the stored answers are there");

    let asking = thread::Builder::new().stack_size(STACK).spawn(move || {
        for case in text.lines().filter(|line| !line.starts_with('#')) {
            let fields: Vec<&str> = case
                .split(' ')
                .map(|field| field.trim_matches('-'))
                .collect();
            check(&fields);
        }
    });
    let asked = asking.expect("a thread can be started").join();
    assert!(asked.is_ok(), "{file} is answered as stored");
}

fn numbers(fields: &[&str]) -> Vec<usize> {
    let parsed = fields.iter().map(|field| field.parse().expect("a number"));
    parsed.collect()
}

/// The numbers of a refused answer: code, 0 for each other, place.
fn refused(refusal: Refusal, others: usize) -> Vec<usize> {
    let mut numbers = vec![0; others + 2];
    numbers[0] = refusal.code().into();
    numbers[others + 1] = refusal.place();
    numbers
}

/// What stands in a buffer before a call, so that a write shows.
const PAINT: u8 = 0xC3;

/// The numbers of an answer, and how many bytes it wrote.
type Answer = (Vec<usize>, usize);

/// The form of its number. Those that are none can be asked only from C.
fn form_of(field: &str) -> Option<Form> {
    [Form::One, Form::Two]
        .into_iter()
        .find(|form| form.number().to_string() == field)
}

/// A form, a sheet, a room, numbers and a result held against the numbers and the bytes that a call gives.
fn check_writing(fields: &[&str], call: fn(Form, &[u8], &mut [u8]) -> Answer) {
    let [form, sheet, room, told @ .., result] = fields else {
        panic!("a writing has a form, a sheet, a room, numbers and a result");
    };
    let Some(form) = form_of(form) else { return };
    let mut out = vec![PAINT; numbers(&[room])[0]];

    let (answer, written) = call(form, &bytes(sheet), &mut out);
    assert_eq!(answer, numbers(told), "{sheet}");
    assert_eq!(out[..written], bytes(result), "{sheet}");
    assert!(out[written..].iter().all(|byte| *byte == PAINT), "{sheet}");
}

/// The answer of a write-back, a line or a conversion: code, bytes and place.
fn written(done: Result<usize, Refusal>) -> Answer {
    match done {
        Ok(bytes) => (vec![0, bytes, 0], bytes),
        Err(refusal) => (refused(refusal, 1), 0),
    }
}

#[test]
fn folds() {
    check_cases("fold.txt", |fields| {
        check_writing(fields, |form, sheet, out| match fold(form, sheet, out) {
            Ok(done) => (folded(done), done.bytes),
            Err(refusal) => ([refused(refusal, 4), vec![0]].concat(), 0),
        });
    });
}

/// Code, drained, emitted, left, bytes, place, why.
fn folded(done: Folded) -> Vec<usize> {
    let why = done.why.map_or(0, Reason::number);
    let counts = [done.drained, done.emitted, done.left, done.bytes];
    [&[0], &counts[..], &[0, why.into()]].concat()
}

#[test]
fn write_backs() {
    check_cases("back.txt", |fields| {
        check_writing(fields, |form, sheet, out| {
            written(write_back(form, sheet, out))
        });
    });
}

#[test]
fn lines() {
    check_cases("line.txt", |fields| {
        check_writing(fields, |form, sheet, out| written(line(form, sheet, out)));
    });
}

#[test]
fn conversions() {
    check_cases("convert.txt", |fields| {
        check_writing(fields, |form, sheet, out| {
            written(convert(form, sheet, out))
        });
    });
}

#[test]
fn lookups() {
    check_cases("lookup.txt", |fields| {
        let [form, sheet, year, month, day, minute, told @ ..] = fields else {
            panic!("a lookup has a form, a sheet, a date, a minute and numbers");
        };
        let (Some(form), Ok(year), Ok(month), Ok(day), Ok(minute)) = (
            form_of(form),
            year.parse(),
            month.parse(),
            day.parse(),
            minute.parse(),
        ) else {
            // Such numbers can be asked only from C.
            return;
        };

        let answer = match lookup(form, &bytes(sheet), Date { year, month, day }, minute) {
            Ok(state) => vec![0, state.kind as usize, state.comment as usize, 0],
            Err(refusal) => refused(refusal, 2),
        };
        assert_eq!(
            answer,
            numbers(told),
            "{sheet} {year}-{month}-{day} {minute}"
        );
    });
}
