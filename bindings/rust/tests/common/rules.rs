//! Sheets that are written bit by bit, and their folds by both engines, asked on a stack no longer than the crate says a call needs.

mod engines;

use std::fmt::Write;
use std::thread;

use engines::fold;
use hours::{Folded, Form, Reason, Refusal, STACK};

pub const PAINT: u8 = 0xC3;

/// Bits as digits.
fn bits(width: usize, value: usize) -> String {
    format!("{value:0width$b}")
}

/// Lowest and highest value of weekdays, weeks, months and years.
pub const DIMENSIONS: [(usize, usize); 4] = [(0, 6), (1, 53), (1, 12), (1900, 9999)];

/// A day item from start to end, of a dimension by its number.
pub fn item(dimension: usize, start: usize, end: usize) -> String {
    match dimension {
        0 => [
            "0",
            &bits(3, start),
            &bits(3, end),
            &bits(16, 0),
            &bits(10, 0x3FF),
        ]
        .concat(),
        1 => [bits(6, start), bits(6, end), bits(8, 1)].concat(),
        2 => [bits(2, 0), bits(4, start), bits(4, end)].concat(),
        _ => [bits(14, start), bits(14, end), bits(16, 1)].concat(),
    }
}

/// Operator and kind, comment, items of the four dimensions, and spans from minute to minute.
#[derive(Clone, Default)]
pub struct Rule {
    pub operator: usize,
    pub kind: usize,
    pub comment: usize,
    pub days: [Vec<String>; 4],
    pub spans: Vec<(usize, usize)>,
}

impl Rule {
    fn bits(&self, form: Form) -> String {
        let (comment, count) = match form {
            Form::One => (16, 10),
            Form::Two => (24, 12),
        };
        let [weekdays, weeks, months, years] = &self.days;
        let days = [years, months, weeks, weekdays];

        let mut text = [bits(2, self.operator), bits(2, self.kind)].concat();
        text += &bits(comment, self.comment);
        days.iter()
            .for_each(|items| text += &bits(count, items.len()));
        text += &bits(count, self.spans.len());
        days.iter().for_each(|items| text += &items.concat());
        for (start, end) in &self.spans {
            write!(text, "0{start:012b}0{end:012b}00").expect("a string takes all");
        }
        text
    }
}

pub fn sheet(form: Form, rules: &[Rule]) -> Vec<u8> {
    let head = match form {
        Form::One => bits(16, rules.len()),
        Form::Two => ["0010", &bits(24, rules.len())].concat(),
    };
    let mut text = head + &rules.iter().map(|rule| rule.bits(form)).collect::<String>();
    text += &"0".repeat(text.len().next_multiple_of(8) - text.len());

    (0..text.len() / 8)
        .map(|byte| u8::from_str_radix(&text[8 * byte..8 * byte + 8], 2).expect("eight bits"))
        .collect()
}

pub fn open() -> Rule {
    Rule {
        spans: vec![(600, 1080)],
        ..Rule::default()
    }
}

/// Fallback, so that it is left.
pub fn stopper() -> Rule {
    Rule {
        operator: 2,
        ..open()
    }
}

/// The fold with just enough room, after one with a byte less and one with none were refused.
pub fn folded(form: Form, rules: Vec<Rule>) -> Result<(Folded, Vec<u8>), Refusal> {
    let asking = move || {
        let sheet = sheet(form, &rules);
        let needed = match fold(form, &sheet, &mut []) {
            Err(Refusal::NoRoom { needed }) => needed,
            Err(refusal) => {
                let mut out = vec![PAINT; 1 << 16];
                assert_eq!(fold(form, &sheet, &mut out), Err(refusal));
                assert!(out.iter().all(|byte| *byte == PAINT));
                return Err(refusal);
            }
            Ok(_) => panic!("a sheet has bytes"),
        };

        let mut out = vec![PAINT; needed];
        let short = fold(form, &sheet, &mut out[1..]);
        assert_eq!(short, Err(Refusal::NoRoom { needed }));
        assert!(out.iter().all(|byte| *byte == PAINT));
        fold(form, &sheet, &mut out).map(|folded| (folded, out))
    };

    let thread = thread::Builder::new().stack_size(STACK).spawn(asking);
    thread
        .expect("a thread can be started")
        .join()
        .expect("it is answered")
}

/// Drained, emitted and left, and why.
pub fn counts(done: &Folded) -> ([usize; 3], Option<Reason>) {
    ([done.drained, done.emitted, done.left], done.why)
}
