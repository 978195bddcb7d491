//! The fold of landing-site hours: a safe crate over the proved archive `libhours.a`.
//!
//! A packed sheet holds rules, one changing another. [`fold`] folds them up to the first one that can't be folded exactly and copies
//! those from there on, and so does [`fold_plain`], by a second engine; [`lookup`] tells the state at a minute; [`write_back`] reads a
//! sheet and writes it again; [`line()`] writes it as text; [`convert`] moves it to the other [`Form`]. Each takes the sheet's form first.
//! What each answers is proved for every byte string, date and buffer, so a sheet may hold anything. include/hours.h says the same for C.
//!
//! Nothing is kept between calls and nothing is allocated: threads may call at once. The stack must have [`STACK`] bytes left.
//!
//! ```
//! use hours::Form;
//!
//! // One Normal Open rule, 00:00-24:00.
//! let sheet = [0, 1, 0, 0, 0, 0, 0, 0, 0, 0, 4, 0, 5, 0xA0, 0];
//! let mut out = [0; 64];
//!
//! let folded = hours::fold(Form::One, &sheet, &mut out)?;
//! assert_eq!(out[..folded.bytes], sheet);
//! assert_eq!(hours::fold_plain(Form::One, &sheet, &mut out)?, folded);
//!
//! let date = hours::Date { year: 2000, month: 2, day: 29 };
//! assert_eq!(hours::lookup(Form::One, &sheet, date, 720)?.kind, hours::Kind::Open);
//!
//! let bytes = hours::line(Form::One, &sheet, &mut out)?;
//! assert_eq!(out[..bytes], *b"00:00-24:00");
//!
//! let bytes = hours::convert(Form::One, &sheet, &mut out)?;
//! assert_eq!(hours::lookup(Form::Two, &out[..bytes], date, 720)?.kind, hours::Kind::Open);
//! # Ok::<(), hours::Refusal>(())
//! ```

#![no_std]
#![deny(missing_docs, unsafe_code)]

#[allow(unsafe_code)]
mod archive;
mod form;
mod reason;
mod refusal;

pub use form::Form;
pub use reason::Reason;
pub use refusal::Refusal;

/// Bytes of stack for a call: more than twice what the deepest call of the bench took (oracle/README.md). That a stack is deep enough is
/// not proved.
pub const STACK: usize = 3_000_000;

/// What a fold did. The folded sheet stands in the first `bytes` bytes of the buffer.
#[derive(Clone, Copy, Debug, PartialEq, Eq)]
pub struct Folded {
    /// Rules before the first one that can't be folded exactly.
    pub drained: usize,
    /// Rules that these were folded to.
    pub emitted: usize,
    /// Rules copied as they came, from the first one that can't be folded on.
    pub left: usize,
    /// Bytes written.
    pub bytes: usize,
    /// Why the first rule left can't be folded exactly; none where no rule is left.
    pub why: Option<Reason>,
}

/// A Gregorian date, from year 1900 to 9999. Months and days count from 1.
#[derive(Clone, Copy, Debug, PartialEq, Eq)]
pub struct Date {
    /// The year.
    pub year: u16,
    /// The month.
    pub month: u8,
    /// The day of the month.
    pub day: u8,
}

/// What a moment is.
#[derive(Clone, Copy, Debug, PartialEq, Eq)]
pub enum Kind {
    /// Open.
    Open,
    /// Closed.
    Closed,
    /// Not known.
    Unknown,
}

impl Kind {
    /// The kind of a number from 0 to 2. The archive tells no other.
    fn of(number: u64) -> Self {
        match number {
            0 => Self::Open,
            1 => Self::Closed,
            2 => Self::Unknown,
            _ => unreachable!("the archive tells no kind {number}"),
        }
    }
}

/// What a moment is, and the number of the comment on it, 0 for none.
#[derive(Clone, Copy, Debug, PartialEq, Eq)]
pub struct State {
    /// Whether it is open.
    pub kind: Kind,
    /// The comment's number.
    pub comment: u32,
}

/// Folds a sheet's rules up to the first one that can't be folded exactly, and copies the rules from there on.
///
/// The result is of the sheet's form. It stands at the front of `out`, and later bytes are unchanged. It may be longer than the sheet, and
/// have more rules and items than a sheet may; an empty `out` is refused with the bytes needed.
///
/// # Errors
///
/// Any refusal by codes 1 to 7, 11, 14 and, in form 1, 13, the first reason met. `out` is then unchanged.
pub fn fold(form: Form, sheet: &[u8], out: &mut [u8]) -> Result<Folded, Refusal> {
    folded(|lent| archive::fold(form.number(), sheet, out, lent))
}

/// The same by a second, plain engine, which answers as [`fold`] does in every case: the same numbers and the same bytes, on each refusal too.
///
/// It keeps a list for each box and looks at all boxes for each rule and for each group, so it is slower, the more so the more boxes and
/// groups there are, and takes more stack. It is for a bench that wants to read what it runs; others take [`fold`].
///
/// # Errors
///
/// Those of [`fold`].
pub fn fold_plain(form: Form, sheet: &[u8], out: &mut [u8]) -> Result<Folded, Refusal> {
    folded(|lent| archive::fold_plain(form.number(), sheet, out, lent))
}

/// The state at a minute of a date, 0 to 1439, by a sheet without a rule that can't be folded exactly: that of the last span that
/// covers the minute, else closed without a comment. The date's week is that of ISO 8601, its year that of the calendar: 1 January 2027 is in
/// week 53 and in 2027.
///
/// # Errors
///
/// Any refusal by codes 1 to 6, 8, 9, 11 and 14, the first reason met.
pub fn lookup(form: Form, sheet: &[u8], date: Date, minute: u16) -> Result<State, Refusal> {
    let moment = [
        date.year.into(),
        date.month.into(),
        date.day.into(),
        minute.into(),
    ];
    let [code, kind, comment, place] =
        numbers(|lent| archive::lookup(form.number(), sheet, moment, lent));

    done(code, place)?;
    Ok(State {
        kind: Kind::of(kind),
        comment: u32::try_from(comment).expect("a comment has 24 bits at most"),
    })
}

/// Reads a sheet and writes it again, to the front of `out`, and answers the bytes written; later bytes are unchanged. An accepted
/// sheet comes back byte for byte.
///
/// # Errors
///
/// Any refusal by codes 1 to 4 and 7, the first reason met. `out` is then unchanged.
pub fn write_back(form: Form, sheet: &[u8], out: &mut [u8]) -> Result<usize, Refusal> {
    written(|lent| archive::write_back(form.number(), sheet, out, lent))
}

/// Writes a sheet as one line of text, in the notation of the public OpenStreetMap opening_hours specification, to the front of `out`,
/// and answers the bytes written; later bytes are unchanged. The text is ASCII; no rules give an empty line.
///
/// The sheet itself is written and not its fold: to show a fold, [`fold`] the sheet first. A fold that has more rules, items or spans than
/// a sheet may is refused by code 4. An empty `out` is refused with the bytes needed.
///
/// The line is for people to read. A program that reads that notation takes a few lines for others without saying so, such as
/// `10:00-12:00, 13:00-14:00 unknown`; docs/DIFFERENCES.md says which ones, and what to write instead.
///
/// # Errors
///
/// Any refusal by codes 1 to 4, 7 and 10, the first reason met. `out` is then unchanged.
pub fn line(form: Form, sheet: &[u8], out: &mut [u8]) -> Result<usize, Refusal> {
    written(|lent| archive::line(form.number(), sheet, out, lent))
}

/// Moves a sheet of this form to the other one, at the front of `out`, and answers the bytes written; later bytes are unchanged. A sheet that
/// is moved and moved back is the same byte for byte. An empty `out` is refused with the bytes needed.
///
/// # Errors
///
/// Any refusal by codes 1 to 4, 7 and, from form 2, 12, the first reason met. `out` is then unchanged.
pub fn convert(form: Form, sheet: &[u8], out: &mut [u8]) -> Result<usize, Refusal> {
    written(|lent| archive::convert(form.number(), sheet, out, lent))
}

/// What an export folded.
fn folded(export: impl FnOnce(&mut [u64]) -> bool) -> Result<Folded, Refusal> {
    let [code, drained, emitted, left, bytes, place, why] = numbers(export);

    done(code, place)?;
    Ok(Folded {
        drained: size(drained),
        emitted: size(emitted),
        left: size(left),
        bytes: size(bytes),
        why: Reason::of(why),
    })
}

/// The bytes that an export wrote.
fn written(export: impl FnOnce(&mut [u64]) -> bool) -> Result<usize, Refusal> {
    let [code, bytes, place] = numbers(export);

    done(code, place)?;
    Ok(size(bytes))
}

/// The numbers that an export of the archive puts into a slice lent to it. The caller takes as many as the export tells.
fn numbers<const COUNT: usize>(export: impl FnOnce(&mut [u64]) -> bool) -> [u64; COUNT] {
    let mut lent = [0; COUNT];
    assert!(export(&mut lent), "{COUNT} numbers are enough");
    lent
}

fn done(code: u64, place: u64) -> Result<(), Refusal> {
    match code {
        0 => Ok(()),
        _ => Err(Refusal::of(code, size(place))),
    }
}

/// A count, or an index. The archive is x86-64 code, so a `usize` has 64 bits beside it.
fn size(number: u64) -> usize {
    number as usize
}
