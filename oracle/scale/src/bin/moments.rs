//! Lines and moments for a public evaluator: `moments --seed S --count N` makes N sheets, sheet i by nothing but S and i, and prints for
//! each that is drained whole, and whose fold has a line, by the archive:
//!
//!     L LINE
//!     M YEAR MONTH DAY MINUTE KIND COMMENT
//!
//! the fold's line, and then for each moment, in decimal, the date, the minute of the day, and what the lookup of the sheet itself answers:
//! kind 0 Open, 1 Closed, 2 Unknown, and the comment's number, 0 for none. Moments that the lookup refuses are left out.

use std::io::{self, BufWriter, Write};
use std::process::ExitCode;

use scale::archive::{self, Given};
use scale::arguments;
use scale::public_sheets::{PublicSheet, public_sheet};

fn main() -> ExitCode {
    let Some([seed, count]) = arguments::numbers([("--seed", 1), ("--count", 0)]) else {
        eprintln!("usage: moments --seed S --count N");
        return ExitCode::from(2);
    };

    let mut out = BufWriter::new(io::stdout().lock());
    let printed =
        (0..count).try_for_each(|number| print_sheet(&mut out, &public_sheet(seed, number)));

    match printed.and_then(|()| out.flush()) {
        Ok(()) => ExitCode::SUCCESS,
        Err(error) => {
            eprintln!("{error}");
            ExitCode::FAILURE
        }
    }
}

fn print_sheet(out: &mut impl Write, sheet: &PublicSheet) -> io::Result<()> {
    let Some(line) = line_of_fold(sheet.given()) else {
        return Ok(());
    };

    writeln!(out, "L {line}")?;

    for moment in &sheet.moments {
        if let Some([kind, comment]) = state(sheet.given(), *moment) {
            let [year, month, day, minute] = moment;
            writeln!(out, "M {year} {month} {day} {minute} {kind} {comment}")?;
        }
    }

    Ok(())
}

/// Ample for the folds and lines of these sheets; those that were longer would be left out.
const ROOM: usize = 1 << 16;

/// The line of the sheet's fold, where nothing is left and there is one.
fn line_of_fold(sheet: Given) -> Option<String> {
    let mut folded = vec![0; ROOM];
    let [code, _, _, left, bytes, _, _] = archive::numbers(archive::fold, sheet, &mut folded);
    if (code, left) != (0, 0) {
        return None;
    }

    let mut line = vec![0; ROOM];
    let folded = Given {
        bytes: &folded[..bytes as usize],
        ..sheet
    };
    let [code, bytes, _] = archive::numbers(archive::line, folded, &mut line);
    line.truncate(bytes as usize);
    (code == 0).then(|| String::from_utf8(line).expect("a line is in ASCII"))
}

/// Kind and comment at a moment, where the lookup answers.
fn state(sheet: Given, moment: [u64; 4]) -> Option<[u64; 2]> {
    let mut numbers = [0; 4];
    assert!(
        archive::lookup(sheet, moment, &mut numbers),
        "there is room for the numbers"
    );

    let [code, kind, comment, _] = numbers;
    (code == 0).then_some([kind, comment])
}
