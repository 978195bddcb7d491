//! Folds document 01's P2, Mo-Fr 10:00-18:00 Open and then Tu 12:00-13:00 Closed, and prints the fold as one line of text.

use std::error::Error;

use hours::{Form, fold, line};

const SHEET: [u8; 35] = [
    0x00, 0x02, 0x00, 0x00, 0x00, 0x00, 0x00, 0x00, 0x00, 0x10, 0x04, 0x20, 0x00, 0x07, 0xFE, 0x25,
    0x82, 0x1C, 0x02, 0x00, 0x00, 0x00, 0x00, 0x00, 0x00, 0x02, 0x00, 0x89, 0x00, 0x00, 0xFF, 0xC5,
    0xA0, 0x30, 0xC0,
];

fn main() -> Result<(), Box<dyn Error>> {
    let mut sheet = vec![0; 65536];
    let folded = fold(Form::One, &SHEET, &mut sheet)?;

    let mut text = vec![0; 65536];
    let bytes = line(Form::One, &sheet[..folded.bytes], &mut text)?;

    println!("{}", str::from_utf8(&text[..bytes])?);
    Ok(())
}
