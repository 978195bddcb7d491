//! Folds document 01's example, a sheet of one Normal Open rule 00:00-24:00, and prints what the program foldsheet prints for it.

use hours::{Folded, Form, Reason, fold};

const SHEET: [u8; 15] = [0, 1, 0, 0, 0, 0, 0, 0, 0, 0, 0x04, 0x00, 0x05, 0xA0, 0x00];

fn main() {
    let mut out = vec![0; 65536];

    match fold(Form::One, &SHEET, &mut out) {
        Ok(folded) => {
            let Folded {
                drained,
                emitted,
                left,
                bytes,
                why,
            } = folded;
            let why = why.map_or(0, Reason::number);
            println!(
                "code 0 drained {drained} emitted {emitted} left {left} bytes {bytes} place 0 why {why}"
            );
            println!("{}", hex(&out[..bytes]));
        }
        Err(refusal) => {
            let (code, place) = (refusal.code(), refusal.place());
            println!("code {code} drained 0 emitted 0 left 0 bytes 0 place {place} why 0\n-");
        }
    }
}

fn hex(bytes: &[u8]) -> String {
    bytes.iter().map(|byte| format!("{byte:02X}")).collect()
}
