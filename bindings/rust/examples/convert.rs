//! Moves document 01's example, a sheet of form 1 with one Normal Open rule 00:00-24:00, to form 2 and back, and prints both in hex.

use hours::{Form, Refusal, convert};

const SHEET: [u8; 15] = [0, 1, 0, 0, 0, 0, 0, 0, 0, 0, 0x04, 0x00, 0x05, 0xA0, 0x00];

fn main() -> Result<(), Refusal> {
    let mut sheet = SHEET.to_vec();

    for form in [Form::One, Form::Two] {
        let mut moved = vec![0; 65536];
        let bytes = convert(form, &sheet, &mut moved)?;

        moved.truncate(bytes);
        sheet = moved;
        println!("{}", hex(&sheet));
    }

    Ok(())
}

fn hex(bytes: &[u8]) -> String {
    bytes.iter().map(|byte| format!("{byte:02X}")).collect()
}
