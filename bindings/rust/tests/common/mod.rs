//! Sheets are written in hex, and folded by both engines.

mod engines;

pub use engines::fold;

pub fn bytes(hex: &str) -> Vec<u8> {
    hex.as_bytes()
        .chunks(2)
        .map(|pair| {
            let pair = str::from_utf8(pair).expect("hex is ASCII");
            u8::from_str_radix(pair, 16).expect("a byte has two hex digits")
        })
        .collect()
}
