//! Packed sheets of either form read, or refused by codes 1 to 4, and written. Rests on `layout`.

use oracle::bits::{BitReader, BitWriter};
use oracle::form::Form;

use crate::layout::{Field, Refusal, Walk, walk_sheet};
use crate::rule::Rule;

/// The rules of a sheet, and the place of each rule's first bit followed by that of the first bit after the rules.
pub struct Read {
    pub rules: Vec<Rule>,
    pub places: Vec<usize>,
}

struct Reading<'a> {
    bits: BitReader<'a>,
    places: Vec<usize>,
}

impl Walk for Reading<'_> {
    fn field(&mut self, field: Field, value: &mut u32) -> Result<(), Refusal> {
        let place = self.bits.position();
        *value = self.bits.field(field.width).ok_or(Refusal::at(1, place))?;

        if (field.lowest..=field.highest).contains(value) {
            Ok(())
        } else {
            Err(Refusal::at(field.refused_by, place))
        }
    }

    fn rule_begins(&mut self) {
        self.places.push(self.bits.position());
    }
}

pub fn read_sheet(form: Form, sheet: &[u8]) -> Result<Read, Refusal> {
    let mut rules = Vec::new();
    let mut reading = Reading {
        bits: BitReader::new(sheet),
        places: Vec::new(),
    };

    walk_sheet(&mut reading, form, &mut rules)?;
    reading.rule_begins();
    let end = reading.bits.position();

    match first_set_bit(sheet, end) {
        Some(place) => Err(Refusal::at(3, place)),
        None if end.div_ceil(8) < sheet.len() => Err(Refusal::at(3, end.next_multiple_of(8))),
        None => Ok(Read {
            rules,
            places: reading.places,
        }),
    }
}

/// The first bit from `place` to the end of its byte that is set.
fn first_set_bit(sheet: &[u8], place: usize) -> Option<usize> {
    (place..place.next_multiple_of(8)).find(|bit| BitReader::at(sheet, *bit).field(1) == Some(1))
}

/// Writes the fields met, whatever their values; no limit is looked at here.
impl Walk for BitWriter {
    fn field(&mut self, field: Field, value: &mut u32) -> Result<(), Refusal> {
        BitWriter::field(self, "a field of a made sheet", field.width, *value);
        Ok(())
    }
}

pub fn write_sheet(form: Form, mut rules: Vec<Rule>) -> Vec<u8> {
    let mut writer = BitWriter::default();
    walk_sheet(&mut writer, form, &mut rules).expect("a writing refuses nothing");
    writer.into_bytes()
}

/// Sets the bits of a field, whatever stood there.
pub fn overwrite(sheet: &mut [u8], place: usize, width: usize, value: u32) {
    for (offset, bit) in (0..width).rev().enumerate() {
        set_bit(sheet, place + offset, value >> bit & 1 == 1);
    }
}

fn set_bit(sheet: &mut [u8], place: usize, bit: bool) {
    let mask = 0x80 >> (place % 8);

    match bit {
        true => sheet[place / 8] |= mask,
        false => sheet[place / 8] &= !mask,
    }
}
