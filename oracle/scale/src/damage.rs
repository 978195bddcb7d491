//! Damage to sheets: given in the other form, cut short, bits flipped, ended wrong, fields set to what they may not hold, and noise.

use oracle::form::Form;

use crate::layout::{Field, Refusal, Walk, walk_sheet};
use crate::random::Random;
use crate::rule::Rule;
use crate::sheet::{overwrite, read_sheet, write_sheet};

/// How many sheets are whole, and said to be of the other form.
const OTHER_FORM_PERCENT: usize = 3;

/// The sheet of these rules, damaged in one way or another, and the form in which it is given. Not every damage makes it unlawful; where
/// the first does not, a second follows.
pub fn damaged(
    random: &mut Random,
    form: Form,
    rules: &mut Vec<Rule>,
    sheet: &[u8],
) -> (Form, Vec<u8>) {
    if random.percent(OTHER_FORM_PERCENT) {
        return (form.other(), sheet.into());
    }

    let once = damaged_once(random, form, rules, sheet.into());
    let damaged = match read_sheet(form, &once) {
        Ok(mut read) => damaged_once(random, form, &mut read.rules, once),
        Err(_) => once,
    };

    (form, damaged)
}

fn damaged_once(
    random: &mut Random,
    form: Form,
    rules: &mut Vec<Rule>,
    mut sheet: Vec<u8>,
) -> Vec<u8> {
    match random.weighed(&[(15, 0), (20, 1), (5, 2), (12, 3), (40, 4), (5, 5), (3, 6)]) {
        0 => sheet.truncate(random.below(sheet.len())),
        1 => flip(random, &mut sheet, 1),
        2 => {
            let bits = random.below(6) + 2;
            flip(random, &mut sheet, bits);
        }
        3 => end_wrong(random, &mut sheet),
        4 => overwrite_field(random, form, rules, &mut sheet),
        5 => sheet = noise(random, form),
        // Of form 2 the head.
        _ => overwrite(&mut sheet, 0, 4, random.within(0, 15)),
    }

    sheet
}

fn flip(random: &mut Random, sheet: &mut [u8], bits: usize) {
    for _ in 0..bits {
        let bit = random.below(8 * sheet.len());
        sheet[bit / 8] ^= 0x80 >> (bit % 8);
    }
}

/// A bit set in the last byte, often padding, and at times bytes that follow, rarely very many.
fn end_wrong(random: &mut Random, sheet: &mut Vec<u8>) {
    if random.percent(60) {
        *sheet.last_mut().expect("a sheet has its rule count") ^= 1 << random.below(8);
    }

    let longest = random.weighed(&[(95, 3), (5, 70_000)]);
    sheet.resize(sheet.len() + random.below(longest), 0);
    let tail: [&[u8]; 4] = [&[], &[0], &[1], &[0x80]];
    sheet.extend(random.of(&tail));
}

/// A few rules of which nothing but their count is sound.
fn noise(random: &mut Random, form: Form) -> Vec<u8> {
    let length = random.below(40);
    let mut sheet = write_sheet(form, Vec::new());
    let (place, width) = (form.rule_count_place(), form.rule_count_width());

    overwrite(&mut sheet, place, width, random.within(0, 2));
    sheet.extend(random.bytes(length));
    sheet
}

/// One field, of whatever sort, set to its highest or lowest pattern, to a value next to its bounds, or to any value.
fn overwrite_field(random: &mut Random, form: Form, rules: &mut Vec<Rule>, sheet: &mut [u8]) {
    let mut places = Places::default();
    walk_sheet(&mut places, form, rules).expect("a list of places refuses nothing");
    let (place, field) = random.of(&places.met);

    let highest_pattern = u32::MAX >> (32 - field.width);
    let value = match random.below(5) {
        0 => 0,
        1 => highest_pattern,
        2 => field.lowest.saturating_sub(1),
        3 => field.highest.saturating_add(1),
        _ => random.next() as u32,
    };

    overwrite(sheet, place, field.width, value);
}

/// Every field of a sheet with its place.
#[derive(Default)]
struct Places {
    place: usize,
    met: Vec<(usize, Field)>,
}

impl Walk for Places {
    fn field(&mut self, field: Field, _value: &mut u32) -> Result<(), Refusal> {
        self.met.push((self.place, field));
        self.place += field.width;
        Ok(())
    }
}
