//! One call of a function of the archive, held against the answer that is expected: the numbers, the bytes of the result, and all other bytes
//! and numbers as they were. Of a fold, by both engines.

use crate::answer::{Answer, FOLD_NUMBERS, LOOKUP_NUMBERS, Numbers, WRITTEN_NUMBERS};
use crate::archive::{self, Given, Writing};
use crate::random::Random;
use crate::tally::Tally;

/// A call that was answered otherwise than expected.
#[derive(Debug)]
pub struct Difference {
    pub call: String,
    pub expected: String,
    pub given: String,
}

/// A sheet or text that is written: by each of these functions, which answer alike.
pub struct Entry {
    functions: &'static [(&'static str, Writing)],
    pub numbers: Numbers,
}

impl Entry {
    const fn new(functions: &'static [(&'static str, Writing)], numbers: Numbers) -> Self {
        Self { functions, numbers }
    }

    /// Whether another engine is asked as well.
    pub fn has_two_engines(&self) -> bool {
        self.functions.len() > 1
    }
}

/// Wherever a fold is compared, both engines are given the same sheet and the same room.
pub const FOLD: Entry = Entry::new(
    &[("fold", archive::fold), ("plain fold", archive::fold_plain)],
    FOLD_NUMBERS,
);
pub const WRITE_BACK: Entry = Entry::new(&[("write back", archive::write_back)], WRITTEN_NUMBERS);
pub const LINE: Entry = Entry::new(&[("line", archive::line)], WRITTEN_NUMBERS);
pub const CONVERT: Entry = Entry::new(&[("convert", archive::convert)], WRITTEN_NUMBERS);

/// What a buffer holds before a call. Two fills, so that no byte written can pass for one left alone in both.
const FILLS: [u8; 2] = [0xA5, 0x5A];
const NUMBER_FILL: u64 = 0xA5A5_5A5A_A5A5_5A5A;
/// Bytes of a buffer that are printed where it differs.
const SHOWN: usize = 4096;
/// Numbers lent beyond those that are answered.
const NUMBERS_MORE: usize = 2;

/// A buffer with some bytes to spare, one that is exactly full, one that is a byte short, and at times none or any shorter one.
pub fn compare_rooms(
    entry: &Entry,
    given: Given,
    ample: &Answer,
    random: &mut Random,
    tally: &mut Tally,
) -> Result<(), Difference> {
    let needed = ample.result.len();
    compare_room(entry, given, ample, needed + random.below(70), FILLS[0])?;

    if needed > 0 {
        compare_room(entry, given, ample, needed, FILLS[1])?;
        let shorter = [needed - 1, needed - 1, needed - 1, 0, random.below(needed)];
        compare_room(entry, given, ample, random.of(&shorter), FILLS[0])?;
        tally.short_buffers += 1;
    }

    Ok(())
}

/// A buffer that is exactly full.
pub fn compare_full(entry: &Entry, given: Given, ample: &Answer) -> Result<(), Difference> {
    compare_in_room(entry, given, ample, ample.result.len())
}

/// A buffer of so many bytes.
pub fn compare_in_room(
    entry: &Entry,
    given: Given,
    ample: &Answer,
    room: usize,
) -> Result<(), Difference> {
    compare_room(entry, given, ample, room, FILLS[0])
}

fn compare_room(
    entry: &Entry,
    given: Given,
    ample: &Answer,
    room: usize,
    fill: u8,
) -> Result<(), Difference> {
    let expected = ample.in_room(room);
    let mut buffer = vec![fill; room];
    buffer[..expected.result.len()].copy_from_slice(&expected.result);
    let seen = (true, with_more(&expected.numbers), buffer);

    for (name, function) in entry.functions {
        let mut out = vec![fill; room];
        let mut numbers = vec![NUMBER_FILL; expected.numbers.len() + NUMBERS_MORE];
        let answered = function(given, &mut out, &mut numbers);
        let form = given.form;

        held(
            || format!("{name} in form {form} into {room} bytes of {fill:02X}"),
            &seen,
            &(answered, numbers, out),
        )?;
    }

    Ok(())
}

pub fn compare_lookup(given: Given, moment: [u64; 4], expected: &Answer) -> Result<(), Difference> {
    let mut numbers = vec![NUMBER_FILL; LOOKUP_NUMBERS.count + NUMBERS_MORE];
    let answered = archive::lookup(given, moment, &mut numbers);

    held(
        || format!("lookup in form {} at {moment:?}", given.form),
        &(true, with_more(&expected.numbers), Vec::new()),
        &(answered, numbers, Vec::new()),
    )
}

/// A slice too short for the numbers is answered no, with nothing written anywhere. Most lack the last number alone.
pub fn compare_short_numbers(given: Given, random: &mut Random) -> Result<(), Difference> {
    let room = given.bytes.len();
    let untouched = |length| (false, vec![NUMBER_FILL; length], vec![FILLS[0]; room]);

    for entry in [FOLD, WRITE_BACK, LINE, CONVERT] {
        let count = too_few(random, entry.numbers);
        for (name, function) in entry.functions {
            let (_, mut numbers, mut out) = untouched(count);
            let answered = function(given, &mut out, &mut numbers);
            let call = || format!("{name} with {count} numbers");
            held(call, &untouched(count), &(answered, numbers, out))?;
        }
    }

    let count = too_few(random, LOOKUP_NUMBERS);
    let (_, mut numbers, out) = untouched(count);
    let answered = archive::lookup(given, [2000, 2, 29, 720], &mut numbers);
    let call = || format!("lookup with {count} numbers");
    held(call, &untouched(count), &(answered, numbers, out))
}

fn too_few(random: &mut Random, all: Numbers) -> usize {
    let any = random.below(all.count);
    random.of(&[any, all.count - 1])
}

fn with_more(numbers: &[u64]) -> Vec<u64> {
    [numbers, &[NUMBER_FILL; NUMBERS_MORE]].concat()
}

/// Whether the function answered, the numbers lent and the buffer lent.
type Seen = (bool, Vec<u64>, Vec<u8>);

fn held(call: impl Fn() -> String, expected: &Seen, given: &Seen) -> Result<(), Difference> {
    if expected == given {
        return Ok(());
    }

    Err(Difference {
        call: call(),
        expected: shown(expected),
        given: shown(given),
    })
}

/// The buffer's front alone, where it is long.
fn shown((answered, numbers, buffer): &Seen) -> String {
    let length = buffer.len();
    let front = oracle::bits::to_hex(&buffer[..length.min(SHOWN)]);
    format!("{answered} {numbers:?} {front} ({length} bytes)")
}

#[cfg(test)]
mod tests {
    use super::*;
    use crate::expected::Sheet;
    use crate::stack::with_stack;

    const EMPTY_SHEET: Given = Given {
        form: 1,
        bytes: &[0; 2],
    };

    /// A second engine that clears the last byte of its buffer, be it of the result or not.
    fn fold_wrongly(given: Given, out: &mut [u8], numbers: &mut [u64]) -> bool {
        let answered = archive::fold(given, out, numbers);
        if let Some(last) = out.last_mut() {
            *last = 0;
        }
        answered
    }

    const WRONG: Entry = Entry::new(
        &[("fold", archive::fold), ("wrong fold", fold_wrongly)],
        FOLD_NUMBERS,
    );

    #[test]
    fn each_engine_is_held_against_what_is_expected() {
        let fold = Sheet::new(EMPTY_SHEET).fold();
        let in_room = |entry: &Entry, room| {
            with_stack(|| compare_in_room(entry, EMPTY_SHEET, &fold, room))
                .map_err(|difference| difference.call)
        };

        for room in 0..4 {
            assert_eq!(in_room(&FOLD, room), Ok(()));
        }
        assert_eq!(in_room(&WRONG, 2), Ok(()));
        for room in [1, 3] {
            let call = format!("wrong fold in form 1 into {room} bytes of A5");
            assert_eq!(in_room(&WRONG, room), Err(call));
        }
    }
}
