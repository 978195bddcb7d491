//! What a function of the archive answers: numbers, and bytes at the front of a buffer.

use crate::layout::Refusal;

/// The numbers that a function answers: how many they are, and where the place stands among them. The code comes first.
#[derive(Clone, Copy, Debug, PartialEq, Eq)]
pub struct Numbers {
    pub count: usize,
    place: usize,
}

/// Code, drained, emitted, left, bytes, place and why.
pub const FOLD_NUMBERS: Numbers = Numbers { count: 7, place: 5 };
/// Where the bytes of a fold stand among its numbers.
const FOLD_BYTES: usize = 4;
/// Code, bytes and place, of a write-back, a line or a conversion.
pub const WRITTEN_NUMBERS: Numbers = Numbers { count: 3, place: 2 };
/// Code, kind, comment and place.
pub const LOOKUP_NUMBERS: Numbers = Numbers { count: 4, place: 3 };

/// The numbers of an answer, and the bytes that then stand at the front of the buffer.
#[derive(Clone, Debug, PartialEq, Eq)]
pub struct Answer {
    pub sort: Numbers,
    pub numbers: Vec<u64>,
    pub result: Vec<u8>,
}

impl Answer {
    /// Every number but code and place is 0.
    fn refused(refusal: Refusal, sort: Numbers) -> Self {
        let mut numbers = vec![0; sort.count];
        numbers[0] = refusal.code;
        numbers[sort.place] = refusal.place;

        Self {
            sort,
            numbers,
            result: Vec::new(),
        }
    }

    pub fn of(outcome: Result<(Vec<u64>, Vec<u8>), Refusal>, sort: Numbers) -> Self {
        match outcome {
            Ok((numbers, result)) => Self {
                sort,
                numbers,
                result,
            },
            Err(refusal) => Self::refused(refusal, sort),
        }
    }

    /// Code, bytes and place of a sheet or text that was written.
    pub fn written(outcome: Result<Vec<u8>, Refusal>) -> Self {
        let done = outcome.map(|result| (vec![0, result.len() as u64, 0], result));

        Self::of(done, WRITTEN_NUMBERS)
    }

    /// The answer of a fold that says the same in other bytes.
    pub fn with_result(&self, result: Vec<u8>) -> Self {
        let mut answer = Self {
            result,
            ..self.clone()
        };
        answer.numbers[FOLD_BYTES] = answer.result.len() as u64;
        answer
    }

    /// The answer where the buffer has so many bytes.
    pub fn in_room(&self, room: usize) -> Self {
        if room < self.result.len() {
            Self::refused(Refusal::at(7, self.result.len()), self.sort)
        } else {
            self.clone()
        }
    }
}
