//! Fields of bits in bytes, the most significant bit first, and the hex form of bytes.

/// Reads fields from the front of a sheet.
pub struct BitReader<'a> {
    bytes: &'a [u8],
    position: usize,
}

impl<'a> BitReader<'a> {
    pub fn new(bytes: &'a [u8]) -> Self {
        Self::at(bytes, 0)
    }

    /// Reads on from a bit of the sheet.
    pub fn at(bytes: &'a [u8], position: usize) -> Self {
        Self { bytes, position }
    }

    /// How many bits were read.
    pub fn position(&self) -> usize {
        self.position
    }

    /// The next `width` bits as a number, or nothing where they run past the end.
    pub fn field(&mut self, width: usize) -> Option<u32> {
        let end = self.position + width;

        if end > self.bytes.len() * 8 {
            return None;
        }

        let window = self.bytes[self.position / 8..end.div_ceil(8)]
            .iter()
            .fold(0, |window, byte| window << 8 | u64::from(*byte));
        let from_the_last_byte = window >> (end.next_multiple_of(8) - end);
        self.position = end;
        Some((from_the_last_byte & ((1 << width) - 1)) as u32)
    }

    /// Whether all that is left are zero bits to the end of the byte.
    pub(crate) fn only_padding_left(&self) -> bool {
        let end = self.bytes.len() * 8;
        end - self.position < 8 && (self.position..end).all(|place| self.bit(place) == 0)
    }

    fn bit(&self, place: usize) -> u8 {
        self.bytes[place / 8] >> (7 - place % 8) & 1
    }
}

/// Writes fields one after another; the last byte is filled with zero bits.
#[derive(Default)]
pub struct BitWriter {
    bytes: Vec<u8>,
    /// Fewer than eight bits that wait for their byte to be full.
    waiting: u64,
    waiting_width: usize,
}

impl BitWriter {
    /// Writes `value` in `width` bits. A value that does not fit has no packed form, and no answer may be made up for it.
    pub fn field(&mut self, name: &str, width: usize, value: u32) {
        assert!(
            u64::from(value) < 1 << width,
            "the result cannot be packed: {name} is {value}, its field has {width} bits"
        );

        self.waiting = self.waiting << width | u64::from(value);
        self.waiting_width += width;

        while self.waiting_width >= 8 {
            self.waiting_width -= 8;
            self.bytes.push((self.waiting >> self.waiting_width) as u8);
        }

        self.waiting &= (1 << self.waiting_width) - 1;
    }

    pub fn into_bytes(mut self) -> Vec<u8> {
        if self.waiting_width > 0 {
            self.bytes
                .push((self.waiting << (8 - self.waiting_width)) as u8);
        }

        self.bytes
    }
}

/// The bytes of a line of hex, or nothing where it is none.
pub fn from_hex(line: &str) -> Option<Vec<u8>> {
    let digits: Vec<u8> = line
        .chars()
        .map(|digit| digit.to_digit(16).map(|value| value as u8))
        .collect::<Option<_>>()?;

    let (pairs, rest) = digits.as_chunks::<2>();
    rest.is_empty()
        .then(|| pairs.iter().map(|[high, low]| high << 4 | low).collect())
}

/// Bytes in upper-case hex.
pub fn to_hex(bytes: &[u8]) -> String {
    bytes.iter().map(|byte| format!("{byte:02X}")).collect()
}
