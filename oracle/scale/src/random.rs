//! Seeded numbers: what they give depends on the seed and the sheet's number alone (splitmix64).

pub struct Random {
    state: u64,
}

const STEP: u64 = 0x9E37_79B9_7F4A_7C15;

impl Random {
    pub fn new(seed: u64, number: u64) -> Self {
        let mut random = Self { state: seed };
        random.state = random.next().wrapping_add(number);
        random.state = random.next();
        random
    }

    pub fn next(&mut self) -> u64 {
        self.state = self.state.wrapping_add(STEP);
        let mixed = (self.state ^ self.state >> 30).wrapping_mul(0xBF58_476D_1CE4_E5B9);
        let mixed = (mixed ^ mixed >> 27).wrapping_mul(0x94D0_49BB_1331_11EB);
        mixed ^ mixed >> 31
    }

    pub fn below(&mut self, bound: usize) -> usize {
        ((u128::from(self.next()) * bound as u128) >> 64) as usize
    }

    /// A number from `lowest` to `highest`, both included.
    pub fn within(&mut self, lowest: u32, highest: u32) -> u32 {
        lowest + self.below((highest - lowest) as usize + 1) as u32
    }

    /// Yes so many times in a hundred.
    pub fn percent(&mut self, times: usize) -> bool {
        self.below(100) < times
    }

    pub fn of<T: Clone>(&mut self, values: &[T]) -> T {
        values[self.below(values.len())].clone()
    }

    /// One of the values, each as likely as its weight says.
    pub fn weighed<T: Clone>(&mut self, values: &[(usize, T)]) -> T {
        let mut rest = self.below(values.iter().map(|(weight, _)| weight).sum());

        for (weight, value) in values {
            match rest.checked_sub(*weight) {
                Some(less) => rest = less,
                None => return value.clone(),
            }
        }

        unreachable!("the rest is below the sum of the weights")
    }

    /// So many of the values, or all where there are no more, in any order.
    pub fn some_of<T: Clone>(&mut self, values: &[T], count: usize) -> Vec<T> {
        let mut values = values.to_vec();
        self.shuffle(&mut values);
        values.truncate(count);
        values
    }

    pub fn shuffle<T>(&mut self, values: &mut [T]) {
        for place in (1..values.len()).rev() {
            values.swap(place, self.below(place + 1));
        }
    }

    /// One more item, at any place.
    pub fn insert<T>(&mut self, items: &mut Vec<T>, item: impl FnOnce(&mut Self) -> T) {
        let place = self.below(items.len() + 1);
        items.insert(place, item(self));
    }

    pub fn bytes(&mut self, count: usize) -> Vec<u8> {
        (0..count).map(|_| self.next() as u8).collect()
    }
}
