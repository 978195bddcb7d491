//! How often numbers of each size were met.

use std::fmt::{Display, Formatter, Result};

/// Numbers by their count of binary digits: 0, 1, 2 to 3, 4 to 7 and so on.
#[derive(Default)]
pub struct Sizes([u64; CLASSES]);

/// Enough for the 135,424 rules that a result may have.
const CLASSES: usize = 19;

impl Sizes {
    pub fn count(&mut self, size: u64) {
        let digits = u64::BITS - size.leading_zeros();
        self.0[(digits as usize).min(CLASSES - 1)] += 1;
    }

    pub fn add(&mut self, other: &Self) {
        add_each(&mut self.0, &other.0);
    }
}

impl Display for Sizes {
    fn fmt(&self, f: &mut Formatter<'_>) -> Result {
        let met = self.0.iter().enumerate().filter(|(_, times)| **times > 0);

        met.map(|(digits, times)| match digits {
            0 | 1 => format!("{digits}: {times}"),
            _ => format!("{}-{}: {times}", 1 << (digits - 1), (1 << digits) - 1),
        })
        .collect::<Vec<_>>()
        .join(", ")
        .fmt(f)
    }
}

/// What was met at all, and how often.
pub fn met(counts: impl Iterator<Item = (impl Display, u64)>) -> String {
    counts
        .filter(|(_, times)| *times > 0)
        .map(|(name, times)| format!("{name}: {times}"))
        .collect::<Vec<_>>()
        .join(", ")
}

pub fn add_each(sums: &mut [u64], others: &[u64]) {
    for (sum, other) in sums.iter_mut().zip(others) {
        *sum += other;
    }
}
