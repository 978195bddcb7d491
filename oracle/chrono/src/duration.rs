//! `Duration`: a signed length of time. Kept in whole minutes, since docs/src holds nothing finer; ordered by length, as in chrono.

#[derive(Clone, Copy, Debug, Hash, PartialEq, Eq, PartialOrd, Ord)]
pub struct Duration {
    minutes: i64,
}

impl Duration {
    pub const fn days(days: i64) -> Self {
        Self::minutes(days * 24 * 60)
    }

    pub const fn minutes(minutes: i64) -> Self {
        Self { minutes }
    }

    /// Whole hours, rounded towards zero.
    pub const fn num_hours(&self) -> i64 {
        self.minutes / 60
    }

    pub const fn num_minutes(&self) -> i64 {
        self.minutes
    }
}
