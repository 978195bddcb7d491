//! `Weekday`: the seven days, Monday first. Without an order of its own, as in chrono, where docs/src adds one by `OrderedWeekday`.

#[derive(Clone, Copy, Debug, Hash, PartialEq, Eq)]
pub enum Weekday {
    Mon,
    Tue,
    Wed,
    Thu,
    Fri,
    Sat,
    Sun,
}

impl Weekday {
    const ALL: [Self; 7] = [
        Self::Mon,
        Self::Tue,
        Self::Wed,
        Self::Thu,
        Self::Fri,
        Self::Sat,
        Self::Sun,
    ];

    /// The next day; after Sunday comes Monday.
    pub const fn succ(self) -> Self {
        Self::ALL[(self as usize + 1) % 7]
    }

    /// The day before; before Monday comes Sunday.
    pub const fn pred(self) -> Self {
        Self::ALL[(self as usize + 6) % 7]
    }

    /// Monday is 1, Sunday is 7.
    pub const fn number_from_monday(self) -> u32 {
        self as u32 + 1
    }

    /// How many days lie between the last `other` and this day, 0 to 6.
    pub const fn days_since(self, other: Self) -> u32 {
        (7 + self as u32 - other as u32) % 7
    }
}
