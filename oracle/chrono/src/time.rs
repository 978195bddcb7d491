//! `NaiveTime`: a clock time. docs/src converts `ExtendedTime` from and to it and reads hour and minute by `Timelike`.

pub trait Timelike {
    fn hour(&self) -> u32;
    fn minute(&self) -> u32;
}

#[derive(Clone, Copy, Debug, Hash, PartialEq, Eq, PartialOrd, Ord)]
pub struct NaiveTime {
    hour: u32,
    minute: u32,
    second: u32,
}

impl NaiveTime {
    pub const fn from_hms_opt(hour: u32, minute: u32, second: u32) -> Option<Self> {
        if hour < 24 && minute < 60 && second < 60 {
            Some(Self {
                hour,
                minute,
                second,
            })
        } else {
            None
        }
    }
}

impl Timelike for NaiveTime {
    fn hour(&self) -> u32 {
        self.hour
    }

    fn minute(&self) -> u32 {
        self.minute
    }
}
