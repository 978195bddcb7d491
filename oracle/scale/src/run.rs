//! Sheets by their numbers, sound, overlapping and damaged, half of them in each form, compared one after the other.

use oracle::form::Form;

use crate::calls::Difference;
use crate::compare::compare;
use crate::damage::damaged;
use crate::large::LARGE;
use crate::many_lists::MANY_LISTS;
use crate::overlapping::overlapping;
use crate::random::Random;
use crate::recipes::{MIXED, Recipe, rules};
use crate::rule::Rule;
use crate::sheet::write_sheet;
use crate::shrink::shrunk;
use crate::tally::Tally;

/// Which sheets a run makes: of all sorts, large ones alone, or those of many lists alone.
#[derive(Clone, Copy)]
pub enum Sheets {
    Mixed,
    Large,
    Lists,
}

impl Sheets {
    fn recipes(self) -> &'static [(usize, Recipe)] {
        match self {
            Self::Mixed => &MIXED,
            Self::Large => &LARGE,
            Self::Lists => &MANY_LISTS,
        }
    }

    /// Form and rules of the sound sheet of a number, and the random numbers that follow.
    pub fn sound(self, seed: u64, number: u64) -> (Random, Form, Vec<Rule>) {
        let mut random = Random::new(seed, number);
        let form = random.of(&[Form::One, Form::Two]);
        let rules = rules(&mut random, form, self.recipes());
        (random, form, rules)
    }
}

/// What was met among sound, among overlapping and among damaged sheets, and the sheets that differ.
#[derive(Default)]
pub struct Report {
    pub sound: Tally,
    pub overlapping: Tally,
    pub damaged: Tally,
    pub differences: Vec<(Form, Vec<u8>, Difference)>,
}

impl Report {
    /// Compares the sound sheet of a number, one made from it in which ranges overlap or touch, and a damaged copy of it.
    pub fn compare_number(&mut self, sheets: Sheets, seed: u64, number: u64) {
        let (mut random, form, mut rules) = sheets.sound(seed, number);
        let sheet = write_sheet(form, rules.clone());
        let changed = write_sheet(form, overlapping(&mut random, &rules));
        let (copy_form, copy) = damaged(&mut random, form, &mut rules, &sheet);
        let state = random.next();

        for (form, sheet, tally) in [
            (form, sheet, &mut self.sound),
            (form, changed, &mut self.overlapping),
            (copy_form, copy, &mut self.damaged),
        ] {
            self.differences
                .extend(first_difference(form, sheet, state, tally));
        }
    }

    pub fn sheets(&self) -> u64 {
        self.sound.sheets + self.overlapping.sheets + self.damaged.sheets
    }

    pub fn add(&mut self, other: Self) {
        self.sound.add(&other.sound);
        self.overlapping.add(&other.overlapping);
        self.damaged.add(&other.damaged);
        self.differences.extend(other.differences);
    }
}

/// The difference that a sheet shows, if any, in a smaller sheet where one was found.
fn first_difference(
    form: Form,
    sheet: Vec<u8>,
    seed: u64,
    tally: &mut Tally,
) -> Option<(Form, Vec<u8>, Difference)> {
    let compared = |sheet: &[u8], tally: &mut Tally| {
        let _named = NamedOnPanic(form, sheet);
        compare(form, sheet, &mut Random::new(seed, 0), tally)
    };

    let difference = compared(&sheet, tally).err()?;
    let smaller = shrunk(form, sheet, |smaller| {
        compared(smaller, &mut Tally::default()).is_err()
    });
    let difference = compared(&smaller, &mut Tally::default())
        .err()
        .unwrap_or(difference);
    Some((form, smaller, difference))
}

/// Names the sheet on which the Rust or this program stumbled, among the many of a run.
struct NamedOnPanic<'a>(Form, &'a [u8]);

impl Drop for NamedOnPanic<'_> {
    fn drop(&mut self) {
        if std::thread::panicking() {
            let Self(form, sheet) = self;
            let hex = oracle::bits::to_hex(sheet);
            eprintln!("stumbled over the sheet {hex} of form {}", form.number());
        }
    }
}
