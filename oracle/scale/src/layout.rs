//! The layout of the packed sheet in either form and its lawful values: `walk_sheet` meets every field in its order, and what a walk does
//! there makes it a reading, a writing or a list of places.

use oracle::form::Form;

use crate::rule::{
    DATED, ITEM_LIMIT, MONTHS, Monthday, RULE_LIMIT, Rule, Span, Stepped, Time, Weekday,
};

/// A code other than 0, with its place.
#[derive(Clone, Copy, Debug, PartialEq, Eq)]
pub struct Refusal {
    pub code: u64,
    pub place: u64,
}

impl Refusal {
    pub fn at(code: u64, place: usize) -> Self {
        let place = place as u64;
        Self { code, place }
    }
}

/// Bits that hold one number, and the code that refuses what is not from `lowest` to `highest`.
#[derive(Clone, Copy)]
pub struct Field {
    pub width: usize,
    pub lowest: u32,
    pub highest: u32,
    pub refused_by: u64,
}

const fn within(width: usize, lowest: u32, highest: u32) -> Field {
    Field {
        width,
        lowest,
        highest,
        refused_by: 2,
    }
}

const fn whole(width: usize) -> Field {
    within(width, 0, u32::MAX)
}

const fn count(width: usize, limit: usize) -> Field {
    Field {
        refused_by: 4,
        ..within(width, 0, limit as u32)
    }
}

/// What is done at each field of a sheet.
pub trait Walk {
    fn field(&mut self, field: Field, value: &mut u32) -> Result<(), Refusal>;

    /// Called before each rule.
    fn rule_begins(&mut self) {}
}

/// Meets the fields of a sheet in their order. A reading starts from no rules and fills them in.
pub fn walk_sheet(walk: &mut impl Walk, form: Form, rules: &mut Vec<Rule>) -> Result<(), Refusal> {
    if let Some(head) = form.head() {
        let mut value = head.value;
        walk.field(within(head.width, head.value, head.value), &mut value)?;
    }
    walk_count(walk, count(form.rule_count_width(), RULE_LIMIT), rules)?;

    rules.iter_mut().try_for_each(|rule| {
        walk.rule_begins();
        walk_rule(walk, form, rule)
    })
}

fn walk_rule(walk: &mut impl Walk, form: Form, rule: &mut Rule) -> Result<(), Refusal> {
    let items = count(form.item_count_width(), ITEM_LIMIT);

    walk.field(within(2, 0, 2), &mut rule.operator)?;
    walk.field(within(2, 0, 2), &mut rule.kind)?;
    walk.field(whole(form.comment_width()), &mut rule.comment)?;
    walk_count(walk, items, &mut rule.years)?;
    walk_count(walk, items, &mut rule.monthdays)?;
    walk_count(walk, items, &mut rule.weeks)?;
    walk_count(walk, items, &mut rule.weekdays)?;
    walk_count(walk, items, &mut rule.spans)?;

    for year in &mut rule.years {
        walk_stepped(walk, within(14, 1900, 9999), within(16, 1, u32::MAX), year)?;
    }
    for monthday in &mut rule.monthdays {
        walk_monthday(walk, monthday)?;
    }
    for week in &mut rule.weeks {
        walk_stepped(walk, within(6, 1, 53), within(8, 1, u32::MAX), week)?;
    }
    for weekday in &mut rule.weekdays {
        walk_weekday(walk, weekday)?;
    }
    for span in &mut rule.spans {
        walk_span(walk, span)?;
    }

    Ok(())
}

fn walk_count<T: Default>(
    walk: &mut impl Walk,
    field: Field,
    items: &mut Vec<T>,
) -> Result<(), Refusal> {
    let mut length = items.len() as u32;
    walk.field(field, &mut length)?;
    items.resize_with(length as usize, T::default);
    Ok(())
}

fn walk_stepped(
    walk: &mut impl Walk,
    bound: Field,
    step: Field,
    range: &mut Stepped,
) -> Result<(), Refusal> {
    walk.field(bound, &mut range.start)?;
    walk.field(bound, &mut range.end)?;
    walk.field(step, &mut range.step)
}

fn walk_monthday(walk: &mut impl Walk, monthday: &mut Monthday) -> Result<(), Refusal> {
    walk.field(within(2, MONTHS, DATED), &mut monthday.tag)?;

    if monthday.tag == DATED {
        return walk.field(whole(32), &mut monthday.reference);
    }

    walk.field(within(4, 1, 12), &mut monthday.start)?;
    walk.field(within(4, 1, 12), &mut monthday.end)?;

    match monthday.tag {
        MONTHS => Ok(()),
        _ => walk.field(within(14, 1900, 9999), &mut monthday.year),
    }
}

fn walk_weekday(walk: &mut impl Walk, weekday: &mut Weekday) -> Result<(), Refusal> {
    walk.field(whole(1), &mut weekday.tag)?;

    if weekday.tag == 1 {
        walk.field(whole(1), &mut weekday.kind)?;
        return walk.field(whole(16), &mut weekday.offset);
    }

    walk.field(within(3, 0, 6), &mut weekday.start)?;
    walk.field(within(3, 0, 6), &mut weekday.end)?;
    walk.field(whole(16), &mut weekday.offset)?;
    walk.field(whole(5), &mut weekday.nth_from_start)?;
    walk.field(whole(5), &mut weekday.nth_from_end)
}

fn walk_span(walk: &mut impl Walk, span: &mut Span) -> Result<(), Refusal> {
    walk_time(walk, &mut span.start)?;
    walk_time(walk, &mut span.end)?;
    walk.field(whole(1), &mut span.open_end)?;
    walk.field(whole(1), &mut span.repeats_flag)?;

    match span.repeats_flag {
        0 => Ok(()),
        _ => walk.field(whole(12), &mut span.repeats),
    }
}

fn walk_time(walk: &mut impl Walk, time: &mut Time) -> Result<(), Refusal> {
    walk.field(whole(1), &mut time.tag)?;

    match time.tag {
        0 => walk.field(within(12, 0, 2880), &mut time.minutes),
        _ => {
            walk.field(whole(2), &mut time.event)?;
            walk.field(whole(16), &mut time.offset)
        }
    }
}
