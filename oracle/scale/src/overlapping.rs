//! Sheets in which ranges of one selector share values or only touch, made from sound ones; and sheets made sound, of whose drained rules
//! none overlaps.

use crate::overlap::share_a_value;
use crate::points::{DIMENSIONS, Dimension, split};
use crate::random::Random;
use crate::rule::{DayItem, ITEM_LIMIT, Rule};
use crate::why::stops;

/// How many sheets overlap in rules left alone, where there are any.
const LEFT_PERCENT: usize = 12;

/// Takes from each drained rule the items that share a value with one before them.
pub fn take_overlaps(rules: &mut [Rule]) {
    let [weekdays, weeks, months, years] = &DIMENSIONS;

    for rule in rules.iter_mut().take_while(|rule| !stops(rule)) {
        keep_apart(&mut rule.weekdays, weekdays);
        keep_apart(&mut rule.weeks, weeks);
        keep_apart(&mut rule.monthdays, months);
        keep_apart(&mut rule.years, years);
    }
}

fn keep_apart<T: DayItem>(items: &mut Vec<T>, dimension: &Dimension) {
    let mut kept = Vec::new();

    items.retain(|item| {
        let (start, end) = item.ends();
        let with_it = [&kept[..], &split(start, end, dimension)].concat();
        let apart = !share_a_value(&with_it);
        if apart {
            kept = with_it;
        }
        apart
    });
}

/// A copy of a sound sheet's rules, of which one or a few get a range that shares values with another one, or only touches it.
pub fn overlapping(random: &mut Random, rules: &[Rule]) -> Vec<Rule> {
    let mut rules = rules.to_vec();
    let drained = rules.iter().position(stops).unwrap_or(rules.len());
    let changed = match drained < rules.len() && (drained == 0 || random.percent(LEFT_PERCENT)) {
        true => drained..rules.len(),
        false => 0..drained,
    };

    if !changed.is_empty() {
        for _ in 0..random.weighed(&[(75, 1), (20, 2), (5, 3)]) {
            let index = changed.start + random.below(changed.len());
            change(random, &mut rules[index]);
        }
    }

    rules
}

fn change(random: &mut Random, rule: &mut Rule) {
    let [weekdays, weeks, months, years] = &DIMENSIONS;

    match random.below(4) {
        0 => change_items(random, &mut rule.weekdays, weekdays),
        1 => change_items(random, &mut rule.weeks, weeks),
        2 => change_items(random, &mut rule.monthdays, months),
        _ => change_items(random, &mut rule.years, years),
    }
}

/// One more range or, in place of an item, one that reaches from the start of one to that of another. A rule of all days first gets a range
/// at all.
fn change_items<T: DayItem>(random: &mut Random, items: &mut Vec<T>, dimension: &Dimension) {
    if items.is_empty() {
        let (start, end) = any_ends(random, dimension);
        items.push(T::between(start, end));
    }

    let beside = some_ends(random, items, dimension);

    if items.len() > 1 && random.percent(20) {
        let (start, _) = some_ends(random, items, dimension);
        let place = random.below(items.len());
        items[place] = T::between(start, beside.0);
    } else {
        let (start, end) = ends_beside(random, beside, dimension);
        put(random, items, T::between(start, end));
    }
}

/// The ends of one of the items; any where it has none, as a holiday or a reference of a rule left.
fn some_ends<T: DayItem>(random: &mut Random, items: &[T], dimension: &Dimension) -> (u32, u32) {
    let (start, end) = random.of(items).ends();

    match dimension.contains(&start) && dimension.contains(&end) {
        true => (start, end),
        false => any_ends(random, dimension),
    }
}

/// The same range again, one that begins at its end or ends at its start, one that begins behind it or ends before it, the whole dimension,
/// rising or as a wrap, one that wraps, or any.
fn ends_beside(random: &mut Random, (start, end): (u32, u32), dimension: &Dimension) -> (u32, u32) {
    let (one, other) = any_ends(random, dimension);
    let (lowest, highest) = (dimension.start, dimension.end - 1);
    let behind = |value| if value == highest { lowest } else { value + 1 };
    let before = |value| if value == lowest { highest } else { value - 1 };

    match random.below(10) {
        0 => (start, end),
        1 => (end, one),
        2 => (one, start),
        3 => (behind(end), behind(end)),
        4 => (behind(end), before(start)),
        5 => (before(start), before(start)),
        6 => (lowest, highest),
        7 => (behind(one), one),
        8 => (one.max(other), one.min(other)),
        _ => (one, other),
    }
}

fn any_ends(random: &mut Random, dimension: &Dimension) -> (u32, u32) {
    let (lowest, highest) = (dimension.start, dimension.end - 1);
    (
        random.within(lowest, highest),
        random.within(lowest, highest),
    )
}

/// One more item at any place, in exchange for another one where there are as many as may be.
fn put<T>(random: &mut Random, items: &mut Vec<T>, item: T) {
    if items.len() < ITEM_LIMIT {
        random.insert(items, |_| item);
    } else {
        let place = random.below(items.len());
        items[place] = item;
    }
}

#[cfg(test)]
mod tests {
    use oracle::form::Form;

    use super::*;
    use crate::archive::Given;
    use crate::bench_sheets::bench_sheets;
    use crate::expected::Sheet;
    use crate::recipes::{MIXED, rules};
    use crate::sheet::write_sheet;

    const SHEETS: u64 = 20_000;

    /// The code of a sheet's fold, and the place where it is 11.
    fn refused(form: Form, rules: Vec<Rule>) -> (u64, u64) {
        let given = Given {
            form: form.number(),
            bytes: &write_sheet(form, rules),
        };
        let fold = Sheet::new(given).fold();
        (fold.numbers[0], fold.numbers[5])
    }

    #[test]
    fn sound_sheets_never_overlap_and_others_do_at_any_rule() {
        let mut places = [0; 4];
        let mut folded = 0;

        for number in 0..SHEETS {
            let mut random = Random::new(1, number);
            let form = random.of(&[Form::One, Form::Two]);
            let sound = rules(&mut random, form, &MIXED);
            let changed = refused(form, overlapping(&mut random, &sound));
            assert_ne!(refused(form, sound).0, 11, "sheet {number}");

            match changed {
                (11, place) => places[(place as usize).min(3)] += 1,
                (code, _) => folded += u64::from(code == 0),
            }
        }

        assert!(
            places.iter().all(|times| *times > SHEETS / 50),
            "{places:?}"
        );
        assert!(folded > SHEETS / 10, "{folded}");
    }

    #[test]
    fn no_sheet_of_the_bench_is_refused() {
        for sheet in bench_sheets() {
            let read = Sheet::new(sheet.given());
            let accepted = read.accepted().expect("it is read");
            assert!(accepted.extent().is_ok(), "{}", sheet.name);
        }
    }
}
