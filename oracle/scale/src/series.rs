//! The series of the bench: sheets of which one thing grows, rules, boxes, groups or lists, while rules and boxes otherwise stay as many.

use oracle::form::Form;

use crate::bench_sheets::{BenchSheet, bench_sheet};
use crate::boxes::{Shape, boxes_rule};
use crate::groups::{each_interval, each_odd_choice, everywhere, with_own_states};
use crate::growth_sheets::{SOME_BOXES, SOME_RULES, over_stretches};
use crate::lists::LIST_LIMIT;
use crate::random::Random;
use crate::rule::{NORMAL, Rule};

/// Sheets, each with how much it has of what grows.
pub struct Series {
    pub title: &'static str,
    pub grows: &'static str,
    pub sheets: Vec<(usize, BenchSheet)>,
}

pub fn all_series() -> [Series; 4] {
    [
        series(
            "More rules, over 256 boxes",
            "rules",
            doubled(4, 256),
            |rules| over_same_stretches(rules, SOME_BOXES),
        ),
        series(
            "More boxes, of 16 rules",
            "boxes",
            doubled(16, 4096),
            |boxes| over_same_stretches(SOME_RULES, shape_of(BOX_SHAPES, boxes)),
        ),
        series(
            "More groups, of 16 rules over 2,048 boxes",
            "groups",
            doubled(16, 2048),
            |groups| in_groups(shape_of(GROUP_SHAPES, groups)),
        ),
        series(
            "Longer lists, of 48 rules over 256 boxes",
            "rules in a list",
            doubled(1, LIST_LIMIT),
            in_lists,
        ),
    ]
}

fn series(
    title: &'static str,
    grows: &'static str,
    sizes: impl Iterator<Item = usize>,
    rules: fn(usize) -> Vec<Rule>,
) -> Series {
    let sheet = |size| bench_sheet(format!("{title}: {size} {grows}"), Form::One, rules(size));

    Series {
        title,
        grows,
        sheets: sizes.map(|size| (size, sheet(size))).collect(),
    }
}

/// From the first to the last, each twice the one before.
fn doubled(first: usize, last: usize) -> impl Iterator<Item = usize> {
    std::iter::successors(Some(first), |size| Some(2 * size)).take_while(move |size| *size <= last)
}

/// Those of the 16 rules over 256 boxes of the growth, or fewer or more of them, over fewer or more boxes.
fn over_same_stretches(count: usize, shape: Shape) -> Vec<Rule> {
    let boxes = SOME_BOXES.iter().product::<u32>();
    over_stretches(Random::new(SOME_RULES as u64, boxes.into()), count, shape)
}

/// 16 to 4,096 boxes.
const BOX_SHAPES: [Shape; 9] = [
    [2, 2, 2, 2],
    [2, 2, 2, 4],
    [2, 2, 4, 4],
    [2, 4, 4, 4],
    SOME_BOXES,
    [4, 4, 4, 8],
    [4, 4, 8, 8],
    [4, 8, 8, 8],
    [4, 8, 8, 16],
];

/// 16 to 2,048 blocks of boxes. With as many weeks in each, as many bits tell blocks apart, so that lists are no longer where groups are more.
const GROUP_SHAPES: [Shape; 8] = [
    [1, 16, 1, 1],
    [1, 16, 1, 2],
    [1, 16, 2, 2],
    [1, 16, 2, 4],
    [1, 16, 4, 4],
    [1, 16, 4, 8],
    [1, 16, 8, 8],
    [1, 16, 8, 16],
];

fn shape_of<const N: usize>(shapes: [Shape; N], count: usize) -> Shape {
    shapes
        .into_iter()
        .find(|shape| shape.iter().product::<u32>() as usize == count)
        .expect("there is a shape of each size")
}

/// Blocks of a shape, each a group of its own, of the same 2,048 boxes: a rule that cuts these, then rules that each replace all, and at last
/// those by which blocks differ. So many replace that there are as many rules whatever the shape.
fn in_groups(shape: Shape) -> Vec<Rule> {
    let cutting = boxes_rule(GROUP_SHAPES[GROUP_SHAPES.len() - 1]);
    let differing = each_odd_choice(shape);
    let replacing = everywhere(SOME_RULES - 1 - differing.len());

    after_replacing([vec![cutting], replacing].concat(), differing)
}

/// Lists of so many rules, of which the first is that of one of 16 years' intervals, after so many rules that each replace all that there are
/// as many rules whatever the length.
fn in_lists(length: usize) -> Vec<Rule> {
    let cutting = boxes_rule([1, 4, 4, 16]);
    let replaced = everywhere(LIST_LIMIT - length);
    let first = each_interval([0, 0, 0, 16]);

    after_replacing(
        [vec![cutting], replaced, first].concat(),
        everywhere(length - 1),
    )
}

/// Rules of which the first ones replace lists and the others append to them, each with a comment and a span of its own.
fn after_replacing(replacing: Vec<Rule>, appending: Vec<Rule>) -> Vec<Rule> {
    let count = replacing.len();
    let mut rules = with_own_states([replacing, appending].concat());

    for rule in &mut rules[..count] {
        rule.operator = NORMAL;
    }
    rules
}

#[cfg(test)]
mod tests {
    use oracle::fold::read_expression;

    use super::*;
    use crate::expected::Sheet;

    /// How many rules, boxes and groups a sheet has, and how many rules its longest list.
    fn counts(sheet: &BenchSheet) -> [usize; 4] {
        let read = Sheet::new(sheet.given());
        let accepted = read.accepted().expect("it is read");
        let extent = accepted.extent().expect("its fold is not refused");
        let folded = read_expression(sheet.form, &sheet.bytes)
            .expect("the Rust holds it")
            .normalize();
        let groups = folded
            .rules
            .chunk_by(|rule, next| rule.day_selector == next.day_selector)
            .count();

        [
            accepted.rules().len(),
            extent.boxes,
            groups,
            extent.lists.longest,
        ]
    }

    #[test]
    fn one_thing_grows_as_named() {
        // Where rules or boxes grow, groups and lists come as they do.
        let fixed: [&[usize]; 4] = [&[1], &[0], &[0, 1, 3], &[0, 1, 2]];

        for ((place, series), fixed) in all_series().iter().enumerate().zip(fixed) {
            let counts: Vec<[usize; 4]> = series
                .sheets
                .iter()
                .map(|(_, sheet)| counts(sheet))
                .collect();

            for ((size, sheet), found) in series.sheets.iter().zip(&counts) {
                assert_eq!(found[place], *size, "{}", sheet.name);
                for other in fixed {
                    assert_eq!(found[*other], counts[0][*other], "{}", sheet.name);
                }
            }
        }
    }
}
