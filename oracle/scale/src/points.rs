//! From rules to points: ranges, draining, the count of boxes (code 5), the lists of all boxes, rule after rule, the list at a point.

use std::iter;
use std::ops::Range;

use crate::layout::Refusal;
use crate::lists::{ListCounts, Lists};
use crate::rule::{CLOSED, DayItem, NORMAL, Rule, Span};
use crate::why::may_reach_tomorrow;

pub const BOX_LIMIT: usize = 4096;

/// The lowest value of a dimension up to the unreachable one above the highest.
pub type Dimension = Range<u32>;

/// Weekdays, weeks, months and years.
pub const DIMENSIONS: [Dimension; 4] = [0..7, 1..54, 1..13, 1900..10000];

pub type Point = [u32; 4];

/// A drained rule's ranges in each dimension.
pub type Selector = [Vec<Range<u32>>; 4];

/// Start to end as one range, or as two where it wraps.
pub fn split(start: u32, end: u32, dimension: &Dimension) -> Vec<Range<u32>> {
    let after = end + 1;

    if start >= after {
        [dimension.start..after, start..dimension.end].into()
    } else {
        iter::once(start..after).collect()
    }
}

pub fn selector_of(rule: &Rule) -> Selector {
    let [weekdays, weeks, months, years] = &DIMENSIONS;

    [
        ranges_of(weekdays, &rule.weekdays),
        ranges_of(weeks, &rule.weeks),
        ranges_of(months, &rule.monthdays),
        ranges_of(years, &rule.years),
    ]
}

/// No items mean the whole dimension.
fn ranges_of<T: DayItem>(dimension: &Dimension, items: &[T]) -> Vec<Range<u32>> {
    if items.is_empty() {
        return vec![dimension.clone()];
    }

    items
        .iter()
        .map(DayItem::ends)
        .flat_map(|(start, end)| split(start, end, dimension))
        .collect()
}

pub fn is_simple(span: &Span) -> bool {
    span.start.tag == 0 && !may_reach_tomorrow(span) && (span.open_end, span.repeats_flag) == (0, 0)
}

pub fn replaces(rule: &Rule) -> bool {
    rule.operator == NORMAL && rule.kind != CLOSED
}

/// In each dimension both bounds and all starts and ends of the ranges, rising.
pub fn cuts_of(selectors: &[Selector]) -> [Vec<u32>; 4] {
    let mut cuts = DIMENSIONS.map(|dimension| vec![dimension.start, dimension.end]);

    for selector in selectors {
        for (values, ranges) in cuts.iter_mut().zip(selector) {
            values.extend(ranges.iter().flat_map(|range| [range.start, range.end]));
        }
    }

    for values in &mut cuts {
        values.sort_unstable();
        values.dedup();
    }

    cuts
}

/// How many boxes the drained rules cut, and what their lists were.
#[derive(Clone, Copy)]
pub struct Extent {
    pub boxes: usize,
    pub lists: ListCounts,
}

/// Refuses too many boxes; lists are counted, and not judged yet.
pub fn extent_of(drained: &[Rule], selectors: &[Selector]) -> Result<Extent, Refusal> {
    let cuts = cuts_of(selectors);
    let boxes = boxes_of(&cuts);

    if boxes > BOX_LIMIT {
        return Err(Refusal::at(5, boxes));
    }

    let (lists, _) = counts_of_lists(drained, selectors, &cuts);
    Ok(Extent { boxes, lists })
}

fn boxes_of(cuts: &[Vec<u32>; 4]) -> usize {
    cuts.iter().map(|values| values.len() - 1).product()
}

/// What the lists were after each rule, and what they are after all.
pub fn counts_of_lists(
    drained: &[Rule],
    selectors: &[Selector],
    cuts: &[Vec<u32>; 4],
) -> (ListCounts, Lists) {
    let mut lists = Lists::before_any_rule(boxes_of(cuts));
    let mut counts = ListCounts::default();

    for (index, (rule, selector)) in drained.iter().zip(selectors).enumerate() {
        lists.draw(replaces(rule), &combinations_of(selector, cuts));
        counts.count(index, &lists);
    }

    (counts, lists)
}

/// For each box, in how many combinations of one range per dimension it is covered.
pub fn combinations_of(selector: &Selector, cuts: &[Vec<u32>; 4]) -> Vec<usize> {
    let mut combinations = vec![1];

    for (ranges, values) in selector.iter().zip(cuts) {
        let times: Vec<usize> = values[..values.len() - 1]
            .iter()
            .map(|start| times_covered(ranges, *start))
            .collect();

        combinations = combinations
            .iter()
            .flat_map(|above| times.iter().map(move |times| above * times))
            .collect();
    }

    combinations
}

fn times_covered(ranges: &[Range<u32>], value: u32) -> usize {
    ranges.iter().filter(|range| range.contains(&value)).count()
}

/// The rules of the list at a point after all drained rules, in its order.
pub fn list_at<'a>(drained: &'a [Rule], selectors: &[Selector], point: &Point) -> Vec<&'a Rule> {
    let mut list = Vec::new();

    for (rule, selector) in drained.iter().zip(selectors) {
        let combinations = selector
            .iter()
            .zip(point)
            .map(|(ranges, value)| times_covered(ranges, *value))
            .product();

        if combinations > 0 && replaces(rule) {
            list = vec![rule];
        } else {
            list.extend(iter::repeat_n(rule, combinations));
        }
    }

    list
}
