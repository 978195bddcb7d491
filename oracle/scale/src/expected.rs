//! What documents 01 and 02 expect of a sheet in a form: refusals, lookups, lines, conversions and why a fold stopped by the modules beside
//! this one, folds by the Rust, which knows no refusal for ranges that overlap and isn't asked where they do.
//!
//! Where the sheet stands for a value of the Rust, the Rust folds it whole. It has no years and weeks that wrap, and turns some steps into
//! 1 (docs/DIFFERENCES.md). Where a sheet has such items, the Rust folds the drained rules alone, those that wrap as their two halves, and
//! the rules left are copied.

use oracle::bits::{BitReader, BitWriter};
use oracle::fold::{Folded, fold_sheet, read_expression};
use oracle::form::Form;

use crate::answer::{Answer, FOLD_NUMBERS, LOOKUP_NUMBERS};
use crate::archive::Given;
use crate::calendar::point_of;
use crate::convert::moved_to;
use crate::counts::{PAST_COUNTS, check_counts};
use crate::layout::Refusal;
use crate::line::{Unsaid, first_unsaid, line_of};
use crate::overlap::check_overlaps;
use crate::points::{
    DIMENSIONS, Extent, Selector, extent_of, is_simple, list_at, selector_of, split,
};
use crate::rule::{CLOSED, MIDNIGHT, Rule, Stepped};
use crate::sheet::{Read, overwrite, read_sheet, write_sheet};
use crate::why::{Reasons, reasons_of, stops};

/// A sheet as it was read, with what all answers about it rest on.
pub struct Sheet<'a> {
    given: Given<'a>,
    outcome: Result<Accepted, Refusal>,
}

/// What an accepted sheet holds.
pub struct Accepted {
    form: Form,
    read: Read,
    selectors: Vec<Selector>,
    /// Refused where ranges overlap or boxes are too many, before any list is judged.
    drawn: Result<Extent, Refusal>,
}

impl Accepted {
    fn of(form: Form, read: Read) -> Self {
        let selectors: Vec<Selector> = read
            .rules
            .iter()
            .take_while(|rule| !stops(rule))
            .map(selector_of)
            .collect();
        let drawn = check_overlaps(&selectors)
            .and_then(|()| extent_of(&read.rules[..selectors.len()], &selectors));

        Self {
            form,
            read,
            selectors,
            drawn,
        }
    }

    fn drained(&self) -> &[Rule] {
        &self.read.rules[..self.selectors.len()]
    }

    pub fn rules(&self) -> &[Rule] {
        &self.read.rules
    }

    /// What stopped the fold: the reasons of the first rule left, none where no rule is.
    pub fn reasons(&self) -> Reasons {
        self.left().first().map(reasons_of).unwrap_or_default()
    }

    /// The boxes and lists of drained rules that neither overlap nor cut too many boxes.
    pub fn drawn(&self) -> Option<Extent> {
        self.drawn.ok()
    }

    /// The boxes and lists, or by which of 11, 5, 6 and 14 they are refused.
    pub fn extent(&self) -> Result<Extent, Refusal> {
        self.drawn
            .and_then(|extent| extent.lists.check().map(|()| extent))
    }

    /// The ranges of the drained rules.
    pub fn selectors(&self) -> &[Selector] {
        &self.selectors
    }

    pub fn left(&self) -> &[Rule] {
        &self.read.rules[self.selectors.len()..]
    }

    /// What the limits alone would refuse the fold by, whether or not ranges overlap.
    pub fn past_a_limit(&self) -> Option<Refusal> {
        extent_of(self.drained(), &self.selectors)
            .and_then(|extent| extent.lists.check())
            .err()
    }
}

impl<'a> Sheet<'a> {
    /// A form that is none is refused before the sheet is read.
    pub fn new(given: Given<'a>) -> Self {
        let outcome = Form::of(given.form)
            .ok_or(Refusal::at(2, 0))
            .and_then(|form| Ok(Accepted::of(form, read_sheet(form, given.bytes)?)));

        Self { given, outcome }
    }

    pub fn given(&self) -> Given<'a> {
        self.given
    }

    /// What the sheet holds, where none of codes 1 to 4 refuses it.
    pub fn accepted(&self) -> Result<&Accepted, Refusal> {
        self.outcome.as_ref().map_err(|refusal| *refusal)
    }

    /// Whether the Rust's constructors take the sheet's values as they are.
    pub fn is_inside(&self) -> bool {
        self.accepted()
            .is_ok_and(|accepted| read_expression(accepted.form, self.given.bytes).is_ok())
    }

    /// The fold into an ample buffer.
    pub fn fold(&self) -> Answer {
        Answer::of(self.folded(), FOLD_NUMBERS)
    }

    fn folded(&self) -> Result<(Vec<u64>, Vec<u8>), Refusal> {
        let accepted = self.accepted().inspect_err(|refusal| {
            assert!(
                refusal.code == 4 || !self.is_readable_to_oracle(),
                "the oracle has no limits, but refuses as well"
            );
        })?;
        accepted.extent()?;

        let folded = fold_sheet(accepted.form, self.given.bytes).unwrap_or_else(|reason| {
            assert!(!reason.is_unreadable(), "the oracle reads the sheet");
            fold_halves(self.given.bytes, accepted)
        });
        let drained = accepted.drained().len();
        assert_eq!(folded.drained, drained, "the Rust drains as many rules");
        check_counts(accepted.form, &folded)?;

        // Where the rules left were copied, they are not in the count yet.
        let counted = folded.emitted + folded.left;
        let carried = folded.result.expect("the counts carry the result");
        let mut result = carried.into_bytes();
        let (place, width) = (
            accepted.form.rule_count_place(),
            accepted.form.rule_count_width(),
        );
        overwrite(&mut result, place, width, counted as u32);

        let counts = [
            0,
            folded.drained,
            folded.emitted,
            folded.left,
            result.len(),
            0,
            accepted.reasons().first(),
        ];

        Ok((counts.map(|count| count as u64).into(), result))
    }

    fn is_readable_to_oracle(&self) -> bool {
        Form::of(self.given.form).is_some_and(|form| {
            let read = read_expression(form, self.given.bytes);
            !read.is_err_and(|reason| reason.is_unreadable())
        })
    }

    /// The sheet written back into an ample buffer: reading and writing are inverse.
    pub fn write_back(&self) -> Answer {
        Answer::written(self.accepted().map(|_| self.given.bytes.into()))
    }

    /// The sheet moved to the other form, in an ample buffer.
    pub fn convert(&self) -> Answer {
        let moved = self
            .accepted()
            .and_then(|accepted| moved_to(accepted.form.other(), accepted.rules()));

        Answer::written(moved)
    }

    /// What the fold of an accepted sheet moved to the other form answers, where this one's fold answers so: the same rules, or the same
    /// refusal. Where the result passes a sheet's limits, so that it can't be read, or form 1 can't count it, the Rust is asked again.
    pub fn fold_moved(&self, folded: &Answer, moved: Given) -> Answer {
        let form = Form::of(self.given.form).expect("an accepted sheet has a form");
        let read = read_sheet(form, &folded.result);

        match (folded.numbers[0], read) {
            (0, Ok(read)) => folded.with_result(write_sheet(form.other(), read.rules)),
            (0 | PAST_COUNTS, _) => Sheet::new(moved).fold(),
            _ => folded.clone(),
        }
    }

    /// The sheet's line in an ample buffer.
    pub fn line(&self) -> Answer {
        let line = self
            .accepted()
            .and_then(|accepted| line_of(accepted.rules()));

        Answer::written(line.map(String::into_bytes))
    }

    /// Why an accepted sheet has no line.
    pub fn unsaid(&self) -> Option<Unsaid> {
        first_unsaid(self.accepted().ok()?.rules())
    }

    /// The lookup at a year, month, day and minute; it writes no bytes.
    pub fn lookup(&self, moment: [u64; 4]) -> Answer {
        let found = self.state_at(moment).map(|(kind, comment)| {
            let numbers = vec![0, kind.into(), comment.into(), 0];
            (numbers, Vec::new())
        });

        Answer::of(found, LOOKUP_NUMBERS)
    }

    fn state_at(&self, [year, month, day, minute]: [u64; 4]) -> Result<(u32, u32), Refusal> {
        let accepted = self.accepted()?;
        let point = point_of(year, month, day)
            .filter(|_| minute < MIDNIGHT.into())
            .ok_or(Refusal::at(8, 0))?;
        accepted.extent()?;

        let drained = accepted.drained();
        let list = list_at(drained, &accepted.selectors, &point);
        let spans = list
            .iter()
            .flat_map(|rule| rule.spans.iter().map(move |span| (rule, span)));

        if !accepted.left().is_empty() || !spans.clone().all(|(_, span)| is_simple(span)) {
            return Err(Refusal::at(9, 0));
        }

        let last_covering = spans.rev().find(|(_, span)| {
            (u64::from(span.start.minutes)..span.end.minutes.into()).contains(&minute)
        });

        Ok(last_covering.map_or((CLOSED, 0), |(rule, _)| (rule.kind, rule.comment)))
    }
}

/// The fold of a sheet that the Rust can't hold: the drained rules with wrapping years and weeks as halves, then the rules left. The
/// count in front is that of the folded rules alone.
fn fold_halves(sheet: &[u8], accepted: &Accepted) -> Folded<Option<BitWriter>> {
    let (form, drained) = (accepted.form, accepted.drained());
    let halved = write_sheet(form, drained.iter().map(with_halves).collect());
    let mut folded = fold_sheet(form, &halved).expect("the Rust holds rising ranges of step 1");
    let places = &accepted.read.places;

    folded.left = accepted.left().len();
    if let Some(result) = &mut folded.result {
        let (from, end) = (places[drained.len()], places[places.len() - 1]);
        copy_bits(result, sheet, from, end);
    }
    folded
}

fn with_halves(rule: &Rule) -> Rule {
    let [_, weeks, _, years] = &DIMENSIONS;
    let halves = |items: &[Stepped], dimension| {
        items
            .iter()
            .flat_map(|item| split(item.start, item.end, dimension))
            .map(|range| Stepped {
                start: range.start,
                end: range.end - 1,
                step: 1,
            })
            .collect()
    };

    Rule {
        years: halves(&rule.years, years),
        weeks: halves(&rule.weeks, weeks),
        ..rule.clone()
    }
}

fn copy_bits(writer: &mut BitWriter, sheet: &[u8], from: usize, end: usize) {
    let mut reader = BitReader::at(sheet, from);

    while reader.position() < end {
        let width = (end - reader.position()).min(32);
        let bits = reader.field(width).expect("the bits are in the sheet");
        writer.field("copied bits", width, bits);
    }
}
