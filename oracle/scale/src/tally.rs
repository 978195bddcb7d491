//! What a run met: how often each code and each reason, how many rules were drained, emitted and left, how many lists there were, which
//! ranges overlap, how long lines were, and which forms.

use std::fmt::{Display, Formatter, Result};

use crate::expected::Accepted;
use crate::forms_tally::Forms;
use crate::large_tally::Large;
use crate::line::{REASONS, Unsaid};
use crate::lists::{DIFFERENT_LIMIT, LIST_LIMIT};
use crate::lists_tally::ListsMet;
use crate::overlap_tally::Overlaps;
use crate::points::{BOX_LIMIT, Extent};
use crate::rule::{ITEM_LIMIT, RULE_LIMIT, Rule};
use crate::sizes::{Sizes, add_each, met};
use crate::why::{Reasons, WHYS};

/// Codes go from 0 to 14.
pub const CODES: usize = 15;

/// Accepted folds that stand exactly at a limit.
#[derive(Default)]
struct AtLimits([u64; 6]);

impl AtLimits {
    fn count(&mut self, rules: &[Rule], extent: Extent) {
        let met = [
            rules.len() == RULE_LIMIT,
            rules
                .iter()
                .any(|rule| day_items(rule).contains(&ITEM_LIMIT)),
            rules.iter().any(|rule| rule.spans.len() == ITEM_LIMIT),
            extent.boxes == BOX_LIMIT,
            extent.lists.longest == LIST_LIMIT,
            extent.lists.most == DIFFERENT_LIMIT,
        ];
        add_each(&mut self.0, &met.map(u64::from));
    }
}

impl Display for AtLimits {
    fn fmt(&self, f: &mut Formatter<'_>) -> Result {
        let [rules, items, spans, boxes, entries, lists] = self.0;
        write!(
            f,
            "{RULE_LIMIT} rules: {rules}, {ITEM_LIMIT} days' items: {items}, {ITEM_LIMIT} spans: {spans}, "
        )?;
        write!(
            f,
            "{BOX_LIMIT} boxes: {boxes}, {LIST_LIMIT} entries: {entries}, {DIFFERENT_LIMIT} lists: {lists}"
        )
    }
}

fn day_items(rule: &Rule) -> [usize; 4] {
    [
        rule.years.len(),
        rule.monthdays.len(),
        rule.weeks.len(),
        rule.weekdays.len(),
    ]
}

/// Why accepted folds stopped, and at how many of them the first rule left had more than one reason.
#[derive(Default)]
struct Stopped {
    whys: [u64; WHYS],
    for_several: u64,
}

impl Stopped {
    fn add(&mut self, other: &Self) {
        add_each(&mut self.whys, &other.whys);
        self.for_several += other.for_several;
    }
}

impl Display for Stopped {
    fn fmt(&self, f: &mut Formatter<'_>) -> Result {
        let whys = self.whys.iter().copied().enumerate();

        writeln!(f, "  folds by why: {}", met(whys))?;
        write!(
            f,
            "  folds stopped for two or more reasons: {}",
            self.for_several
        )
    }
}

/// Sheets that the plain engine answered as the first one does, in every room, and those that it refused for its lists.
#[derive(Default)]
pub struct PlainFolds {
    sheets: u64,
    long_list: u64,
    many_lists: u64,
}

impl PlainFolds {
    pub fn fold(&mut self, numbers: &[u64]) {
        self.sheets += 1;
        self.long_list += u64::from(numbers[0] == 6);
        self.many_lists += u64::from(numbers[0] == 14);
    }

    fn add(&mut self, other: &Self) {
        self.sheets += other.sheets;
        self.long_list += other.long_list;
        self.many_lists += other.many_lists;
    }
}

impl Display for PlainFolds {
    fn fmt(&self, f: &mut Formatter<'_>) -> Result {
        write!(
            f,
            "  sheets given to the plain engine: {}, of them {} refused by 6, {} by 14",
            self.sheets, self.long_list, self.many_lists
        )
    }
}

/// What lines came out as.
#[derive(Default)]
struct Lines {
    codes: [u64; CODES],
    reasons: [u64; REASONS.len()],
    bytes: Sizes,
}

impl Lines {
    fn add(&mut self, other: &Self) {
        add_each(&mut self.codes, &other.codes);
        add_each(&mut self.reasons, &other.reasons);
        self.bytes.add(&other.bytes);
    }
}

impl Display for Lines {
    fn fmt(&self, f: &mut Formatter<'_>) -> Result {
        let reasons = REASONS.map(|(name, _)| name).into_iter().zip(self.reasons);

        writeln!(f, "  lines by code: {}", by_code(&self.codes))?;
        writeln!(f, "  lines refused by 10 for {}", met(reasons))?;
        write!(f, "  line bytes {}", self.bytes)
    }
}

/// The counts of the sheets of one sort, sound, overlapping or damaged.
#[derive(Default)]
pub struct Tally {
    pub sheets: u64,
    pub short_buffers: u64,
    pub forms: Forms,
    pub large: Large,
    pub lists: ListsMet,
    pub plain: PlainFolds,
    folded_whole: u64,
    at_limits: AtLimits,
    fold_codes: [u64; CODES],
    lookup_codes: [u64; CODES],
    lines: Lines,
    sheet_bytes: Sizes,
    drained: Sizes,
    emitted: Sizes,
    left: Sizes,
    stopped: Stopped,
    overlaps: Overlaps,
}

impl Tally {
    pub fn fold(&mut self, numbers: &[u64], sheet_bytes: usize) {
        self.sheets += 1;
        self.fold_codes[numbers[0] as usize] += 1;
        self.sheet_bytes.count(sheet_bytes as u64);

        if numbers[0] == 0 {
            self.drained.count(numbers[1]);
            self.emitted.count(numbers[2]);
            self.left.count(numbers[3]);
        }
    }

    /// What overlaps or touches in a sheet that was read, and whether its fold was done.
    pub fn overlaps(&mut self, accepted: &Accepted, is_folded: bool) {
        self.overlaps.count(accepted, is_folded);
    }

    pub fn accepted_fold(&mut self, rules: &[Rule], extent: Extent, inside: bool) {
        self.folded_whole += u64::from(inside);
        self.at_limits.count(rules, extent);
        self.large.fold(extent.boxes);
        self.lists.fold(extent);
    }

    /// The reasons of the first rule left by an accepted fold.
    pub fn stopped(&mut self, reasons: Reasons) {
        self.stopped.whys[reasons.first()] += 1;
        self.stopped.for_several += u64::from(reasons.count() > 1);
    }

    pub fn lookup(&mut self, numbers: &[u64]) {
        self.lookup_codes[numbers[0] as usize] += 1;
    }

    pub fn line(&mut self, numbers: &[u64], unsaid: Option<Unsaid>) {
        self.lines.codes[numbers[0] as usize] += 1;

        if numbers[0] == 0 {
            self.lines.bytes.count(numbers[1]);
        }
        if let Some(unsaid) = unsaid {
            self.lines.reasons[unsaid.reason] += 1;
        }
    }

    pub fn add(&mut self, other: &Self) {
        self.sheets += other.sheets;
        self.short_buffers += other.short_buffers;
        self.forms.add(&other.forms);
        self.large.add(&other.large);
        self.lists.add(&other.lists);
        self.plain.add(&other.plain);
        self.folded_whole += other.folded_whole;
        add_each(&mut self.at_limits.0, &other.at_limits.0);
        add_each(&mut self.fold_codes, &other.fold_codes);
        add_each(&mut self.lookup_codes, &other.lookup_codes);
        self.lines.add(&other.lines);
        self.sheet_bytes.add(&other.sheet_bytes);
        self.drained.add(&other.drained);
        self.emitted.add(&other.emitted);
        self.left.add(&other.left);
        self.stopped.add(&other.stopped);
        self.overlaps.add(&other.overlaps);
    }
}

impl Display for Tally {
    fn fmt(&self, f: &mut Formatter<'_>) -> Result {
        let accepted: u64 =
            self.fold_codes.iter().sum::<u64>() - self.fold_codes[1..=4].iter().sum::<u64>();

        writeln!(f, "{} sheets, {accepted} of them accepted", self.sheets)?;
        writeln!(f, "  folds by code: {}", by_code(&self.fold_codes))?;
        let halved = self.fold_codes[0] - self.folded_whole;
        writeln!(
            f,
            "  folded by the Rust: {} whole, {halved} with years and weeks that wrap as halves",
            self.folded_whole
        )?;
        writeln!(f, "{}", self.plain)?;
        writeln!(f, "  lookups by code: {}", by_code(&self.lookup_codes))?;
        writeln!(f, "  short buffers, answered by 7: {}", self.short_buffers)?;
        writeln!(f, "  folds at a limit: {}", self.at_limits)?;
        writeln!(f, "  sheet bytes {}", self.sheet_bytes)?;
        writeln!(f, "  drained {}", self.drained)?;
        writeln!(f, "  emitted {}", self.emitted)?;
        writeln!(f, "  left {}", self.left)?;
        writeln!(f, "{}", self.large)?;
        writeln!(f, "{}", self.lists)?;
        writeln!(f, "{}", self.stopped)?;
        writeln!(f, "{}", self.overlaps)?;
        writeln!(f, "{}", self.lines)?;
        write!(f, "{}", self.forms)
    }
}

pub fn by_code(codes: &[u64; CODES]) -> String {
    met(codes.iter().copied().enumerate())
}
