//! Days named twice in one rule, which 02 refuses, and days that only touch. The sheets are those of crates/definition/specs/WorkedOverlaps.antt.

mod common;

use common::{bytes, fold};
use hours::{Date, Form, Reason, Refusal, lookup, write_back};

/// Fr-Mo,Mo-Tu.
const WRAP_SHARES: &str = "0001000000000000002005000007FE040003FF12C10E00";
/// A rule of all days, then weeks 50-2 and 53-1.
const WRAPS_SHARE: &str = "00020000000000000000044B0438000000000000200001C8201D410112C10E00";
/// Jan-Dec beside Mar.
const WHOLE_BESIDE_ITEM: &str = "00010000000002000000041C0CC4B04380";
/// 2026 twice, Normal, Closed, without spans.
const EQUAL_YEARS: &str = "00011000000800000000007EA1FA800047EA1FA80004";
/// 1089 boxes, then January twice.
const OVERLAP_BESIDE_BOXES: &str = "00020000000405014010007D01F4000042211066220AA0820110401186012080128A01120001FF800000000100000000088220";
/// 4352 boxes, too many, then January twice.
const OVERLAP_BEFORE_BOXES: &str = "000200000020040100200076D1DB4000476F1DBC00047711DC400047731DCC00047751DD400047771DDC00047791DE4000477B1DEC0004110CC551DC1040430C045140471C04000007FE480003FF000000000200000000110440";
/// Fr-Mo,Tu-We.
const WRAP_TOUCHES: &str = "0001000000000000002005000007FE280003FF12C10E00";
/// A rule of all days, then Mo-We,Tu-Th in weeks 1-3 with a step of 2, which stops, then Monday twice.
const LEFT_MAY_OVERLAP: &str = "00030000000000000000044B043800000000000010080104302040001FF8B0000FFC4B0438000000000000000801000001FF800000FFC4B04380";

const LEAP_DAY: Date = Date {
    year: 2000,
    month: 2,
    day: 29,
};
const NO_DATE: Date = Date {
    year: 1900,
    ..LEAP_DAY
};

const PAINT: u8 = 0xC3;
const ROOM: usize = 128;

#[test]
fn days_named_twice_are_refused_at_their_rule() {
    for (sheet, rule) in [
        (WRAP_SHARES, 0),
        (WRAPS_SHARE, 1),
        (WHOLE_BESIDE_ITEM, 0),
        (EQUAL_YEARS, 0),
        (OVERLAP_BESIDE_BOXES, 1),
        (OVERLAP_BEFORE_BOXES, 1),
    ] {
        let (sheet, refusal) = (bytes(sheet), Refusal::Overlap { rule });
        assert_eq!((refusal.code(), refusal.place()), (11, rule));

        let mut out = [PAINT; ROOM];
        assert_eq!(fold(Form::One, &sheet, &mut out), Err(refusal));
        assert_eq!(out, [PAINT; ROOM]);
        assert_eq!(lookup(Form::One, &sheet, LEAP_DAY, 0), Err(refusal));

        // The date is refused before the sheet, the sheet before the buffer.
        assert_eq!(lookup(Form::One, &sheet, NO_DATE, 0), Err(Refusal::NoDate));
        assert_eq!(fold(Form::One, &sheet, &mut []), Err(refusal));

        assert_eq!(write_back(Form::One, &sheet, &mut out), Ok(sheet.len()));
    }
}

#[test]
fn days_that_only_touch_and_rules_left_are_not() {
    for (sheet, left, why) in [
        (WRAP_TOUCHES, 0, None),
        (LEFT_MAY_OVERLAP, 2, Some(Reason::WeekStep)),
    ] {
        let folded = fold(Form::One, &bytes(sheet), &mut [PAINT; ROOM]).expect("it is folded");
        assert_eq!((folded.drained, folded.left, folded.why), (1, left, why));
    }
}
