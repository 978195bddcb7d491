//! Document 01's worked days in form 1, their lines by 02, a stopped fold for each of its reasons, and a refusal by each code but 12 to 14. The sheets of
//! the days are those of crates/definition/specs/Worked.antt.

mod common;

use common::{bytes, fold};
use hours::{Date, Folded, Form, Kind, Reason, Refusal, State, line, lookup, write_back};

const PAINT: u8 = 0xC3;
const ROOM: usize = 512;

/// One Normal Open rule, 00:00-24:00.
const ALWAYS: &str = "00010000000000000000040005A000";
const P2: &str = "0002000000000000001004200007FE25821C020000000000000200890000FFC5A030C0";
const P2_FOLDED: &str =
    "0002000000000000002004000007FE500003FF12C10E0000000000000001008480007FE258168030C21C00";
/// Week 53, 10:00-18:00.
const P7: &str = "00010000000000004000075D4044B04380";
/// Additional Open, Mo-We,Tu-Th 10:00-12:00 with `open_end`.
const P9: &str = "0001400000000000002004100007FE2C0003FF12C0B420";
/// The same, Mo-We,Th-Fr.
const TOUCHING: &str = "0001400000000000002004100007FE700003FF12C0B420";
const TOUCHING_FOLDED: &str = "0001000000000000001004200007FE25816840";
/// Fr-Th 10:00-18:00, then weeks 1-3 with a step of 2, which stops.
const LEAVES: &str = "0002000000000000001005180007FE25821C00000000000008000082181096087000";
const LEAVES_FOLDED: &str = "00020000000000000000044B04380000000000001000010430212C10E0";
/// Intervals of weekday 1, week 9, month 8, year 16.
const BOXES_1152: &str = "000100000020040100000476C1DB0000476E1DB800047701DC000047721DC800047741DD000047761DD800047781DE0000477A1DE80004110CC551DC208044100461804820044B043800";
/// Intervals of weekday 4, week 8, month 8, year 16, and of year 17.
const BOXES_4096: &str = "000100000020040100200476C1DB0000476E1DB800047701DC000047721DC800047741DD000047761DD800047781DE0000477A1DE80004110CC551DC1040430C045140471C04000007FE480003FF12C10E00";
const BOXES_4352: &str = "000100000020040100200476D1DB4000476F1DBC00047711DC400047731DCC00047751DD400047771DDC00047791DE4000477B1DEC0004110CC551DC1040430C045140471C04000007FE480003FF12C10E00";
/// Four Normal Open rules, then four Additional ones, all without items.
const FOUR_NORMAL: &str = "0000000000000000000000000000000000000000000000000000000000000000000000";
const FOUR_ADDITIONAL: &str =
    "4000000000000000010000000000000000040000000000000000100000000000000000";

/// Every part of a rule and every sort of number, then a Fallback.
const EVERY_PART: &str = "00020000100401004010087E81DB00190B2D34015A0001FF8004B3E2D016814000000200000008023B64E1E0002180003FF0008008";
const EVERY_PART_LINE: &str = "2024-1900/100 Nov-Feb week 52 Sa 00:01-23:59,48:00-48:00+ open \"1\" || 1900-9999 Mo-Su 00:01-00:02";
/// 00:00-24:00, then a Normal Open rule with 0 spans.
const SECOND_WITHOUT_SPANS: &str = "00020000000000000000040005A0000000000000000000";

const LEAP_DAY: Date = Date {
    year: 2000,
    month: 2,
    day: 29,
};

/// Four rules, each of which replaces the one before, then 32 Additional ones: 33 entries on each point after the last.
fn entries_33() -> String {
    ["0024", FOUR_NORMAL, &FOUR_ADDITIONAL.repeat(8)].concat()
}

/// A fold that is done, with bytes to spare, exactly enough, and one too few.
fn folds(sheet: &str, result: &str, [drained, emitted, left]: [usize; 3], why: Option<Reason>) {
    let (sheet, result) = (bytes(sheet), bytes(result));
    let needed = result.len();

    let mut out = [PAINT; ROOM];
    let folded = Folded {
        drained,
        emitted,
        left,
        bytes: needed,
        why,
    };
    assert_eq!(fold(Form::One, &sheet, &mut out), Ok(folded));
    assert_eq!(out[..needed], result);
    assert!(out[needed..].iter().all(|byte| *byte == PAINT));

    let mut full = vec![PAINT; needed];
    assert_eq!(fold(Form::One, &sheet, &mut full), Ok(folded));
    assert_eq!(full, result);

    let mut short = vec![PAINT; needed - 1];
    assert_eq!(
        fold(Form::One, &sheet, &mut short),
        Err(Refusal::NoRoom { needed })
    );
    assert!(short.iter().all(|byte| *byte == PAINT));
    assert_eq!(
        fold(Form::One, &sheet, &mut []),
        Err(Refusal::NoRoom { needed })
    );
}

fn fold_refused(sheet: &str) -> Refusal {
    let mut out = [PAINT; ROOM];
    let refusal = fold(Form::One, &bytes(sheet), &mut out).expect_err("the fold is refused");
    assert_eq!(out, [PAINT; ROOM]);
    refusal
}

/// A sheet that the reader refuses is refused by every function.
fn unreadable(sheet: &str, refusal: Refusal) {
    assert_eq!(fold_refused(sheet), refusal);
    assert_eq!(lookup(Form::One, &bytes(sheet), LEAP_DAY, 0), Err(refusal));

    let mut out = [PAINT; ROOM];
    assert_eq!(write_back(Form::One, &bytes(sheet), &mut out), Err(refusal));
    assert_eq!(line(Form::One, &bytes(sheet), &mut out), Err(refusal));
    assert_eq!(out, [PAINT; ROOM]);
}

type Writing = fn(Form, &[u8], &mut [u8]) -> Result<usize, Refusal>;

/// A writing that is done, with bytes to spare, exactly enough, and one too few.
fn writes(writing: Writing, sheet: &[u8], result: &[u8]) {
    let needed = result.len();

    let mut out = [PAINT; ROOM];
    assert_eq!(writing(Form::One, sheet, &mut out), Ok(needed));
    assert_eq!(out[..needed], *result);
    assert!(out[needed..].iter().all(|byte| *byte == PAINT));

    let mut full = vec![PAINT; needed];
    assert_eq!(writing(Form::One, sheet, &mut full), Ok(needed));
    assert_eq!(full, result);

    if needed > 0 {
        let mut short = vec![PAINT; needed - 1];
        assert_eq!(
            writing(Form::One, sheet, &mut short),
            Err(Refusal::NoRoom { needed })
        );
        assert!(short.iter().all(|byte| *byte == PAINT));
    }
}

#[test]
fn worked_days_fold() {
    folds("0000", "0000", [0, 0, 0], None);
    folds(ALWAYS, ALWAYS, [1, 1, 0], None);
    folds(P2, P2_FOLDED, [2, 2, 0], None);
    folds(LEAVES, LEAVES_FOLDED, [1, 1, 1], Some(Reason::WeekStep));
    folds(TOUCHING, TOUCHING_FOLDED, [1, 1, 0], None);
    folds(BOXES_1152, BOXES_1152, [1, 1, 0], None);
    folds(BOXES_4096, BOXES_4096, [1, 1, 0], None);
}

#[test]
fn a_stopped_fold_tells_the_first_reason() {
    // Each sheet is one rule, so that its fold is the sheet itself.
    for (reason, number, sheet) in [
        (Reason::Fallback, 1, "00018000000000000000044B043800"),
        (Reason::Time, 2, "00010000000000000000048705A100"),
        (
            Reason::YearStep,
            3,
            "00010000000400000000047D01F6800084B04380",
        ),
        // A month range of a year, then a reference to a dated range.
        (Reason::Monthday, 4, "0001000000000100000005121FA84B043800"),
        (
            Reason::Monthday,
            4,
            "00010000000001000000060000000012C10E00",
        ),
        (Reason::WeekStep, 5, "00010000000000004000041D4084B04380"),
        // Without an offset, with one, and behind an unset nth bit.
        (Reason::Holiday, 6, "0001000000000000001007000012C10E00"),
        (Reason::Holiday, 6, "0001000000000000001006FFFF12C10E00"),
        (
            Reason::Holiday,
            6,
            "0001000000000000002004000007C3000009608700",
        ),
        (
            Reason::WeekdayOffset,
            7,
            "000100000000000000100400000FFE25821C00",
        ),
        (Reason::Nth, 8, "0001000000000000001004000007C225821C00"),
    ] {
        assert_eq!(reason.number(), number);
        folds(sheet, sheet, [0, 0, 1], Some(reason));
    }
}

#[test]
fn an_accepted_sheet_is_written_back() {
    for sheet in ["0000", ALWAYS, P2, P9, LEAVES, BOXES_4352, &entries_33()] {
        let sheet = bytes(sheet);
        writes(write_back, &sheet, &sheet);
    }
}

#[test]
fn a_sheet_is_written_as_a_line() {
    for (sheet, text) in [
        ("0000", ""),
        (ALWAYS, "00:00-24:00"),
        (P2, "Mo-Fr 10:00-18:00; Tu 12:00-13:00 off"),
        (
            P2_FOLDED,
            "Mo,We-Fr 10:00-18:00; Tu 10:00-12:00,13:00-18:00",
        ),
        (LEAVES, "Fr-Th 10:00-18:00; week 01-03/2 10:00-18:00"),
        (EVERY_PART, EVERY_PART_LINE),
    ] {
        writes(line, &bytes(sheet), text.as_bytes());
    }
}

#[test]
fn a_sheet_without_a_line_is_refused_at_its_rule() {
    for (sheet, rule) in [(P9, 0), (SECOND_WITHOUT_SPANS, 1)] {
        let mut out = [PAINT; ROOM];
        assert_eq!(
            line(Form::One, &bytes(sheet), &mut out),
            Err(Refusal::NoLine { rule })
        );
        assert_eq!(out, [PAINT; ROOM]);
        // The sheet is refused before the buffer is.
        assert_eq!(
            line(Form::One, &bytes(sheet), &mut []),
            Err(Refusal::NoLine { rule })
        );
    }
}

#[test]
fn unreadable_sheets_are_refused() {
    unreadable("", Refusal::PastEnd { bit: 0 });
    unreadable("00", Refusal::PastEnd { bit: 0 });
    unreadable("0001C0000000000000000000", Refusal::Unlawful { bit: 16 });
    unreadable(
        "00010000000000000000040005A001",
        Refusal::BadEnd { bit: 119 },
    );
    unreadable("000000", Refusal::BadEnd { bit: 16 });
    unreadable("0041", Refusal::PastEnd { bit: 16 });
    unreadable("0100", Refusal::PastEnd { bit: 16 });
    unreadable("0101", Refusal::OverLimit { bit: 0 });
}

#[test]
fn sheets_that_the_fold_does_not_take_are_refused() {
    for (sheet, refusal) in [
        (P9, Refusal::Overlap { rule: 0 }),
        (BOXES_4352, Refusal::ManyBoxes { boxes: 4352 }),
        (&entries_33(), Refusal::LongList { rule: 35 }),
    ] {
        assert_eq!(fold_refused(sheet), refusal);
        assert_eq!(lookup(Form::One, &bytes(sheet), LEAP_DAY, 0), Err(refusal));
    }
}

#[test]
fn the_state_at_a_minute_is_found() {
    // A Tuesday: 10:00-12:00 and 13:00-18:00.
    let sheet = bytes(P2);
    for (minute, kind) in [
        (599, Kind::Closed),
        (600, Kind::Open),
        (719, Kind::Open),
        (720, Kind::Closed),
        (779, Kind::Closed),
        (780, Kind::Open),
        (1079, Kind::Open),
        (1080, Kind::Closed),
        (1439, Kind::Closed),
    ] {
        let state = State { kind, comment: 0 };
        assert_eq!(lookup(Form::One, &sheet, LEAP_DAY, minute), Ok(state));
    }
}

#[test]
fn weeks_are_those_of_iso_8601() {
    let sheet = bytes(P7);
    for (year, month, day, kind) in [
        (2026, 12, 27, Kind::Closed),
        (2026, 12, 28, Kind::Open),
        (2027, 1, 1, Kind::Open),
        (2027, 1, 3, Kind::Open),
        (2027, 1, 4, Kind::Closed),
        (2024, 12, 30, Kind::Closed),
    ] {
        let state = State { kind, comment: 0 };
        assert_eq!(
            lookup(Form::One, &sheet, Date { year, month, day }, 720),
            Ok(state)
        );
    }
}

#[test]
fn no_such_date_or_minute_is_refused() {
    let sheet = bytes(ALWAYS);
    let february = |year| Date { year, ..LEAP_DAY };

    assert_eq!(
        lookup(Form::One, &sheet, february(1900), 0),
        Err(Refusal::NoDate)
    );
    assert_eq!(
        lookup(Form::One, &sheet, february(10000), 0),
        Err(Refusal::NoDate)
    );
    assert_eq!(
        lookup(Form::One, &sheet, LEAP_DAY, 1440),
        Err(Refusal::NoDate)
    );
}

#[test]
fn a_state_that_the_rules_do_not_settle_is_refused() {
    // 1 March 2000 is a Wednesday, which has the open end.
    let march = Date {
        month: 3,
        day: 1,
        ..LEAP_DAY
    };

    assert_eq!(
        lookup(Form::One, &bytes(TOUCHING), march, 0),
        Err(Refusal::Unsettled)
    );
    assert_eq!(
        lookup(Form::One, &bytes(LEAVES), LEAP_DAY, 0),
        Err(Refusal::Unsettled)
    );
}
