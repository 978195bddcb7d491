//! The two forms of a sheet, by document 02: worked days in form 2, sheets that are moved to the other form and back, comments on both sides of
//! 65,535, and sheets that are not of the form said.

mod common;

use common::{bytes, fold};
use hours::{Date, Form, Kind, Refusal, State, convert, line, lookup, write_back};

const PAINT: u8 = 0xC3;
const ROOM: usize = 64;

/// Sheets in both forms: without rules; one Normal Open rule, 00:00-24:00; 01's P2.
const IN_BOTH: [[&str; 2]; 3] = [
    ["0000", "20000000"],
    [
        "00010000000000000000040005A000",
        "200000100000000000000000000010001680",
    ],
    [
        "0002000000000000001004200007FE25821C020000000000000200890000FFC5A030C0",
        "20000020000000000000000001001080001FF89608700800000000000000000800890000FFC5A030C0",
    ],
];
const P2: [&str; 2] = IN_BOTH[2];
const P2_FOLDED: &str = "20000020000000000000000002001000001FF940000FFC4B043800000000000000000004008480007FE258168030C21C00";

const LEAP_DAY: Date = Date {
    year: 2000,
    month: 2,
    day: 29,
};

/// A sheet of form 2: Open 00:00-24:00, then Closed 00:00-24:00 with a comment. Each rule is a title, five counts and a span.
fn commented(comment: u32) -> Vec<u8> {
    let rule = |title: &str| format!("{title}0000000000000010001680");
    let [open, closed] = [rule("0000000"), rule(&format!("1{comment:06X}"))];
    bytes(&format!("2000002{open}{closed}0"))
}

#[test]
fn a_fold_keeps_the_form() {
    let mut out = [PAINT; ROOM];
    let folded = fold(Form::Two, &bytes(P2[1]), &mut out).expect("it is folded");

    assert_eq!((folded.drained, folded.emitted, folded.left), (2, 2, 0));
    assert_eq!(out[..folded.bytes], bytes(P2_FOLDED));
}

#[test]
fn a_sheet_is_moved_and_comes_back() {
    for sheets in IN_BOTH {
        let [one, two] = sheets.map(bytes);
        for (form, sheet, moved) in [(Form::One, &one, &two), (Form::Two, &two, &one)] {
            let needed = moved.len();
            let mut out = [PAINT; ROOM];
            assert_eq!(convert(form, sheet, &mut out), Ok(needed));
            assert_eq!(out[..needed], *moved);
            assert!(out[needed..].iter().all(|byte| *byte == PAINT));

            let mut short = vec![PAINT; needed - 1];
            let refusal = Refusal::NoRoom { needed };
            assert_eq!(convert(form, sheet, &mut short), Err(refusal));
            assert!(short.iter().all(|byte| *byte == PAINT));

            assert_eq!(write_back(form, sheet, &mut out), Ok(sheet.len()));
            assert_eq!(out[..sheet.len()], *sheet);
            assert_eq!(form.other().other(), form);
        }
    }
}

#[test]
fn comments_of_24_bits_are_told_whole() {
    for comment in [65_535, 65_536, 65_537, 16_777_215] {
        let sheet = commented(comment);
        let state = State {
            kind: Kind::Closed,
            comment,
        };
        assert_eq!(lookup(Form::Two, &sheet, LEAP_DAY, 0), Ok(state));

        let mut out = [PAINT; ROOM];
        let text = format!("00:00-24:00; 00:00-24:00 off \"{comment}\"");
        assert_eq!(line(Form::Two, &sheet, &mut out), Ok(text.len()));
        assert_eq!(out[..text.len()], *text.as_bytes());

        // The second rule alone is left to say something.
        let folded = fold(Form::Two, &sheet, &mut out).expect("it is folded");
        assert_eq!((folded.drained, folded.emitted), (2, 1));
    }
}

#[test]
fn a_comment_above_65535_does_not_go_back() {
    let mut out = [PAINT; ROOM];
    assert!(convert(Form::Two, &commented(65_535), &mut out).is_ok());

    let mut out = [PAINT; ROOM];
    let refusal = Refusal::LongComment { rule: 1 };
    assert_eq!((refusal.code(), refusal.place()), (12, 1));
    for comment in [65_536, 16_777_215] {
        let sheet = commented(comment);
        assert_eq!(convert(Form::Two, &sheet, &mut out), Err(refusal));
        // The comment is refused before the buffer, and the sheet's end before the comment.
        assert_eq!(convert(Form::Two, &sheet, &mut []), Err(refusal));
        let longer = [&sheet[..], &[0]].concat();
        let bit = 8 * sheet.len();
        assert_eq!(
            convert(Form::Two, &longer, &mut out),
            Err(Refusal::BadEnd { bit })
        );
    }
    assert_eq!(out, [PAINT; ROOM]);
}

#[test]
fn a_sheet_of_another_form_is_refused() {
    for (form, sheet, refusal) in [
        (Form::Two, "0000", Refusal::Unlawful { bit: 0 }),
        (Form::Two, P2[0], Refusal::Unlawful { bit: 0 }),
        (Form::One, P2[1], Refusal::OverLimit { bit: 0 }),
        (Form::Two, "30000000", Refusal::Unlawful { bit: 0 }),
        (Form::Two, "", Refusal::PastEnd { bit: 0 }),
        (Form::Two, "20", Refusal::PastEnd { bit: 4 }),
        (Form::Two, "20000410", Refusal::PastEnd { bit: 32 }),
        (Form::Two, "20001010", Refusal::OverLimit { bit: 4 }),
    ] {
        let (sheet, mut out) = (bytes(sheet), [PAINT; ROOM]);
        assert_eq!(fold(form, &sheet, &mut out), Err(refusal));
        assert_eq!(lookup(form, &sheet, LEAP_DAY, 0), Err(refusal));
        for writing in [write_back, line, convert] {
            assert_eq!(writing(form, &sheet, &mut out), Err(refusal));
        }
        assert_eq!(out, [PAINT; ROOM]);
    }
}
