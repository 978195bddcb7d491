//! What document 01 takes for granted about the source, each held against docs/src by the smallest sheet that shows it. Sheets and
//! answers are in hex, of form 1 but for the last test; the comment over a sheet says it in words, `+` for `open_end` and `/` for repeats
//! or a step.

use crate::answer::{day_line, fold_line};
use crate::extended_time::ExtendedTime;
use crate::form::Form;
use crate::normalize::bounded::{Frame, UpperBounded};
use crate::rules::day::{Month, WeekNum, WeekRange, Year, YearRange};
use crate::rules::time::TimeSelector;
use crate::util::weekday::OrderedWeekday;
use chrono::Weekday;

#[track_caller]
fn folds(sheet: &str, answer: &str) {
    assert_eq!(fold_line(Form::One, sheet), answer);
}

/// The sheet drains whole and comes back as it was.
#[track_caller]
fn stays(sheet: &str) {
    folds(sheet, &format!("1 1 0 {sheet}"));
}

fn years(start: i32, end: i32, step: u16) -> Option<YearRange> {
    YearRange::new(Year(start)..=Year(end), step)
}

fn weeks(start: u8, end: u8, step: u8) -> Option<WeekRange> {
    WeekRange::new(WeekNum(start)..=WeekNum(end), step)
}

/// The sheet's only rule is a stopper and is left as it was.
#[track_caller]
fn stops(sheet: &str) {
    folds(sheet, &format!("0 0 1 {sheet}"));
}

#[test]
fn worked_days_of_days() {
    // P1
    folds("0000", "0 0 0 0000");
    // The example of the program: 00:00-24:00.
    stays("00010000000000000000040005A000");
    // P2
    folds(
        "0002000000000000001004200007FE25821C020000000000000200890000FFC5A030C0",
        "2 2 0 0002000000000000002004000007FE500003FF12C10E0000000000000001008480007FE258168030C21C00",
    );
    // P4
    folds(
        "0001000000000000001005000007FE25816800",
        "1 1 0 0001000000000000002004000007FE980003FF12C0B400",
    );
    // P5
    folds(
        "0001000000000000001005180007FE25816800",
        "1 1 0 00010000000000000000044B02D000",
    );
    // P7
    stays("00010000000000004000075D4044B02D00");
}

#[test]
fn worked_days_of_lists() {
    // P9
    folds(
        "0001400000000000002004100007FE2C0003FF12C0B420",
        "1 2 0 0002000000000000002004000007FE6C0003FF12C0B42000000000000001008500007FE258168425816840",
    );
    // P10
    folds(
        "00030000000000000000043C043818000000000000000112C0A526000000000000000045A030C0",
        "3 3 0 00030000000000000000083C02D006184381800000000000000011680C306000000000000000044B029480",
    );
    // P11
    folds("00011000000000000000040005A000", "1 0 0 0000");
}

/// P6 starts above its end: `WeekRange::new` refuses it, the splitting behind it does what 01 says.
#[test]
fn weeks_50_to_2() {
    folds("0001000000000000400007208044B02D00", "outside week-order");

    let strict = WeekNum::to_range_strict(WeekNum(50)..=WeekNum(2));
    let split: Vec<_> = WeekNum::split_inverted_range(strict).collect();
    assert_eq!(split, [WeekNum(1)..WeekNum(3), WeekNum(50)..WeekNum(54)]);

    // weeks 50-53,1-2 10:00-12:00
    folds(
        "00010000000000008000072D404108044B02D000",
        "1 1 0 0001000000000000800004108072D4044B02D000",
    );
}

/// 01 asks that ranges of all four kinds be half open and split alike.
#[test]
fn upper_values() {
    assert_eq!(
        WeekNum::to_range_strict(WeekNum(53)..=WeekNum(53)).end,
        WeekNum(54)
    );
    assert_eq!(
        Year::to_range_strict(Year(9999)..=Year(9999)).end,
        Year(10_000)
    );

    let december = Frame::Val(Month::December);
    assert_eq!(
        Frame::to_range_strict(december.clone()..=december).end,
        Frame::End
    );

    let sunday = Frame::Val(OrderedWeekday(Weekday::Sun));
    assert_eq!(
        Frame::to_range_strict(sunday.clone()..=sunday).end,
        Frame::End
    );
}

#[test]
fn order_of_spans() {
    // by start: 11:00-12:00+, 10:00-13:00+
    folds(
        "00010000000000000000085282D084B030C8",
        "1 1 0 00010000000000000000084B030C85282D08",
    );
    // by end: 10:00-13:00+, 10:00-12:00+
    folds(
        "00010000000000000000084B030C84B02D08",
        "1 1 0 00010000000000000000084B02D084B030C8",
    );
    // open_end false first: 10:00-12:00+/30, 10:00-12:00/30
    folds(
        "00010000000000000000084B02D0C0784B02D04078",
        "1 1 0 00010000000000000000084B02D040784B02D0C078",
    );
    // open_end before repeats: 10:00-12:00+, 10:00-12:00/30
    folds(
        "00010000000000000000084B02D084B02D040780",
        "1 1 0 00010000000000000000084B02D040784B02D080",
    );
    // no repeats first: 10:00-12:00+/0, 10:00-12:00+
    folds(
        "00010000000000000000084B02D0C0004B02D080",
        "1 1 0 00010000000000000000084B02D084B02D0C0000",
    );
    // repeats by minutes: 10:00-12:00+/100, 10:00-12:00+/60, 10:00-12:00+/9
    folds(
        "000100000000000000000C4B02D0C1904B02D0C0F04B02D0C024",
        "1 1 0 000100000000000000000C4B02D0C0244B02D0C0F04B02D0C190",
    );
}

#[test]
fn order_of_times() {
    // fixed before variable: (dawn-10:00)-24:00, 23:00-24:00+
    folds(
        "000100000000000000000A7ED416802B216820",
        "1 1 0 0001000000000000000008AC85A0A7ED416800",
    );
    // dusk, sunset, sunrise, dawn
    folds(
        "000100000000000000001380001680C00005A0280001680800005A00",
        "1 1 0 000100000000000000001200001680A00005A0300001680E00005A00",
    );
    // event before offset: sunrise less a minute, dawn and a minute
    folds(
        "000100000000000000000AFFFF9680800025A000",
        "1 1 0 000100000000000000000A00009680BFFFE5A000",
    );
    // offsets are signed: dawn and a minute, dawn, dawn less a minute
    folds(
        "000100000000000000000E00009680800005A027FFF96800",
        "1 1 0 000100000000000000000E7FFF9680800005A02000096800",
    );
}

/// Su 10:00-12:00; Mo 13:00-14:00
#[test]
fn monday_comes_first() {
    folds(
        "0002000000000000001005B00007FE258168000000000000000200800000FFC6183480",
        "2 2 0 0002000000000000001004000007FE30C1A4000000000000000200B60000FFC4B02D00",
    );
}

#[test]
fn repeated_pushes() {
    // Additional Mo,Mo 10:00-12:00+: the span twice
    folds(
        "0001400000000000002004000007FE000003FF12C0B420",
        "1 1 0 0001000000000000001008000007FE25816842581684",
    );
    // Normal Closed Mo,Mo 10:00-12:00+: the span twice
    folds(
        "0001100000000000002004000007FE000003FF12C0B420",
        "1 1 0 0001100000000000001008000007FE25816842581684",
    );
    // Normal Open Mo,Mo 10:00-12:00+: the span once
    folds(
        "0001000000000000002004000007FE000003FF12C0B420",
        "1 1 0 0001000000000000001004000007FE25816840",
    );
    // Additional Jan-Feb,Feb-Mar Mo-Tu,Tu-We 10:00-12:00+: once, twice, twice, and four times on Tuesdays of February
    folds(
        "00014000000002000020041208C080007FE280003FF12C0B42",
        "1 4 0 0004000000000200002004110CC000007FE480003FF12C0B4200000000010000200822000001FF920000FFC4B02D084\
         B02D080000000008000040204433120001FF89605A109605A100000000008000080811090000FFC4B02D084B02D084B02D084B02D08",
    );
}

#[test]
fn stoppers() {
    stays("00010000000000000000044B05A000"); // 10:00-24:00
    stops("00010000000000000000044B05A100"); // 10:00-24:01
    stays("000100000000000000000680001680"); // sunrise-24:00
    stops("00010000000000000000068000167C"); // sunrise-23:59
    stops("000100000000000000000487043800"); // 18:00-18:00
    stops("000100000000000000000400140000"); // 00:00-sunrise
    stops("00018000000000000000044B02D000"); // Fallback
    stops("0001000000000000001006000012C0B400"); // a public holiday
    stops("000100000000000000100400000FFE25816800"); // Mo +1 day
    stops("0001000000000000001004000007FC25816800"); // an nth bit 0
    stops("0001000000000100000005111F904B02D000"); // January 2020
    stops("000100000000010000000689ABCDEF12C0B400"); // a dated range, its reference kept
    stops("000100000000000040000410C084B02D00"); // weeks 1-3/2
    stops("00010000000400000000047D01F4800084B02D00"); // years 2000-2002/2
}

#[test]
fn what_the_constructors_of_ranges_refuse_or_change() {
    assert!(years(2001, 2000, 1).is_none());
    assert!(weeks(2, 1, 1).is_none());
    assert_eq!(years(2000, 2001, 2), years(2000, 2001, 1));
    assert_ne!(years(2000, 2002, 2), years(2000, 2002, 1));
    assert_eq!(weeks(1, 2, 2), weeks(1, 2, 1));
    assert_ne!(weeks(1, 3, 2), weeks(1, 3, 1));

    folds(
        "00010000000400000000047D11F4000044B02D00",
        "outside year-order",
    ); // years 2001-2000
    folds("0001000000000000400004204044B02D00", "outside week-order"); // weeks 2-1
    folds(
        "00010000000400000000047D01F4000084B02D00",
        "outside year-step",
    ); // year 2000/2
    folds(
        "00010000000400000000047D01F4400084B02D00",
        "outside year-step",
    ); // years 2000-2001/2
    folds("0001000000000000400004104084B02D00", "outside week-step"); // week 1/2
    folds("0001000000000000400004108084B02D00", "outside week-step"); // weeks 1-2/2
}

#[test]
fn what_the_constructors_of_times_refuse_or_change() {
    assert!(TimeSelector::new(vec![]).is_00_24());
    folds("0001000000000000000000", "1 0 0 0000"); // Open, no spans: by the public field no time at all

    assert!(ExtendedTime::from_mins_from_midnight(2880).is_some());
    assert!(ExtendedTime::from_mins_from_midnight(2881).is_none());
    assert!(Month::try_from(0).is_err() && Month::try_from(13).is_err());
}

#[test]
fn readings_that_look_right_and_are_wrong() {
    // 10:00-12:00; 11:00-13:00 Closed "1": Normal Closed appends
    folds(
        "00020000000000000000044B02D004000400000000000114A0C300",
        "2 2 0 00020000000000000000044B029414000400000000000114A0C300",
    );
    // 10:00-12:00+, Unknown 10:00-12:00, Open 11:00-13:00: after the first group simple spans stay in groups
    let groups = "00030000000000000000044B02D098000000000000000112C0B4040000000000000000452830C0";
    folds(groups, &format!("3 3 0 {groups}"));
    // 2000 10:00-12:00; Mo 10:00-12:00: years grow first
    folds(
        "00020000000400000000047D01F4000044B02D0000000000000000401000001FF89605A000",
        "2 2 0 0002000000000000001004000007FE2581680000000080000002008FA03E800008E0000FFC4B02D000",
    );
}

/// P10 as one rule of one span and one of two, and a rule that the fold would not drain.
#[test]
fn days_of_lists() {
    let p10 =
        "00030000000000000000083C02D006184381800000000000000011680C306000000000000000044B029480";
    assert_eq!(
        day_line(
            Form::One,
            "00020000000000000000043C043818000000000000000212C0A521680C30"
        ),
        p10
    );
    assert_eq!(
        day_line(Form::One, "0001000000000000000004000B4000"),
        "0001000000000000000004000B4000"
    );
}

/// A comment is a text to the Rust, so that its length is no matter.
#[test]
fn sheets_of_form_2() {
    let folds = |sheet: &str, answer: &str| assert_eq!(fold_line(Form::Two, sheet), answer);

    // No rules; the example of the program.
    folds("20000000", "0 0 0 20000000");
    let example = "200000100000000000000000000010001680";
    folds(example, &format!("1 1 0 {example}"));
    assert_eq!(day_line(Form::Two, example), example);
    // 00:00-24:00 "65536", then Closed "16777215" over it: operator, kind and comment, the counts, the span
    let rule = |title: &str| [title, "000000000000001", "0001680"].concat();
    folds(
        &format!("2000002{}{}0", rule("0010000"), rule("1FFFFFF")),
        &format!("2 1 0 2000001{}", rule("1FFFFFF")),
    );
    // A head of 0011, no head at all, a sheet of form 1.
    folds("30000000", "outside unreadable");
    folds("", "outside unreadable");
    folds("00010000000000000000040005A000", "outside unreadable");
}
