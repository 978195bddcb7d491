//! One sheet given to the archive, in its form, in the other one and in forms that are none, and held against what is expected of it; folds
//! by both engines.

use oracle::form::Form;

use crate::answer::Answer;
use crate::archive::Given;
use crate::calls::{
    CONVERT, Difference, Entry, FOLD, LINE, WRITE_BACK, compare_full, compare_lookup,
    compare_rooms, compare_short_numbers,
};
use crate::dates::moment;
use crate::expected::Sheet;
use crate::random::Random;
use crate::tally::Tally;

const LOOKUPS: usize = 2;
const NO_FORM_PERCENT: usize = 5;
const SHORT_NUMBERS_PERCENT: usize = 5;
const NO_FORMS: [u64; 4] = [0, 3, (1 << 32) + 1, u64::MAX];

/// Compares the fold, the write-back, the line, the conversion and some lookups of a sheet. What was expected goes into the tally.
pub fn compare(
    form: Form,
    bytes: &[u8],
    random: &mut Random,
    tally: &mut Tally,
) -> Result<(), Difference> {
    let given = Given {
        form: form.number(),
        bytes,
    };
    let sheet = Sheet::new(given);
    let expected = writings(&sheet);
    let [(_, folded), _, (_, line), (_, converted)] = &expected;
    count(&sheet, folded, line, converted, tally);

    for (entry, ample) in &expected {
        compare_rooms(entry, given, ample, random, tally)?;
        if entry.has_two_engines() {
            tally.plain.fold(&ample.numbers);
        }
    }

    let moved = (converted.numbers[0] == 0).then_some(Given {
        form: form.other().number(),
        bytes: &converted.result,
    });
    compare_lookups(&sheet, moved, random, tally)?;
    if let Some(moved) = moved {
        compare_moved(&sheet, moved, folded, line, tally)?;
    }

    if random.percent(NO_FORM_PERCENT) {
        compare_no_form(bytes, random, tally)?;
    }
    if random.percent(SHORT_NUMBERS_PERCENT) {
        let no_form = random.of(&NO_FORMS);
        let form = random.of(&[given.form, no_form]);
        compare_short_numbers(Given { form, bytes }, random)?;
    }

    Ok(())
}

/// What is expected of each function that writes.
fn writings(sheet: &Sheet) -> [(Entry, Answer); 4] {
    [
        (FOLD, sheet.fold()),
        (WRITE_BACK, sheet.write_back()),
        (LINE, sheet.line()),
        (CONVERT, sheet.convert()),
    ]
}

fn count(sheet: &Sheet, folded: &Answer, line: &Answer, converted: &Answer, tally: &mut Tally) {
    tally.fold(&folded.numbers, sheet.given().bytes.len());
    tally.line(&line.numbers, sheet.unsaid());
    tally
        .forms
        .conversion(sheet.given().form, &converted.numbers);

    if let Ok(accepted) = sheet.accepted() {
        let is_folded = folded.numbers[0] == 0;
        tally.overlaps(accepted, is_folded);
        tally.forms.comments(accepted.rules());
        tally.large.sheet(accepted.rules().len());
        match (accepted.extent(), accepted.drawn()) {
            (Ok(extent), _) if is_folded => {
                tally.accepted_fold(accepted.rules(), extent, sheet.is_inside());
                tally.stopped(accepted.reasons());
            }
            (Err(_), Some(extent)) => tally.lists.refused(extent.lists),
            _ => {}
        }
    }
}

/// Some lookups, of the sheet in the other form as well.
fn compare_lookups(
    sheet: &Sheet,
    moved: Option<Given>,
    random: &mut Random,
    tally: &mut Tally,
) -> Result<(), Difference> {
    let (rules, lookups) = match sheet.accepted() {
        Ok(accepted) => (accepted.rules(), LOOKUPS),
        Err(_) => (&[][..], 1),
    };

    for _ in 0..lookups {
        let moment = moment(random, rules);
        let expected = sheet.lookup(moment);
        tally.lookup(&expected.numbers);
        compare_lookup(sheet.given(), moment, &expected)?;
        if let Some(moved) = moved {
            compare_lookup(moved, moment, &expected)?;
        }
    }

    Ok(())
}

/// A sheet moved to the other form comes back byte for byte, has the same line, and its fold is the fold moved, unless form 1 can't count it.
fn compare_moved(
    sheet: &Sheet,
    moved: Given,
    folded: &Answer,
    line: &Answer,
    tally: &mut Tally,
) -> Result<(), Difference> {
    compare_full(&CONVERT, moved, &sheet.write_back())?;
    compare_full(&LINE, moved, line)?;

    let folded_there = sheet.fold_moved(folded, moved);
    compare_full(&FOLD, moved, &folded_there)?;
    tally.forms.fold_moved(folded, &folded_there);

    Ok(())
}

/// The same bytes in a form that is none, at any moment.
fn compare_no_form(bytes: &[u8], random: &mut Random, tally: &mut Tally) -> Result<(), Difference> {
    let form = random.of(&NO_FORMS);
    let given = Given { form, bytes };
    let sheet = Sheet::new(given);

    for (entry, ample) in writings(&sheet) {
        compare_rooms(&entry, given, &ample, random, tally)?;
    }
    let moment = moment(random, &[]);
    compare_lookup(given, moment, &sheet.lookup(moment))?;
    tally.forms.refused += 1;

    Ok(())
}
