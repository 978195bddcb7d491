//! How deep each function goes.

use scale::archive;
use scale::bench_sheets::bench_sheets;
use scale::growth_sheets::{growth_sheets, limit_sheets};
use scale::list_sheets::list_sheets;
use scale::lookup_sheets::Moment;
use scale::stack::stack_of;

use crate::calls::{ROOM, depth, lookup};

/// 1 January 2001 at noon.
const MOMENT: Moment = [2001, 1, 1, 720];

/// In ample room, on the sheets of all tables of folds but the series.
pub fn print_stacks() {
    println!("| sheet | fold | plain fold | lookup | write-back | line | convert |");
    println!("|---|---|---|---|---|---|---|");

    for sheet in [
        bench_sheets(),
        growth_sheets(),
        limit_sheets(),
        list_sheets(),
    ]
    .concat()
    {
        let given = sheet.given();
        let mut out = vec![0; ROOM];
        let [folded, plain, back, lined, moved] = [
            archive::fold,
            archive::fold_plain,
            archive::write_back,
            archive::line,
            archive::convert,
        ]
        .map(|function| depth(function, given, &mut out));
        let looked_up = stack_of(|| {
            lookup(given, MOMENT);
        });

        println!(
            "| {} | {folded} | {plain} | {looked_up} | {back} | {lined} | {moved} |",
            sheet.name
        );
    }
}
