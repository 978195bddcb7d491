//! The Rust oracle: folds packed sheets by the source under docs/src (see `lib.rs`).
//!
//! It reads sheets in hex from standard input, one a line, and prints one line for each:
//! - `oracle`: `DRAINED EMITTED LEFT RESULTHEX`, the counts of rules drained, emitted and left, and the result sheet, or in its place
//!   `items MOST` where the form's counts can't carry it, the most items of a sort that one of its rules has;
//! - `oracle --days`: `RESULTHEX`, the canonical day of all the sheet's rules taken as one list, as rules without day items;
//! - `oracle --lists`: `DIFFERENT LONGEST` after each drained rule, a comma between two: how many lists differ, the empty one aside, and how
//!   many entries the longest has;
//! - in each mode `outside REASON` where the sheet stands for no value of the Rust (see `outside.rs`).
//!
//! With `--form 2` in front the sheets and the results are of form 2, else of form 1.

use oracle::answer;
use oracle::form::Form;
use std::io::{self, BufRead, BufWriter, Write};
use std::panic::resume_unwind;
use std::process::ExitCode;
use std::thread;

fn main() -> ExitCode {
    let Some((form, answer_line)) = arguments() else {
        eprintln!("usage: oracle [--form 1|2] [--days|--lists] < sheets in hex, one a line");
        return ExitCode::from(2);
    };

    match answer_all(&move |line| answer_line(form, line)) {
        Ok(()) => ExitCode::SUCCESS,
        Err(error) => {
            eprintln!("oracle: {error}");
            ExitCode::FAILURE
        }
    }
}

/// The form of the sheets, and what is answered to a line.
fn arguments() -> Option<(Form, fn(Form, &str) -> String)> {
    let words: Vec<String> = std::env::args().skip(1).collect();

    let (form, rest) = match words.as_slice() {
        [name, number, rest @ ..] if name == "--form" => (Form::of(number.parse().ok()?)?, rest),
        rest => (Form::One, rest),
    };

    match rest {
        [] => Some((form, answer::fold_line)),
        [mode] if mode == "--days" => Some((form, answer::day_line)),
        [mode] if mode == "--lists" => Some((form, answer::lists_line)),
        _ => None,
    }
}

/// How many lines are answered at a time: enough to keep every processor busy, few enough to hold.
const BATCH: usize = 8192;

type AnswerLine = dyn Fn(&str) -> String + Sync;

/// Answers each line of standard input by one line of standard output, in the same order.
fn answer_all(answer_line: &AnswerLine) -> io::Result<()> {
    let mut input = io::stdin().lock().lines();
    let mut output = BufWriter::new(io::stdout().lock());

    loop {
        let batch: Vec<String> = input.by_ref().take(BATCH).collect::<io::Result<_>>()?;

        if batch.is_empty() {
            return output.flush();
        }

        for answer in answer_batch(&batch, answer_line) {
            writeln!(output, "{answer}")?;
        }
    }
}

/// The answers to these lines; each processor takes a share of them.
fn answer_batch(lines: &[String], answer_line: &AnswerLine) -> Vec<String> {
    let workers = thread::available_parallelism().map_or(1, usize::from);

    thread::scope(|scope| {
        let shares: Vec<_> = lines
            .chunks(lines.len().div_ceil(workers))
            .map(|share| scope.spawn(|| share.iter().map(|line| answer_line(line)).collect()))
            .collect();

        shares
            .into_iter()
            .flat_map(|share| -> Vec<String> { share.join().unwrap_or_else(|p| resume_unwind(p)) })
            .collect()
    })
}
