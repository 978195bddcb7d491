//! The comparison at scale: `scale --seed S --count N [--threads T] [--large 1 | --lists 1]` makes N sound sheets, N overlapping ones and N
//! damaged ones, with `--large 1` large ones alone, with `--lists 1` those of many lists alone, gives each to the archive and holds what it
//! answers against the Rust and documents 01 and 02. Exit status 1 on any difference.

use std::process::ExitCode;
use std::sync::atomic::{AtomicU64, Ordering};
use std::thread;
use std::time::Instant;

use oracle::bits::to_hex;
use scale::arguments;
use scale::run::{Report, Sheets};
use scale::stack::STACK;

struct Arguments {
    seed: u64,
    count: u64,
    threads: u64,
    sheets: Sheets,
}

/// How many sheets a thread takes at a time, and how many differences it waits for before it gives up.
const SHARE: u64 = 64;
const ENOUGH_DIFFERENCES: usize = 5;

fn main() -> ExitCode {
    let Some(arguments) = arguments() else {
        eprintln!("usage: scale --seed S --count N [--threads T] [--large 1 | --lists 1]");
        return ExitCode::from(2);
    };

    let began = Instant::now();
    let report = compare_all(&arguments);
    let seconds = began.elapsed().as_secs_f64();

    for (form, sheet, difference) in &report.differences {
        println!("sheet {} of form {}", to_hex(sheet), form.number());
        println!("  {}", difference.call);
        println!("  expected {}", difference.expected);
        println!("  given    {}", difference.given);
    }

    println!("sound: {}", report.sound);
    println!("overlapping: {}", report.overlapping);
    println!("damaged: {}", report.damaged);
    println!(
        "seed {}: {} sheets in {seconds:.0} s on {} threads, {:.0} a second; {} differences",
        arguments.seed,
        report.sheets(),
        arguments.threads,
        report.sheets() as f64 / seconds,
        report.differences.len()
    );

    match report.differences.is_empty() {
        true => ExitCode::SUCCESS,
        false => ExitCode::FAILURE,
    }
}

fn arguments() -> Option<Arguments> {
    let processors = thread::available_parallelism().map_or(1, |threads| threads.get() as u64);
    let [seed, count, threads, large, lists] = arguments::numbers([
        ("--seed", 1),
        ("--count", 0),
        ("--threads", processors),
        ("--large", 0),
        ("--lists", 0),
    ])?;
    let sheets = match (large, lists) {
        (0, 0) => Sheets::Mixed,
        (_, 0) => Sheets::Large,
        (0, _) => Sheets::Lists,
        _ => return None,
    };

    (threads > 0).then_some(Arguments {
        seed,
        count,
        threads,
        sheets,
    })
}

fn compare_all(arguments: &Arguments) -> Report {
    let next = AtomicU64::new(0);
    let mut report = Report::default();

    thread::scope(|scope| {
        let workers: Vec<_> = (0..arguments.threads)
            .map(|_| {
                thread::Builder::new()
                    .stack_size(STACK)
                    .spawn_scoped(scope, || compare_shares(arguments, &next))
                    .expect("a thread can be started")
            })
            .collect();

        for worker in workers {
            report.add(worker.join().expect("a thread stumbled"));
        }
    });

    report
}

/// Shares of the sheets as long as there are any.
fn compare_shares(arguments: &Arguments, next: &AtomicU64) -> Report {
    let mut report = Report::default();

    loop {
        let first = next.fetch_add(SHARE, Ordering::Relaxed);

        if first >= arguments.count || report.differences.len() >= ENOUGH_DIFFERENCES {
            return report;
        }

        for number in first..arguments.count.min(first + SHARE) {
            report.compare_number(arguments.sheets, arguments.seed, number);
        }
    }
}
