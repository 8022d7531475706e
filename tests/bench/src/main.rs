//! What filling a table, answering a frame, reading a book, telling a running time and placing a report cost: the
//! proved code beside the model.
//!
//!     bench                                  times, as a markdown table
//!     bench works                            each line and work that is measured
//!     bench sizes                            what is lent, as rows of a markdown table
//!     bench proved|model CALLS LINE WORK     only this work, to count its instructions
//!
//! `measure` beside this folder's Cargo.toml runs all of it.

mod lines;
mod samples;
mod work;

use inputs::sizes::{JOURNAL_BYTES, LINE_BYTES, OUT_BYTES, PLACE_BYTES, STATE_BYTES};
use inputs::sizes::{TABLE_BYTES, TIME_BYTES, UNIT_BYTES};
use lines::{Line, LINES};
use std::process::ExitCode;
use std::time::Instant;
use work::{Side, Work, WORKS};

const REPETITIONS: usize = 9;
const FILLINGS: usize = 5;
const OTHERS: usize = 50_000;

fn main() -> ExitCode {
    let words: Vec<String> = std::env::args().skip(1).collect();
    let words: Vec<&str> = words.iter().map(String::as_str).collect();
    match words[..] {
        [] => print_times(),
        ["works"] => each_work(|line, name, _| println!("{} {name}", line.name)),
        ["sizes"] => print_sizes(),
        [side, calls, line, work] if run(side, calls, line, work).is_some() => {}
        _ => {
            eprintln!("usage: bench [works | sizes | proved|model CALLS LINE WORK]");
            return ExitCode::from(2);
        }
    }
    ExitCode::SUCCESS
}

fn run(side: &str, calls: &str, line: &str, work: &str) -> Option<()> {
    let side = match side {
        "proved" => Side::Proved,
        "model" => Side::Model,
        _ => return None,
    };
    let line = LINES.iter().find(|known| known.name == line)?;
    Work::of(line, work)?.run(side, calls.parse().ok()?);
    Some(())
}

fn each_work(tell: impl Fn(&Line, &str, Work)) {
    for line in &LINES {
        for name in WORKS {
            if let Some(work) = Work::of(line, name) {
                tell(line, name, work);
            }
        }
    }
}

fn print_times() {
    println!("| Line | Work | proved | model |");
    println!("|---|---|---|---|");
    each_work(|line, name, work| {
        let (calls, divisor, unit) = match work {
            Work::Fill { .. } => (FILLINGS, 1000.0, "µs"),
            _ => (OTHERS, 1.0, "ns"),
        };
        let time = |side| median(calls, || work.run(side, calls)) / divisor;
        let (proved, model) = (time(Side::Proved), time(Side::Model));
        println!(
            "| {} | {name} | {proved:.0} {unit} | {model:.0} {unit} |",
            line.name
        );
    });
}

fn print_sizes() {
    println!(
        "| state, unit, line, time, place | {STATE_BYTES}, {UNIT_BYTES}, {LINE_BYTES}, {TIME_BYTES}, {PLACE_BYTES} |"
    );
    println!("| table, journal, out buffer, as lent at least | {TABLE_BYTES}, {JOURNAL_BYTES}, {OUT_BYTES} |");
}

/// The median of some repetitions, in nanoseconds a call.
fn median(calls: usize, work: impl Fn()) -> f64 {
    let mut times: Vec<f64> = (0..REPETITIONS).map(|_| timed(&work)).collect();
    times.sort_by(f64::total_cmp);
    times[REPETITIONS / 2] / calls as f64
}

fn timed(work: impl Fn()) -> f64 {
    let start = Instant::now();
    work();
    start.elapsed().as_nanos() as f64
}
