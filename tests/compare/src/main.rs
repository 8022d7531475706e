//! The proved ends beside the independent model, on the same inputs.
//!
//!     compare [--seed S] [--frames N]
//!     compare [--seed S] --reports N      place reports alone
//!     compare [--seed S] --events N       events over a channel alone
//!
//! Ends with `0 differences` and status 0. On the first difference it prints the input and both
//! outputs, with status 1; so it does if anything that a run is to reach was never reached.

mod again;
mod asked;
mod book_faults;
mod books;
mod cases;
mod channel;
mod channel_cases;
mod checks;
mod claim;
mod codes;
mod counts;
mod desk;
mod frames;
mod journal_counts;
mod last_moves;
mod lent;
mod local_runs;
mod longest;
mod model_ends;
mod openings;
mod pair;
mod places;
mod positions;
mod questions;
mod radio;
mod repeats;
mod reports;
mod runs;
mod sidings;
mod state_counts;
mod state_gangs;
mod state_moves;
mod state_tracks;
mod states;
mod stores;
mod tables;
#[cfg(test)]
mod tests;
mod timings;
mod tracks;
mod units;
#[cfg(test)]
mod wrong_again;
#[cfg(test)]
mod wrong_boxes;
#[cfg(test)]
mod wrong_channel;
#[cfg(test)]
mod wrong_checks;
#[cfg(test)]
mod wrong_codes;
#[cfg(test)]
mod wrong_counts;
#[cfg(test)]
mod wrong_last_moves;
#[cfg(test)]
mod wrong_local_runs;
#[cfg(test)]
mod wrong_places;
#[cfg(test)]
mod wrong_positions;
#[cfg(test)]
mod wrong_repeats;
#[cfg(test)]
mod wrong_timings;
#[cfg(test)]
mod wrong_tracks;

use boundary::Proved;
use inputs::random::Random;
use lent::Lent;
use model_ends::Model;
use openings::Opened;
use pair::{Compared, Pair};
use radio::Radio;
use runs::Crews;
use std::process::ExitCode;

/// Frames put to the box between two openings that are kept.
const FRAMES_A_ROUND: u64 = 5_000;

/// Opened books, and altered tables, that are kept for runs.
const KEPT: usize = 24;

/// Rounds for which an opened book of the longest journals is kept.
const ROUNDS_OF_LONGEST: usize = 40;

/// Runs for each question about a running time that comes between them, and for each book that place reports are about.
const RUNS_A_QUESTION: usize = 3;

/// Place reports about one book, between runs and where nothing else is compared.
const REPORTS_A_BOOK: usize = 8;
const REPORTS_A_BOOK_ALONE: usize = 64;

/// Events over a channel after each round, and where nothing else is compared after each opening that is kept.
const EVENTS_A_ROUND: u64 = 1_200;
const EVENTS_A_BOOK_ALONE: u64 = 2_500;

/// What the random numbers of the channel differ by from those of the frames.
const OF_CHANNEL: u64 = u64::from_be_bytes(*b"channel ");

struct Options {
    seed: u64,
    frames: u64,
    /// Place reports alone, so many, in the place of frames.
    reports: Option<u64>,
    /// Events over a channel alone, so many.
    events: Option<u64>,
}

fn main() -> ExitCode {
    let Some(options) = options() else {
        eprintln!("usage: compare [--seed S] [--frames N | --reports N | --events N]");
        return ExitCode::from(2);
    };
    let mut pair = Pair::new(Box::new(Proved), Box::new(Model));
    if let Some(reports) = options.reports {
        println!("seed {}, {reports} place reports", options.seed);
        let compared = reports_alone(&mut pair, options.seed, reports);
        pair.counts.print();
        return verdict(compared, &pair.counts.failings_of_reports());
    }
    if let Some(events) = options.events {
        println!("seed {}, {events} events over a channel", options.seed);
        let compared = channel_alone(&mut pair, options.seed, events);
        pair.counts.print();
        return verdict(compared, &pair.counts.failings_of_channel());
    }
    println!("seed {}, {} frames", options.seed, options.frames);
    let compared = all(&mut pair, &options);
    pair.counts.print();
    verdict(compared, &pair.counts.failings())
}

fn options() -> Option<Options> {
    let mut options = Options {
        seed: 1,
        frames: 10_000_000,
        reports: None,
        events: None,
    };
    let words: Vec<String> = std::env::args().skip(1).collect();
    for two in words.chunks(2) {
        match two {
            [name, value] if name == "--seed" => options.seed = value.parse().ok()?,
            [name, value] if name == "--frames" => options.frames = value.parse().ok()?,
            [name, value] if name == "--reports" => options.reports = Some(value.parse().ok()?),
            [name, value] if name == "--events" => options.events = Some(value.parse().ok()?),
            _ => return None,
        }
    }
    Some(options)
}

fn verdict(compared: Compared<()>, failings: &[String]) -> ExitCode {
    if let Err(difference) = compared {
        println!("{}1 difference", difference.0);
        return ExitCode::FAILURE;
    }
    for failing in failings {
        println!("{failing}");
    }
    println!("0 differences");
    if failings.is_empty() {
        ExitCode::SUCCESS
    } else {
        ExitCode::FAILURE
    }
}

fn all(pair: &mut Pair, options: &Options) -> Compared<()> {
    let random = &mut Random::new(options.seed);
    // Numbers of their own for the reports and for the channel: the frames of a seed are the same with and without them.
    let of_reports = &mut Random::new(!options.seed);
    let of_channel = &mut Random::new(options.seed ^ OF_CHANNEL);
    units::make_all(pair, random)?;
    units::press_and_hear_all(pair, random)?;
    let mut kept = Kept::new(pair, random)?;
    while pair.counts.frames() < options.frames {
        kept.renew(pair, random)?;
        openings::open_odd(pair, random, 4)?;
        openings::read_books(pair, random, 100)?;
        units::histories(pair, random, 100)?;
        let end = options.frames.min(pair.counts.frames() + FRAMES_A_ROUND);
        while pair.counts.frames() < end {
            one_run(pair, &kept, random)?;
            if random.one_in(RUNS_A_QUESTION) {
                questions::ask(pair, random)?;
                reports::send(pair, of_reports, REPORTS_A_BOOK)?;
            }
        }
        reports::sweep(pair, of_reports)?;
        over_channel(pair, &kept.opened, EVENTS_A_ROUND, of_channel)?;
    }
    Ok(())
}

/// Runs over a channel, each of one of these books, until there were so many events more.
fn over_channel(
    pair: &mut Pair,
    opened: &[Opened],
    events: u64,
    random: &mut Random,
) -> Compared<()> {
    let end = pair.counts.events() + events;
    while pair.counts.events() < end {
        channel::whole(pair, &opened[random.below(opened.len())], random)?;
    }
    Ok(())
}

fn channel_alone(pair: &mut Pair, seed: u64, events: u64) -> Compared<()> {
    let random = &mut Random::new(seed);
    let mut opened = vec![];
    while pair.counts.events() < events {
        keep(&mut opened, openings::open_one(pair, random)?, random);
        over_channel(pair, &opened, EVENTS_A_BOOK_ALONE, random)?;
    }
    Ok(())
}

fn reports_alone(pair: &mut Pair, seed: u64, reports: u64) -> Compared<()> {
    let random = &mut Random::new(seed);
    while pair.counts.reports() < reports {
        reports::send(pair, random, REPORTS_A_BOOK_ALONE)?;
    }
    Ok(())
}

/// What is kept for many runs: opened books, tables that no book gave, an opened book of the longest journals, and a
/// table of ones.
struct Kept {
    opened: Vec<Opened>,
    strange: Vec<runs::Strange>,
    longest: Opened,
    ones: Lent,
}

impl Kept {
    fn new(pair: &mut Pair, random: &mut Random) -> Compared<Kept> {
        Ok(Kept {
            opened: vec![],
            strange: (0..KEPT).map(|_| tables::strange(random)).collect(),
            longest: longest::open(pair, random)?,
            ones: Lent::new(&tables::ones(), random),
        })
    }

    fn renew(&mut self, pair: &mut Pair, random: &mut Random) -> Compared<()> {
        keep(&mut self.opened, openings::open_one(pair, random)?, random);
        keep(&mut self.strange, tables::strange(random), random);
        if random.one_in(ROUNDS_OF_LONGEST) {
            self.longest = longest::open(pair, random)?;
        }
        Ok(())
    }
}

/// Adds to what is kept, in the place of an older one once there are enough.
fn keep<T>(kept: &mut Vec<T>, new: T, random: &mut Random) {
    if kept.len() < KEPT {
        kept.push(new);
    } else {
        kept[random.below(KEPT)] = new;
    }
}

fn one_run(pair: &mut Pair, kept: &Kept, random: &mut Random) -> Compared<()> {
    let opened = &kept.opened[random.below(kept.opened.len())];
    let strange = &kept.strange[random.below(kept.strange.len())];
    match random.below(96) {
        0..=3 => runs::whole(pair, opened, strange, Crews::ByFrames, random),
        4..=7 => runs::whole(pair, opened, strange, Crews::WithUnits(Radio::Good), random),
        8 | 9 => runs::whole(pair, opened, strange, Crews::WithUnits(Radio::Bad), random),
        10 | 11 => runs::many_at_once(pair, &kept.ones, random),
        12 => longest::whole(pair, random.pick(&[opened, &kept.longest]), random),
        _ => runs::handed_in(pair, opened, strange, random),
    }
}
