//! What a run has reached, and what it must have reached to be worth anything.

use crate::cases::{Case, Subject, SUBJECTS};
use inputs::frames::LA;
use inputs::sizes::{FRAME_BYTES, OUT_BYTES};
use std::collections::BTreeMap;

/// The eight entry points, in the order of the columns.
#[derive(Debug, Clone, Copy, PartialEq, Eq)]
pub enum Entry {
    ReadBook,
    Open,
    Answer,
    RunningTime,
    Locate,
    MakeUnit,
    Press,
    Hear,
}

const ENTRIES: [(&str, &[u8]); 8] = [
    ("read_book", &[1, 4, 14, 15, 16, 17, 18, 23, 27]),
    ("open", &[1, 2, 4, 14, 15, 16, 17, 18, 19, 20, 23, 27]),
    ("answer", &[1, 2, 3, 4, 5, 6, 7, 8, 9, 12, 24, 25, 26]),
    ("running_time", &[1, 4, 9, 14, 15, 16, 17, 18, 23, 27, 28]),
    ("locate", &[1, 4, 5, 9, 14, 15, 16, 17, 18, 23, 27, 29]),
    ("make_unit", &[1, 18]),
    ("press", &[1, 2, 8, 21]),
    ("hear", &[1, 3, 4, 5, 6, 22]),
];

const STATUSES: [&str; 3] = ["Free", "Asked", "Running"];

const PHASES: [&str; 6] = [
    "Standing",
    "Asked",
    "Declined",
    "Granted",
    "Under way",
    "Arrived",
];

/// The kinds of frames that gangs send and get, from LA on: a unit that hears them stays as it is.
const OF_GANGS: [&str; 3] = ["LA", "LE", "LB"];

/// Kinds of inputs that a run must have had, beside what must have come of inputs.
const DUE_INPUTS: [&str; 32] = [
    "run: of a book of edition 1",
    "run: of a book of edition 2",
    "run: of a book of edition 3",
    "run: over bad radio, all home",
    "run: each request declined at first",
    "run: many go at once near the most",
    "radio: a frame to the box lost",
    "radio: a frame to the box twice",
    "radio: an answer lost",
    "radio: an answer twice",
    "channel: a run until all are home",
    "channel: a book of edition 1",
    "channel: a book of edition 2",
    "channel: a book of edition 3",
    "channel: a table of 32,768 bytes",
    "channel: a longer table",
    "state: valid",
    "state: a track altered",
    "state: a gang or the number given altered",
    "state: a last move altered",
    "state: a count above the most",
    "frame: as a crew sends it again",
    "frame: nearly as a crew sends it again",
    "frame: as a gang sends it",
    "frame: LA or LB named wrongly",
    "table: of the book, bits flipped",
    "table: all ones",
    "table: all zero",
    "table: random bits",
    "table: few bits",
    "table: most bits",
    "table: short",
];

/// Refusal numbers 0 (none) to 29. Those that no entry point can give, 10, 11 and 13, are not told.
const NUMBERS: usize = 30;

const MOST_SENT: usize = OUT_BYTES / FRAME_BYTES;

pub struct Counts {
    inputs: BTreeMap<&'static str, u64>,
    refusals: [[u64; NUMBERS]; ENTRIES.len()],
    sent: [u64; MOST_SENT + 1],
    statuses: [u64; STATUSES.len()],
    phases: [u64; PHASES.len()],
    /// Of each kind, by the unit's phase.
    heard: [[u64; PHASES.len()]; OF_GANGS.len()],
    /// Of each subject.
    cases: [Vec<u64>; SUBJECTS.len()],
    /// Events over a channel, and those of them that are frames at the box.
    events: u64,
    at_the_box: u64,
}

impl Counts {
    pub fn new() -> Counts {
        Counts {
            inputs: BTreeMap::new(),
            refusals: [[0; NUMBERS]; ENTRIES.len()],
            sent: [0; MOST_SENT + 1],
            statuses: [0; STATUSES.len()],
            phases: [0; PHASES.len()],
            heard: [[0; PHASES.len()]; OF_GANGS.len()],
            cases: SUBJECTS.map(|(_, names)| vec![0; names.len()]),
            events: 0,
            at_the_box: 0,
        }
    }

    pub fn input(&mut self, kind: &'static str) {
        *self.inputs.entry(kind).or_default() += 1;
    }

    /// A higher number is none of the paper's: it is counted nowhere and says so.
    pub fn refusal(&mut self, entry: Entry, number: u8) -> bool {
        match self.refusals[entry as usize].get_mut(usize::from(number)) {
            Some(count) => {
                *count += 1;
                true
            }
            None => false,
        }
    }

    pub fn sent(&mut self, frames: usize) {
        self.sent[frames] += 1;
    }

    /// Of a train after an accepted frame.
    pub fn status(&mut self, status: u8) {
        self.statuses[usize::from(status)] += 1;
    }

    /// Of a unit after what it accepted.
    pub fn phase(&mut self, phase: u8) {
        self.phases[usize::from(phase)] += 1;
    }

    /// A unit in this phase has heard a frame. Only kinds of gangs are counted.
    pub fn heard(&mut self, kind: u8, phase: u8) {
        let of_kind = kind.checked_sub(LA).map(usize::from);
        if let Some(counts) = of_kind.and_then(|n| self.heard.get_mut(n)) {
            counts[usize::from(phase)] += 1;
        }
    }

    pub fn cases<C: Case>(&mut self, cases: impl IntoIterator<Item = C>) {
        for case in cases {
            self.cases[C::SUBJECT as usize][case.place()] += 1;
        }
    }

    /// An event over a channel.
    pub fn event(&mut self, kind: &'static str, is_at_the_box: bool) {
        self.input(kind);
        self.events += 1;
        self.at_the_box += u64::from(is_at_the_box);
    }

    /// Events over a channel.
    pub fn events(&self) -> u64 {
        self.events
    }

    /// Frames put to the box, accepted and refused, but for those over a channel.
    pub fn frames(&self) -> u64 {
        self.calls(Entry::Answer) - self.at_the_box
    }

    /// Place reports, accepted and refused.
    pub fn reports(&self) -> u64 {
        self.calls(Entry::Locate)
    }

    fn calls(&self, entry: Entry) -> u64 {
        self.refusals[entry as usize].iter().sum()
    }

    /// What was to be reached and was not, or was reached and cannot be.
    pub fn failings(&self) -> Vec<String> {
        let entries = 0..ENTRIES.len();
        let mut failings: Vec<String> = entries.flat_map(|n| self.wrong_numbers(n)).collect();
        for (frames, count) in self.sent.iter().enumerate() {
            if *count == 0 {
                failings.push(format!("never {frames} frames sent"));
            }
        }
        for named in self.named() {
            failings.extend(never(named));
        }
        failings.extend(self.missing_inputs(""));
        failings
    }

    /// The kinds of inputs that are due, begin so, and were never handed in.
    fn missing_inputs(&self, beginning: &str) -> Vec<String> {
        let due = DUE_INPUTS.iter().filter(|kind| kind.starts_with(beginning));
        let missing = due.filter(|kind| !self.inputs.contains_key(**kind));
        missing
            .map(|kind| format!("input: {kind} never reached"))
            .collect()
    }

    /// The same for place reports alone.
    pub fn failings_of_reports(&self) -> Vec<String> {
        let subjects = [Subject::Places, Subject::PlaceOrders];
        let cases = subjects.map(|subject| never(self.cases_of(subject as usize)));
        [self.wrong_numbers(Entry::Locate as usize), cases.concat()].concat()
    }

    /// The same for events over a channel alone.
    pub fn failings_of_channel(&self) -> Vec<String> {
        let cases = never(self.cases_of(Subject::Channel as usize));
        [cases, self.missing_inputs("channel: ")].concat()
    }

    /// The numbers that an entry point can give and never gave, and those that it gave and cannot give.
    fn wrong_numbers(&self, entry: usize) -> Vec<String> {
        let (name, reachable) = ENTRIES[entry];
        let mut wrong = Vec::new();
        for number in 0..NUMBERS as u8 {
            let due = number == 0 || reachable.contains(&number);
            let met = self.refusals[entry][usize::from(number)] > 0;
            match (due, met) {
                (true, false) => wrong.push(format!("{name} never answered {number}")),
                (false, true) => wrong.push(format!("{name} answered {number}")),
                _ => (),
            }
        }
        wrong
    }

    /// All that is due under names.
    fn named(&self) -> Vec<Named<'_>> {
        let mut named: Vec<Named> = vec![
            ("status of a train".into(), &STATUSES, &self.statuses),
            ("phase of a unit".into(), &PHASES, &self.phases),
        ];
        for (kind, counts) in OF_GANGS.iter().zip(&self.heard) {
            named.push((format!("{kind} heard by a unit"), &PHASES, counts));
        }
        named.extend((0..SUBJECTS.len()).map(|subject| self.cases_of(subject)));
        named
    }

    fn cases_of(&self, subject: usize) -> Named<'_> {
        let (name, cases) = SUBJECTS[subject];
        (format!("case of {name}"), cases, &self.cases[subject])
    }

    /// Where nothing of a sort was met, that is left out: it is among the failings of a run that was to meet it.
    pub fn print(&self) {
        println!("inputs of each kind");
        for (kind, count) in &self.inputs {
            println!("  {kind:<44} {count:>12}");
        }
        self.print_refusals();
        println!("frames of an accepted frame's answer");
        for (frames, count) in self.sent.iter().enumerate() {
            println!("  {frames:<44} {count:>12}");
        }
        let is_met = |counts: &[u64]| counts.iter().any(|count| *count > 0);
        for (what, names, counts) in self.named().into_iter().filter(|named| is_met(named.2)) {
            println!("{what}");
            for (name, count) in names.iter().zip(counts) {
                println!("  {name:<44} {count:>12}");
            }
        }
        self.print_calls();
    }

    fn print_calls(&self) {
        let accepted = |entry| self.refusals[entry as usize][0];
        println!(
            "events over a channel: {}, frames at the box among them: {}",
            self.events, self.at_the_box
        );
        println!(
            "frames answered: {}, accepted: {}; running times asked for: {}, told: {}; places reported: {}, told: {}",
            self.calls(Entry::Answer),
            accepted(Entry::Answer),
            self.calls(Entry::RunningTime),
            accepted(Entry::RunningTime),
            self.reports(),
            accepted(Entry::Locate)
        );
    }

    fn print_refusals(&self) {
        print!("number");
        for (name, _) in ENTRIES {
            print!(" {name:>12}");
        }
        println!();
        for number in (0..NUMBERS).filter(|number| self.is_told(*number)) {
            print!("{number:>6}");
            for (entry, (_, reachable)) in ENTRIES.iter().enumerate() {
                let count = self.refusals[entry][number];
                if count == 0 && number > 0 && !reachable.contains(&(number as u8)) {
                    print!(" {:>12}", ".");
                } else {
                    print!(" {count:>12}");
                }
            }
            println!();
        }
    }

    /// Some entry point can give the number, or gave it.
    fn is_told(&self, number: usize) -> bool {
        let can = ENTRIES
            .iter()
            .any(|(_, list)| list.contains(&(number as u8)));
        number == 0 || can || self.refusals.iter().any(|counts| counts[number] > 0)
    }
}

/// What it is, the names, and how often each was reached.
type Named<'a> = (String, &'a [&'a str], &'a [u64]);

fn never((what, names, counts): Named) -> Vec<String> {
    let missing = names.iter().zip(counts).filter(|(_, count)| **count == 0);
    missing
        .map(|(name, _)| format!("{what}: {name} never reached"))
        .collect()
}
