//! Frames to be answered, each with the state that it meets, taken from runs by the model.

use inputs::crews::{run, Opened, Senders, Turn};
use inputs::frames::{AFE, AM, KIND_AT, LA, LB};
use inputs::random::Random;
use inputs::sizes::FRAME_BYTES;
use model::Verdict;

/// What comes of a frame.
#[derive(Clone, Copy, PartialEq)]
pub enum Class {
    Granted,
    Declined,
    Arrival,
    Given,
    Back,
    Again,
    Refused,
}

const RUNS: u64 = 20;
const MOST_FRAMES: usize = 400;

/// The samples of a class, or all frames of the runs, as they come. Gangs are only in the runs for their own classes,
/// and crews send again what may be lost only in those for repeats.
pub fn samples(opened: &Opened, class: Option<Class>) -> Vec<Turn> {
    let senders = match class {
        Some(Class::Given | Class::Back) => Senders::CrewsAndGangs,
        Some(Class::Again) => Senders::CrewsOverBadRadio,
        _ => Senders::Crews,
    };
    let mut all = Vec::new();
    for seed in 1..=RUNS {
        let random = &mut Random::of_stored_runs(seed * 7919);
        all.extend(run(opened, senders, random).take(MOST_FRAMES));
    }
    all.retain(|turn| class.is_none_or(|class| class == class_of(turn)));
    all
}

fn class_of(turn: &Turn) -> Class {
    match turn.verdict {
        Verdict::Refused(_) => Class::Refused,
        Verdict::Sent(_) if turn.is_repeat => Class::Again,
        Verdict::Sent(sent) => match turn.frame[KIND_AT] {
            AM => Class::Arrival,
            LA => Class::Given,
            LB => Class::Back,
            // A run asks one by one, so the last answer to an FA is its own.
            _ if last_kind(turn, sent) == Some(AFE) => Class::Declined,
            _ => Class::Granted,
        },
    }
}

/// The kind of the last of so many frames sent.
fn last_kind(turn: &Turn, sent: usize) -> Option<u8> {
    let last = turn.out[..FRAME_BYTES * sent]
        .chunks_exact(FRAME_BYTES)
        .last();
    last.map(|frame| frame[KIND_AT])
}
