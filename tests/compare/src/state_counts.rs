//! The journal's count of a state handed in, with the numbers of the requests that wait: often near the most that is in
//! range, and above it.

use crate::journal_counts::{MOST, NEAR};
use crate::{state_moves, state_tracks, states};
use inputs::frames::{frame, local_run, AM, FA, LB};
use inputs::random::Random;
use inputs::sizes::{FRAME_BYTES, LOCAL_RUNS, RECORDS_A_FRAME};
use model::{Standing, State};

/// A count in its range, for a state in which so many wait.
pub fn give(state: &mut State, asked: usize, random: &mut Random) {
    let least = asked as u8;
    state.journal = match random.below(8) {
        0 | 1 => random.between(NEAR, MOST),
        2 => least,
        3 => MOST,
        _ => random.between(least, MOST),
    };
    number(state, random);
}

/// Distinct numbers below the count for the requests that wait.
fn number(state: &mut State, random: &mut Random) {
    let mut taken = Vec::new();
    let count = state.journal;
    for train in states::trains_of(state) {
        if let Standing::Asked(number) = &mut train.standing {
            *number = one_more(&taken, count, random);
            taken.push(*number);
        }
    }
}

/// A number below the count that is not taken.
fn one_more(taken: &[u8], count: u8, random: &mut Random) -> u8 {
    let mut number = random.between(0, count - 1);
    while taken.contains(&number) {
        number = (number + 1) % count;
    }
    number
}

/// A count above the most. The requests that wait keep their numbers, or get others below it.
pub fn altered(mut state: State, random: &mut Random) -> State {
    let a_frame = RECORDS_A_FRAME as u8;
    let near = random.between(MOST + 1, MOST + a_frame);
    let far = random.between(MOST + a_frame + 1, 255);
    state.journal = random.pick(&[MOST + 1, near, near, far, 255]);
    if random.one_in(2) {
        number(&mut state, random);
    }
    state
}

/// Most of six trains wait, each for a section of its own, near the most; and a frame at which all that wait may go: an
/// FA of another, granted or declined for a gang, its AM, or an LB.
pub fn many_waiting(random: &mut Random) -> (State, [u8; FRAME_BYTES]) {
    let mut state = states::crowd(random);
    let few = random.one_in(3);
    for train in &mut state.train {
        let waits = !few || random.one_in(2);
        train.standing = [Standing::Free, Standing::Asked(0)][usize::from(waits)];
    }
    let t = random.below(6);
    let from = state.train[t].at;
    let to = state.train[t].next().unwrap_or(from);
    let (own, any) = (from.min(to), random.between(0, 6));
    let of_train = |kind| frame(kind, t as u8, from, to);
    let (standing, gang, frame) = match random.below(4) {
        0 => (Standing::Free, None, of_train(FA)),
        1 => (Standing::Free, Some(own), of_train(FA)),
        2 => (Standing::Running(0), None, of_train(AM)),
        _ => (Standing::Asked(0), Some(any), local_run(LB, any)),
    };
    state.train[t].standing = standing;
    if let Some(section) = gang {
        state.possessions[usize::from(section)] = true;
    }
    state.given = random.between(0, LOCAL_RUNS);
    state_moves::give(&mut state);
    let near = random.between(NEAR, MOST);
    state.journal = random.pick(&[near, MOST]);
    number(&mut state, random);
    state_tracks::give(&mut state, |unheld| random.pick(unheld));
    (state, frame)
}
