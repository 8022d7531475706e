//! Boxes that are wrong with the last moves of a state.

use crate::cases::LastMoveCase;
use crate::last_moves::of_strange;
use crate::state_moves::give;
use crate::wrong_boxes::{every_is_found, Answered, Fault};
use inputs::encoding::{state_bytes, train_at};
use inputs::frames::{AM, FA, FE};
use inputs::sizes::{FLEET_AT, SECTIONS_AT, STATE_BYTES, TRAINS_AT, TRAIN_BYTES};
use model::{Record, State, Train};

/// Other last moves for the trains of the records of this kind.
fn other_last(a: Answered, kind: u8, last: fn(&Record, &Train) -> Option<(u8, u8)>) {
    for r in a.records.iter().filter(|r| r.kind == kind) {
        let t = usize::from(r.train);
        a.after.train[t].last = last(r, &a.before.train[t]);
    }
}

/// A state that is strange for one such last move is taken for one with right ones.
fn overlooked(mut state: State, cases: &[LastMoveCase]) -> State {
    let case = of_strange(&state_bytes(&state));
    if case.is_some_and(|case| cases.contains(&case)) {
        give(&mut state);
    }
    state
}

/// The bytes of the last moves of the trains from this one on.
fn lasts(state: &mut [u8], from: usize) -> impl Iterator<Item = &mut [u8]> {
    let fleet = match state.len() {
        STATE_BYTES => &mut state[FLEET_AT..SECTIONS_AT],
        _ => &mut [],
    };
    let places = fleet.chunks_exact_mut(TRAIN_BYTES).skip(from);
    places.map(|place| &mut place[train_at::LAST..])
}

/// How many trains the bytes name.
fn trains(state: &[u8]) -> usize {
    state
        .get(TRAINS_AT)
        .map_or(0, |trains| usize::from(*trains))
}

/// A byte above 1 is taken for 1.
fn with_a_byte(last: &mut [u8]) {
    last[0] = last[0].min(1);
}

/// The posts are taken for 0 where there is no move.
fn without_posts(last: &mut [u8]) {
    if last[0] == 0 {
        last.fill(0);
    }
}

const FAULTS: [(&str, Fault); 25] = [
    (
        "an arrival leaves the last move as it was",
        Fault::Answered(|a| other_last(a, AM, |_, before| before.last)),
    ),
    (
        "an arrival at the end has no last move",
        Fault::Answered(|a| {
            other_last(a, AM, |am, before| {
                (am.to != before.end).then_some((am.from, am.to))
            });
        }),
    ),
    (
        "the first move stays the last",
        Fault::Answered(|a| {
            other_last(a, AM, |am, before| before.last.or(Some((am.from, am.to))));
        }),
    ),
    (
        "an arrival is kept backwards",
        Fault::Answered(|a| other_last(a, AM, |am, _| Some((am.to, am.from)))),
    ),
    (
        "an arrival is kept by its to post",
        Fault::Answered(|a| other_last(a, AM, |am, _| Some((am.to, am.to)))),
    ),
    (
        "a grant writes the last move",
        Fault::Answered(|a| other_last(a, FE, |fe, _| Some((fe.from, fe.to)))),
    ),
    (
        "a grant forgets the last move",
        Fault::Answered(|a| other_last(a, FE, |_, _| None)),
    ),
    (
        "a request forgets the last move",
        Fault::Answered(|a| other_last(a, FA, |_, _| None)),
    ),
    (
        "a train has a last move at the opening",
        Fault::Opened(|s| s.train[0].last = Some((s.train[0].at, s.train[0].at))),
    ),
    (
        "a place not read has a last move at the opening",
        Fault::Opened(|s| {
            if s.trains < 6 {
                s.train[5].last = Some((0, 0));
            }
        }),
    ),
    (
        "last moves in places not read are cleared",
        Fault::Answered(|a| {
            for place in &mut a.after.train[usize::from(a.before.trains)..] {
                place.last = None;
            }
        }),
    ),
    (
        "last moves in places not read are seen",
        Fault::TakenFor(|s| {
            let mut unread = s.train[usize::from(s.trains).min(6)..].iter();
            match unread.any(|place| place.last != place.reached_by()) {
                true => State::EMPTY,
                false => s,
            }
        }),
    ),
    (
        "last moves are not looked at",
        Fault::TakenFor(|mut s| {
            give(&mut s);
            s
        }),
    ),
    (
        "no last move past the start is not seen",
        Fault::TakenFor(|s| overlooked(s, &[LastMoveCase::NonePast])),
    ),
    (
        "a last move at the start is not seen",
        Fault::TakenFor(|s| overlooked(s, &[LastMoveCase::AtStart])),
    ),
    (
        "a last move of a parked train is not seen",
        Fault::TakenFor(|s| overlooked(s, &[LastMoveCase::Parked])),
    ),
    (
        "a last move backwards is not seen",
        Fault::TakenFor(|s| overlooked(s, &[LastMoveCase::Backwards])),
    ),
    (
        "the move ahead as the last is not seen",
        Fault::TakenFor(|s| overlooked(s, &[LastMoveCase::Ahead])),
    ),
    (
        "the move under way as the last is not seen",
        Fault::TakenFor(|s| overlooked(s, &[LastMoveCase::AheadRunning])),
    ),
    (
        "an earlier move as the last is not seen",
        Fault::TakenFor(|s| overlooked(s, &[LastMoveCase::Earlier])),
    ),
    (
        "another from or to post of the last move is not seen",
        Fault::TakenFor(|s| {
            let others = [LastMoveCase::OtherFrom, LastMoveCase::OtherTo];
            overlooked(s, &others)
        }),
    ),
    (
        "a byte above 1 is a last move",
        Fault::Reads(|s, _| lasts(s, 0).for_each(with_a_byte)),
    ),
    (
        "a byte above 1 is not seen in places not read",
        Fault::Reads(|s, _| lasts(s, trains(s)).for_each(with_a_byte)),
    ),
    (
        "a post where there is no last move is not seen",
        Fault::Reads(|s, _| lasts(s, 0).for_each(without_posts)),
    ),
    (
        "a post where there is no last move is not seen in places not read",
        Fault::Reads(|s, _| lasts(s, trains(s)).for_each(without_posts)),
    ),
];

#[test]
fn every_box_wrong_with_last_moves_is_found() {
    every_is_found(&FAULTS);
}
