//! Units that are wrong with Again.

use crate::wrong_boxes::{every_is_found, Fault, Pressed};
use inputs::encoding::{AGAIN, NO_BUTTON};
use inputs::sizes::FRAME_BYTES;
use model::{Message, Move, Unit, UnitState};
use std::cmp::Ordering;

/// The number of Ask.
const ASK: u8 = 0;

/// What Again gives in place of the model's answer, where the unit is so and the buffer is long enough.
pub fn again_where(
    p: &mut Pressed,
    is_so: fn(&Unit) -> bool,
    gives: fn(&Unit) -> Result<Option<Message>, u8>,
) {
    if p.button == AGAIN && p.given != Err(2) && is_so(p.before) {
        p.given = gives(p.before);
    }
}

/// The posts behind and before a unit, on its way.
pub fn around(unit: &Unit) -> [u8; 2] {
    let Unit { start, end, at, .. } = *unit;
    let step = |from: u8, to: u8| match from.cmp(&to) {
        Ordering::Less => from + 1,
        Ordering::Equal => from,
        Ordering::Greater => from - 1,
    };
    [step(at, start), step(at, end)]
}

fn request(unit: &Unit) -> Result<Option<Message>, u8> {
    let [_, to] = around(unit);
    let Unit {
        train, at: from, ..
    } = *unit;
    Ok(Some(Message::Fa(Move { train, from, to })))
}

pub fn arrival(unit: &Unit, from: u8, to: u8) -> Result<Option<Message>, u8> {
    let train = unit.train;
    Ok(Some(Message::Am(Move { train, from, to })))
}

pub fn stands(unit: &Unit) -> bool {
    unit.state == UnitState::Standing
}

pub fn waits(unit: &Unit) -> bool {
    matches!(unit.state, UnitState::Asked | UnitState::Declined)
}

pub fn stands_past(unit: &Unit) -> bool {
    stands(unit) && unit.at != unit.start
}

const FAULTS: [(&str, Fault); 21] = [
    (
        "Again is no button",
        Fault::Presses(|p| again_where(p, |_| true, |_| Err(21))),
    ),
    (
        "Again gives the FA in Granted",
        Fault::Presses(|p| again_where(p, |u| u.state == UnitState::Granted, request)),
    ),
    (
        "Again gives the FA under way",
        Fault::Presses(|p| again_where(p, |u| u.state == UnitState::UnderWay, request)),
    ),
    (
        "Again gives the AM in Arrived",
        Fault::Presses(|p| {
            let arrived = |u: &Unit| u.state == UnitState::Arrived;
            again_where(p, arrived, |u| arrival(u, u.at, around(u)[1]));
        }),
    ),
    (
        "Again is 21 in Declined",
        Fault::Presses(|p| again_where(p, |u| u.state == UnitState::Declined, |_| Err(21))),
    ),
    (
        "Again is 21 in Asked",
        Fault::Presses(|p| again_where(p, |u| u.state == UnitState::Asked, |_| Err(21))),
    ),
    (
        "Again asks at the start",
        Fault::Presses(|p| {
            let at_start = |u: &Unit| stands(u) && u.at == u.start && u.at != u.end;
            again_where(p, at_start, request);
        }),
    ),
    (
        "Again gives an AM at the start",
        Fault::Presses(|p| {
            let at_start = |u: &Unit| stands(u) && u.at == u.start;
            again_where(p, at_start, |u| arrival(u, u.at, u.at));
        }),
    ),
    (
        "Again is 8 at the end",
        Fault::Presses(|p| again_where(p, |u| stands(u) && u.at == u.end, |_| Err(8))),
    ),
    (
        "Again is 8 for a parked train",
        Fault::Presses(|p| again_where(p, |u| stands(u) && u.start == u.end, |_| Err(8))),
    ),
    (
        "Again is 21 at the end",
        Fault::Presses(|p| again_where(p, |u| stands_past(u) && u.at == u.end, |_| Err(21))),
    ),
    (
        "Again gives the AM of the next move",
        Fault::Presses(|p| again_where(p, stands_past, |u| arrival(u, u.at, around(u)[1]))),
    ),
    (
        "Again gives the AM backwards",
        Fault::Presses(|p| again_where(p, stands_past, |u| arrival(u, u.at, around(u)[0]))),
    ),
    (
        "Again gives the AM of the whole way",
        Fault::Presses(|p| again_where(p, stands_past, |u| arrival(u, u.start, u.at))),
    ),
    (
        "Again takes every train for one that goes up",
        Fault::Presses(|p| {
            let goes_down = |u: &Unit| stands_past(u) && u.start > u.end && u.at > 0;
            again_where(p, goes_down, |u| arrival(u, u.at - 1, u.at));
        }),
    ),
    (
        "Again asks for the next move",
        Fault::Presses(|p| again_where(p, |u| stands_past(u) && u.at != u.end, request)),
    ),
    (
        "Again moves on",
        Fault::Presses(|p| {
            if p.button == AGAIN && stands_past(p.before) && p.given.is_ok() {
                p.after.at = around(p.before)[1];
            }
        }),
    ),
    (
        "Again in Declined asks anew",
        Fault::Presses(|p| {
            if p.button == AGAIN && p.given.is_ok() && p.before.state == UnitState::Declined {
                p.after.state = UnitState::Asked;
            }
        }),
    ),
    (
        "21 before 2 for Again",
        Fault::Presses(|p| {
            let not_now = p.before.at == p.before.start && stands(p.before);
            if p.button == AGAIN && p.room < FRAME_BYTES && not_now {
                p.given = Err(21);
            }
        }),
    ),
    (
        "Ask is Again in Asked and Declined",
        Fault::Presses(|p| {
            if p.button == ASK && p.given == Err(21) && waits(p.before) {
                p.given = request(p.before);
            }
        }),
    ),
    (
        "the button after Again is Again",
        Fault::Presses(|p| {
            if p.button == NO_BUTTON && p.given == Err(21) && waits(p.before) {
                p.given = request(p.before);
            }
        }),
    ),
];

#[test]
fn every_unit_wrong_with_again_is_found() {
    every_is_found(&FAULTS);
}
