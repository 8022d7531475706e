//! Stored inputs with repeats over bad radio: frames that come once more, frames that nearly repeat one, and runs.

use crate::stored::{end_to_end, on, put_away, runs_of, Frame, Input, ASK};
use inputs::books::{book, X, Y};
use inputs::crews::Senders;
use inputs::frames::{frame, local_run, AM, FA, LA, LB};

/// The moves of train 0 on X, and train 1's first.
const ARRIVED: Frame = frame(AM, 0, 0, 1);
const ASK_ON: Frame = frame(FA, 0, 1, 2);
const HOME: Frame = frame(AM, 0, 1, 2);
const ASK_1: Frame = frame(FA, 1, 2, 1);
const ARRIVED_1: Frame = frame(AM, 1, 2, 1);

pub fn all() -> Vec<Input> {
    let on_x = [
        (
            "frame-arrival-reported-twice",
            vec![ASK, ARRIVED, ARRIVED, ARRIVED],
        ),
        (
            "frame-arrival-twice-then-asked",
            vec![ASK, ASK, ARRIVED, ARRIVED, ASK, ASK_ON, ARRIVED],
        ),
        ("frame-repeat-under-way", under_way()),
        ("frame-repeat-at-the-end", at_the_end()),
        ("frame-repeat-beside-a-gang", beside_a_gang()),
        ("frame-finished-move-nearly", nearly_finished()),
        ("frame-finished-move-of-another-train", of_another_train()),
        (
            "frame-arrival-of-a-declined-move",
            vec![ASK, ARRIVED, ASK_ON, HOME, ASK_ON, HOME],
        ),
        (
            "frame-arrival-lost-then-asked",
            vec![ASK, ASK_ON, ASK_ON, ARRIVED, ASK_1, ASK_ON],
        ),
        ("frame-asked-three-hundred-times", vec![ASK; 300]),
        ("frame-damaged-repeats", damaged()),
    ];
    let mut inputs = on_x.map(|(name, frames)| on(&X, name, &frames)).to_vec();
    inputs.push(on(&Y, "frame-repeat-declined", &declined()));
    inputs.push(earlier_move());
    inputs.extend(runs());
    inputs
}

/// Train 0 is under way to its end: the AM of its first move and the FA of its second are repeats, and the FA of its
/// first is 9.
fn under_way() -> Vec<Frame> {
    let to_the_end = [ASK, ASK_1, ARRIVED, ASK_ON, ARRIVED_1];
    [&to_the_end[..], &[ARRIVED, ASK_ON, ASK, ASK_ON]].concat()
}

/// Train 0 is at its end: the AM of its last move is taken, and all else is 8.
fn at_the_end() -> Vec<Frame> {
    let home = [ASK, ASK_1, ARRIVED, ASK_ON, ARRIVED_1, HOME];
    let after = [HOME, ASK_ON, ARRIVED, frame(AM, 0, 2, 2), HOME];
    [&home[..], &after].concat()
}

/// A gang has the section: AFE again, until the LB lets the train go, and then FE again.
fn beside_a_gang() -> Vec<Frame> {
    vec![local_run(LA, 0), ASK, ASK, local_run(LB, 0), ASK]
}

/// Either post of the last move with another, both exchanged, and one of them twice: 9.
fn nearly_finished() -> Vec<Frame> {
    let nearly = [[0, 0], [0, 2], [1, 0], [1, 1], [2, 1], [255, 1], [0, 255]];
    let arrivals = nearly.map(|[from, to]| frame(AM, 0, from, to));
    [&[ASK, ARRIVED][..], &arrivals, &[ARRIVED]].concat()
}

/// Train 0's last move with the numbers of train 1, at its start and past it, and of a train that is not there.
fn of_another_train() -> Vec<Frame> {
    let by = |train| frame(AM, train, 0, 1);
    vec![ASK, ARRIVED, by(1), by(2), ASK_1, ARRIVED_1, by(1), by(0)]
}

/// A torn repeat, and one of another edition, are refused; so is the answer itself.
fn damaged() -> Vec<Frame> {
    vec![
        ASK,
        [0, 6, 1, FA, 0, 0, 1],
        [0, 5, 2, FA, 0, 0, 1],
        frame(2, 0, 0, 1),
        ASK,
    ]
}

/// Train 2 of Y is declined, and again, until train 0 has let it go; then its FE comes again.
fn declined() -> Vec<Frame> {
    let ask_2 = frame(FA, 2, 2, 1);
    vec![
        ask_2, ASK, ask_2, ARRIVED, ask_2, ASK_ON, ask_2, HOME, ask_2, ask_2,
    ]
}

/// Alone on four posts: after its second move the AM of the first is 9, after the third that of the first two is 8.
fn earlier_move() -> Input {
    let line = book(&[1; 4], &[[0, 3]]);
    let [first, second, third] =
        [0, 1, 2].map(|from| [FA, AM].map(|kind| frame(kind, 0, from, from + 1)));
    let am = |two: [Frame; 2]| two[1];
    let frames = [
        &first[..],
        &second,
        &[am(first), am(second)],
        &third,
        &[am(first), am(second), am(third)],
    ];
    on(&line, "frame-arrival-of-an-earlier-move", &frames.concat())
}

/// Runs in which every second frame or so is sent again.
fn runs() -> Vec<Input> {
    let books = [
        ("repeats", end_to_end()),
        ("repeats-x", X.to_vec()),
        ("repeats-y", Y.to_vec()),
        ("repeats-sidings", put_away()),
    ];
    let runs = |(name, book): (&str, Vec<u8>)| runs_of(&book, name, Senders::CrewsOverBadRadio, 2);
    books.into_iter().flat_map(runs).collect()
}
