//! Stored inputs with track gangs: their frames refused, and runs in which trains wait for them.

use crate::stored::{on, Frame, Input, ASK};
use inputs::books::{book, X};
use inputs::frames::{frame, local_run, AM, FA, GANG, LA, LB, LE};
use inputs::sizes::LOCAL_RUNS;

/// The frames for the two sections of X.
const LA_0: Frame = local_run(LA, 0);
const LB_0: Frame = local_run(LB, 0);
const LA_1: Frame = local_run(LA, 1);
const LB_1: Frame = local_run(LB, 1);

pub fn all() -> Vec<Input> {
    let on_x = [
        (
            "frame-given-at-the-box",
            vec![local_run(LE, 0), frame(LE, 9, 9, 9)],
        ),
        ("frame-section-taken", section_taken()),
        ("frame-no-local-run", no_local_run()),
        ("frame-twenty-first", twenty_first()),
        ("frame-local-run-named-wrong", named_wrong()),
        ("run-local-run", local_run_on_x()),
        ("run-two-local-runs", two_local_runs()),
    ];
    let mut inputs = on_x.map(|(name, frames)| on(&X, name, &frames)).to_vec();
    inputs.push(elder_held_up());
    inputs
}

/// 24 by a gang, then by a train, which has left the section before the last LA.
fn section_taken() -> Vec<Frame> {
    let [request, arrival] = [FA, AM].map(|kind| frame(kind, 1, 2, 1));
    vec![LA_0, LA_0, request, LA_1, arrival, LA_1, LB_0, LB_1]
}

/// 25 before any LA, after one for the other section, after the LB, and where a train is.
fn no_local_run() -> Vec<Frame> {
    vec![LB_0, LA_0, LB_1, LB_0, LB_0, ASK, LB_0]
}

/// The twentieth stays: 24 for its section and 26 for the other, and 26 for its own when it has come back.
fn twenty_first() -> Vec<Frame> {
    let nineteen = [LA_0, LB_0].repeat(usize::from(LOCAL_RUNS) - 1);
    [&nineteen[..], &[LA_0, LA_0, LA_1, LB_0, LA_0]].concat()
}

/// A gang has section 0. 7 for a train's number, also where the posts are wrong; then 9 for posts that are no section
/// of the line with the lower one first.
fn named_wrong() -> Vec<Frame> {
    let by_train = [[0, 0, 1], [1, 0, 1], [254, 0, 1], [0, 9, 9]];
    let by_posts = [
        [1, 0],
        [0, 0],
        [1, 1],
        [0, 2],
        [2, 3],
        [3, 4],
        [7, 8],
        [254, 255],
        [255, 0],
        [255, 255],
    ]
    .map(|[from, to]| [GANG, from, to]);
    let named = [&by_train[..], &by_posts].concat();
    let wrong = |kind| {
        let frame = move |[train, from, to]: &[u8; 3]| frame(kind, *train, *from, *to);
        named.iter().map(frame).collect::<Vec<_>>()
    };
    [vec![LA_0], wrong(LA), wrong(LB)].concat()
}

/// Train 0 waits for a gang, whose LB lets it go; the rest is refused: 24 by the gang, 25, 24 by the train, 6, 7, 9
/// twice, 5 and 7.
fn local_run_on_x() -> Vec<Frame> {
    vec![
        LA_0,
        ASK,
        LA_0,
        LB_1,
        LB_0,
        LA_0,
        local_run(LE, 0),
        frame(LA, 0, 0, 1),
        frame(LA, GANG, 1, 0),
        frame(LA, GANG, 2, 3),
        frame(8, GANG, 0, 1),
        frame(FA, GANG, 0, 1),
    ]
}

/// Both trains of X wait for the first gang, whose LB lets the elder go, and one for the second. A third comes when
/// both are home.
fn two_local_runs() -> Vec<Frame> {
    vec![
        LA_0,
        ASK,
        frame(FA, 1, 2, 1),
        frame(AM, 1, 2, 1),
        frame(FA, 1, 1, 0),
        LB_0,
        frame(AM, 0, 0, 1),
        LA_1,
        frame(FA, 0, 1, 2),
        frame(AM, 1, 1, 0),
        LB_1,
        frame(AM, 0, 1, 2),
        LA_0,
        LB_0,
    ]
}

/// Train 0 waits at post 1 for a gang before it. Train 2, which asks later, leaves that post the other way, and train 1
/// waits beyond the gang.
fn elder_held_up() -> Input {
    let book = book(&[2, 2, 2], &[[0, 2], [2, 0], [1, 0]]);
    let frames = [
        LA_1,
        ASK,
        frame(AM, 0, 0, 1),
        frame(FA, 0, 1, 2),
        frame(FA, 2, 1, 0),
        frame(AM, 2, 1, 0),
        frame(FA, 1, 2, 1),
        LB_1,
        frame(AM, 0, 1, 2),
        frame(AM, 1, 2, 1),
        frame(FA, 1, 1, 0),
        frame(AM, 1, 1, 0),
    ];
    on(&book, "run-gang-holds-up-an-elder", &frames)
}
