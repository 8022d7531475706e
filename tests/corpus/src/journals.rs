//! Stored inputs with the longest journals: each request is declined at first, and all local runs are given and come
//! back.

use crate::stored::{end_to_end, on, Frame, Input, ASK};
use inputs::books::{book, book_2};
use inputs::crews::{self, is_declined, is_free, is_under_way, next_frames};
use inputs::frames::{frame, local_run, AFE, AM, FA, FE, FROM_AT, LA, LB, LE, TO_AT};
use inputs::sizes::LOCAL_RUNS;
use model::{State, Train};

const LA_0: Frame = local_run(LA, 0);
const LB_0: Frame = local_run(LB, 0);

pub fn all() -> Vec<Input> {
    let mut inputs = vec![one_move()];
    inputs.extend(longest());
    inputs.extend(longest_with_sidings());
    inputs
}

/// Of 42 moves: one local run more is 26. The same run with each frame twice, of which those of gangs are 24 and 25 the
/// second time, and with frames after it that log nothing.
fn longest() -> Vec<Input> {
    let book = end_to_end();
    let Some(mut run) = Run::of(&book) else {
        return vec![];
    };
    run.bring_all_home();
    run.give_all();
    let twice: Vec<Frame> = run.frames.iter().flat_map(|frame| [*frame; 2]).collect();
    let more = [&run.frames[..], &after_it(&run)].concat();
    vec![
        on(
            &book,
            "run-longest-journal",
            &[&run.frames[..], &[LA_0]].concat(),
        ),
        on(&book, "run-longest-journal-each-frame-twice", &twice),
        on(&book, "run-longest-journal-then-more", &more),
    ]
}

/// What can still be sent to a box that logs nothing more: the last arrival of each train once again, which is taken;
/// its request, and one behind its end, 8; sections asked for, 26, and given back, 25; answers, 6; a train and posts
/// that are not there, 7 and 9; and frames that are torn, of another edition or of no kind.
fn after_it(run: &Run) -> Vec<Frame> {
    let mut frames = vec![];
    for (t, train) in run.state.present().iter().enumerate() {
        let (from, to) = train.last.unwrap_or((train.at, train.at));
        frames.extend([AM, FA].map(|kind| frame(kind, t as u8, from, to)));
        frames.push(frame(FA, t as u8, to, to));
    }
    for section in 0..7 {
        frames.extend([LA, LB].map(|kind| local_run(kind, section)));
    }
    frames.extend([FE, AFE, LE].map(|kind| frame(kind, 0, 0, 1)));
    frames.extend([frame(AM, 6, 0, 1), local_run(LA, 7), local_run(LB, 7)]);
    frames.extend([[0, 6, 1, AM, 0, 6, 7], [0, 5, 2, AM, 0, 6, 7]]);
    frames.extend([frame(8, 0, 0, 1), frame(AM, 0, 6, 7)]);
    frames
}

/// With sidings at both ends: the up trains go all the way, one section after the other, and then the down trains. A
/// gang has each section before them, while all three ask for it.
fn longest_with_sidings() -> Option<Input> {
    let routes = [[0, 7], [0, 7], [0, 7], [7, 0], [7, 0], [7, 0]];
    let book = book_2(&[4; 8], 0x81, &routes);
    let mut run = Run::of(&book)?;
    for section in 0..7 {
        run.go_over(section, |train| train.is_up());
    }
    for section in (0..7).rev() {
        run.go_over(section, |train| !train.is_up());
    }
    run.give_all();
    Some(on(&book, "run-longest-journal-with-sidings", &run.frames))
}

/// One train on two posts: four records of its move and sixty of gangs. One local run more is 26, and the arrival is
/// taken once again.
fn one_move() -> Input {
    let arrived = frame(AM, 0, 0, 1);
    let others = [LA_0, LB_0].repeat(usize::from(LOCAL_RUNS) - 1);
    let frames = [&[LA_0, ASK, LB_0, arrived][..], &others, &[LA_0, arrived]];
    let line = book(&[1, 1], &[[0, 1]]);
    on(&line, "run-longest-journal-of-one-move", &frames.concat())
}

/// A run under way, by the model.
struct Run {
    state: State,
    table: Vec<u8>,
    frames: Vec<Frame>,
}

impl Run {
    fn of(book: &[u8]) -> Option<Run> {
        let crews::Opened { state, table } = crews::open(book)?;
        Some(Run {
            state,
            table,
            frames: vec![],
        })
    }

    /// Every request is declined: at best since others are under way, else since a gang has the section.
    fn bring_all_home(&mut self) {
        loop {
            let requests = next_frames(&self.state, FA, is_free);
            let arrivals = next_frames(&self.state, AM, is_under_way);
            let is_declined = |request: &&Frame| is_declined(&self.state, &self.table, *request);
            let declined = requests.iter().find(is_declined);
            match (declined, arrivals.first(), requests.first()) {
                (Some(request), _, _) => self.put(&[*request]),
                (None, Some(arrival), _) => self.put(&[*arrival]),
                (None, None, Some(request)) => {
                    let section = request[FROM_AT].min(request[TO_AT]);
                    self.put(&[local_run(LA, section), *request, local_run(LB, section)]);
                }
                (None, None, None) => return,
            }
        }
    }

    /// Local runs until all are given, each of which comes back.
    fn give_all(&mut self) {
        while self.state.given < LOCAL_RUNS {
            self.put(&[LA_0, LB_0]);
        }
    }

    /// These trains ask for the section while a gang has it, and then go over it one after the other.
    fn go_over(&mut self, section: u8, goes: fn(&Train) -> bool) {
        self.put(&[local_run(LA, section)]);
        self.put(&next_frames(&self.state, FA, goes));
        self.put(&[local_run(LB, section)]);
        while let Some(arrival) = next_frames(&self.state, AM, is_under_way).first() {
            self.put(&[*arrival]);
        }
    }

    fn put(&mut self, frames: &[Frame]) {
        for frame in frames {
            self.state = crews::answer(&self.state, &self.table, frame).0;
            self.frames.push(*frame);
        }
    }
}
