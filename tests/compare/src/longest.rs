//! The longest journals: runs from an opened book in which every request is declined at first, all come home, and all
//! local runs are given and come back.

use crate::desk::Desk;
use crate::lent::Lent;
use crate::openings::{self, Opened};
use crate::pair::{Compared, Pair};
use crate::runs::{self, LONGEST_RUN};
use crate::stores;
use inputs::books::Parts;
use inputs::crews::{is_declined, is_free, is_under_way, next_frames};
use inputs::encoding::state_of;
use inputs::frames::{local_run, AM, FA, LA, LB};
use inputs::random::Random;
use inputs::sizes::{FRAME_BYTES, LOCAL_RUNS};
use model::State;

type Frame = [u8; FRAME_BYTES];

/// Opens a book of six trains that go all the way, so that there are 42 moves.
pub fn open(pair: &mut Pair, random: &mut Random) -> Compared<Opened> {
    openings::open_such(pair, random, all_the_way)
}

/// Eight posts, tracks or sidings for all at both ends, and two to four trains each way.
fn all_the_way(random: &mut Random) -> Vec<u8> {
    let mut tracks = [0; 8].map(|_: u8| random.between(2, 4));
    (tracks[0], tracks[7]) = (4, 4);
    let up = 2 + random.below(3);
    let mut routes: Vec<[u8; 2]> = (0..6)
        .map(|t| if t < up { [0, 7] } else { [7, 0] })
        .collect();
    for t in 0..6 {
        routes.swap(t, random.below(6));
    }
    let some = random.byte();
    let sidings = random.pick(&[None, Some(0), Some(0x81), Some(some)]);
    let parts = Parts::new(&tracks, sidings, &routes);
    if random.one_in(3) {
        parts.with_positions(&[0, 1, 2, 3, 4, 5, 6, 7]).bytes()
    } else {
        parts.bytes()
    }
}

/// Such a run under the book's own table, and some frames after it.
pub fn whole(pair: &mut Pair, opened: &Opened, random: &mut Random) -> Compared<()> {
    pair.counts.input("run: each request declined at first");
    let table = &opened.table;
    let mut desk = Desk::opened(&opened.state, stores::journal(random), random);
    log_all(pair, &mut desk, table, random)?;
    for _ in 0..random.below(12) {
        runs::put_any(pair, &mut desk, table, random)?;
    }
    pair.unchanged(table)
}

/// Frames until nothing is left to be logged.
fn log_all(pair: &mut Pair, desk: &mut Desk, table: &Lent, random: &mut Random) -> Compared<()> {
    for _ in 0..LONGEST_RUN {
        let state = state_of(desk.state());
        let Some(frame) = state.and_then(|state| next(&state, table.bytes(), random)) else {
            break;
        };
        desk.put(pair, table, &frame, random)?;
    }
    Ok(())
}

/// The next frame: a request that is declined, where there is one; else a section comes back or a train arrives; else a
/// gang asks for a section that a train is about to ask for, or for any; and none where nothing is left to be logged.
fn next(state: &State, table: &[u8], random: &mut Random) -> Option<Frame> {
    let requests = next_frames(state, FA, is_free);
    let is_declined = |request: &&Frame| is_declined(state, table, *request);
    let declined: Vec<Frame> = requests.iter().filter(is_declined).copied().collect();
    let out = (0..7).filter(|section| state.gang_holds(*section));
    let back: Vec<Frame> = out.map(|section| local_run(LB, section)).collect();
    let arrivals = next_frames(state, AM, is_under_way);
    let mut in_turn = [declined, back, arrivals].into_iter();
    if let Some(first) = in_turn.find(|frames| !frames.is_empty()) {
        return Some(random.pick(&first));
    }
    let request = (!requests.is_empty()).then(|| random.pick(&requests));
    if state.given == LOCAL_RUNS {
        return request;
    }
    let section = match request {
        Some([.., from, to]) => from.min(to),
        None => random.between(0, state.posts - 2),
    };
    Some(local_run(LA, section))
}
