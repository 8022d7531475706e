//! What sidings brought about, by the model: how an opening would have gone without them, and why a train waits.

use crate::cases::SidingCase;
use crate::{checks, codes, openings, state_tracks};
use inputs::encoding::state_of;
use inputs::frames::{AFE, KIND_AT, TO_AT, TRAIN_AT};
use inputs::sizes::FRAME_BYTES;
use model::{Line, State};
use std::cmp::Ordering;
use std::collections::HashSet;

/// Placings that are looked at before a search is given up.
const MOST_PLACINGS: usize = 4_000;

/// Of an opening that was answered with this number.
pub fn of_opening(book: &[u8], refusal: u8) -> Option<SidingCase> {
    let line = model::read_book(book).ok()?;
    if line.sidings == 0 {
        return None;
    }
    match refusal {
        0 => match without_sidings(book) {
            19 => Some(SidingCase::StartFits),
            20 => Some(SidingCase::WayFits),
            _ => None,
        },
        20 if lawful_to_the_end(&line) => Some(SidingCase::TrackBefore),
        _ => None,
    }
}

/// The number that the book, one of edition 2 or 3, is opened with when its byte of sidings is 0.
fn without_sidings(book: &[u8]) -> u8 {
    let mut book = book.to_vec();
    let at = checks::sidings_at(&book);
    book[at] = 0;
    openings::number(&book)
}

/// A list of moves through lawful placings, whether or not a track is free before each, leads all trains to their ends.
fn lawful_to_the_end(line: &Line) -> bool {
    let mut seen = HashSet::from([line.starts]);
    let mut open = vec![line.starts];
    while let Some(posts) = open.pop() {
        if posts == line.ends {
            return true;
        }
        if seen.len() > MOST_PLACINGS {
            return false;
        }
        for (t, end) in line.ends.into_iter().enumerate() {
            let mut moved = posts;
            match posts[t].cmp(&end) {
                Ordering::Less => moved[t] += 1,
                Ordering::Equal => continue,
                Ordering::Greater => moved[t] -= 1,
            }
            if is_lawful(line, &moved) && seen.insert(moved) {
                open.push(moved);
            }
        }
    }
    false
}

/// No post has more trains on its tracks than it has tracks.
fn is_lawful(line: &Line, posts: &[u8; 6]) -> bool {
    let trains = 0..usize::from(line.trains);
    (0..line.posts).all(|post| {
        let siding = line.sidings >> post & 1 == 1;
        let on_track = |t: &usize| posts[*t] == post && !(siding && line.ends[*t] == post);
        trains.clone().filter(on_track).count() <= usize::from(line.tracks[usize::from(post)])
    })
}

/// Of an accepted frame: the state after it, the table, and the frames sent.
pub fn of_answer(state: &[u8], table: &[u8], sent: &[u8]) -> Vec<SidingCase> {
    let Some(state) = state_of(state).filter(|state| state.sidings != 0) else {
        return vec![];
    };
    let mut cases = vec![];
    let put_away = put_away(&state);
    if put_away.iter().any(|trains| *trains > 0) {
        cases.push(SidingCase::PutAway);
    }
    if put_away
        .iter()
        .zip(&state.tracks)
        .any(|(trains, tracks)| trains > tracks)
    {
        cases.push(SidingCase::Crowded);
    }
    let last = sent.chunks_exact(FRAME_BYTES).last();
    if last.is_some_and(|last| last[KIND_AT] == AFE && lacks_a_track(&state, table, last)) {
        cases.push(SidingCase::Declined);
    }
    cases
}

/// The trains put away at each post.
fn put_away(state: &State) -> [u8; 8] {
    let mut trains = [0; 8];
    for train in state.present() {
        trains[usize::from(train.at)] += u8::from(train.is_put_away(state.sidings));
    }
    trains
}

/// The train of this AFE goes to a siding at its end, and a free track there is all that it lacks.
fn lacks_a_track(state: &State, table: &[u8], afe: &[u8]) -> bool {
    let (t, to) = (usize::from(afe[TRAIN_AT]), afe[TO_AT]);
    let train = state.train[t];
    let tracks = usize::from(state.tracks[usize::from(to)]);
    to == train.end
        && state.sidings >> to & 1 == 1
        && state.holders_of_section(train.at.min(to)) == 0
        && state.holders_of_post(to) == tracks
        && model::table::bit(table, codes::ahead(state, Some(t)))
}

/// Of a state that was refused by 1: whatever tracks its trains had, it would be sound with other sidings alone.
pub fn of_strange(state: &[u8]) -> Option<SidingCase> {
    let state = state_of(state).filter(|state| (2..=8).contains(&state.posts))?;
    let all = 255 >> (8 - state.posts);
    let (case, sidings) = if state.sidings > all {
        (SidingCase::OffTheLine, state.sidings & all)
    } else {
        (SidingCase::NoSiding, all)
    };
    let sound = |state| model::sound(&state_tracks::set_right(state));
    (!sound(state) && sound(State { sidings, ..state })).then_some(case)
}
