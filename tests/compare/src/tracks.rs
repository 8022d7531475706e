//! What tracks brought about, by the model's state: who got which, and what is wrong in a state that is strange for one.

use crate::cases::TrackCase;
use crate::state_tracks::{running_to, set_right};
use inputs::encoding::{records_of, state_of};
use inputs::frames::{AM, FE};
use inputs::sizes::RECORD_BYTES;
use model::{Record, Standing, State, Train};

/// Of an opening that was accepted.
pub fn of_opening(state: &[u8]) -> Vec<TrackCase> {
    let Some(state) = state_of(state) else {
        return vec![];
    };
    let mut cases = vec![];
    for (t, train) in state.present().iter().enumerate() {
        let apart = |other: &Train| other.at == train.at && other.track != train.track;
        let on_track = |other: &&Train| other.track > 0;
        let before = &state.train[..t];
        if train.track > 0 && before.iter().filter(on_track).any(apart) {
            cases.push(TrackCase::OpenedApart);
        }
        match (train.start == train.end, train.track) {
            (true, 0) => cases.push(TrackCase::OpenedPutAway),
            (true, _) => cases.push(TrackCase::OpenedParked),
            _ => {}
        }
    }
    cases
}

/// Of an accepted frame: the state before and after it, and the journal after it.
pub fn of_answer(before: &[u8], after: &[u8], journal: &[u8]) -> Vec<TrackCase> {
    let (Some(before), Some(after)) = (state_of(before), state_of(after)) else {
        return vec![];
    };
    let logged =
        RECORD_BYTES * usize::from(before.journal)..RECORD_BYTES * usize::from(after.journal);
    // None where the count has fallen, as that of a wrong box may.
    let records = records_of(journal.get(logged).unwrap_or(&[]));
    let mut cases = vec![];
    for (n, record) in records.iter().enumerate() {
        match record.kind {
            FE => cases.extend(of_authority(&after, record, &records[..n])),
            AM => cases.extend(of_arrival(&before, &after, record, &records)),
            _ => {}
        }
    }
    let unread = &after.train[usize::from(after.trains)..];
    if unread.iter().any(|place| place.track != 0) {
        cases.push(TrackCase::Unread);
    }
    cases
}

/// Of an FE, with the records of its answer before it.
fn of_authority(after: &State, fe: &Record, earlier: &[Record]) -> Vec<TrackCase> {
    let mut cases = vec![match fe.track {
        1 => TrackCase::First,
        2 => TrackCase::Second,
        3 => TrackCase::Third,
        _ => TrackCase::Fourth,
    }];
    let is_up = after.train[usize::from(fe.train)].is_up();
    if is_up && fe.track > 1 {
        cases.push(TrackCase::UpPastOthers);
    }
    if !is_up && fe.track < after.tracks[usize::from(fe.to)] {
        cases.push(TrackCase::DownPastOthers);
    }
    if earlier.iter().any(|r| r.kind == FE && r.to == fe.to) {
        cases.push(TrackCase::TwoAtOnce);
    }
    cases
}

/// Of an AM, with all records of its answer.
fn of_arrival(before: &State, after: &State, am: &Record, records: &[Record]) -> Vec<TrackCase> {
    let t = usize::from(am.train);
    let mut cases = vec![];
    let freed = before.train[t].track;
    let takes = |r: &Record| r.kind == FE && r.to == am.from && r.track == freed;
    if records.iter().any(takes) {
        cases.push(TrackCase::FreedAndTaken);
    }
    if after.train[t].is_put_away(after.sidings) {
        cases.push(TrackCase::PutAway);
    }
    cases
}

/// Of a state that was refused by 1: it is sound but for the one track.
pub fn of_strange(state: &[u8]) -> Option<TrackCase> {
    let state = state_of(state).filter(|state| model::sound(&set_right(*state)))?;
    match faults(&state)[..] {
        [fault] => Some(fault),
        _ => None,
    }
}

/// A train's track at a post.
#[derive(Clone, Copy)]
struct Held {
    post: u8,
    track: u8,
    ahead: bool,
}

/// The faults in the tracks of a state that has no other.
fn faults(state: &State) -> Vec<TrackCase> {
    let mut faults = vec![];
    let mut held: Vec<Held> = vec![];
    for train in state.present() {
        if train.is_put_away(state.sidings) && train.track != 0 {
            faults.push(TrackCase::OnOnePutAway);
        }
        for place in places(train, state.sidings) {
            faults.extend(fault(state, place, &held));
            held.push(place);
        }
    }
    faults
}

/// Where a train has a track: at its post, and where it runs to.
fn places(train: &Train, sidings: u8) -> Vec<Held> {
    let mut places = vec![];
    if !train.is_put_away(sidings) {
        places.push(Held {
            post: train.at,
            track: train.track,
            ahead: false,
        });
    }
    if let (Standing::Running(track), Some(post)) = (train.standing, running_to(train)) {
        places.push(Held {
            post,
            track,
            ahead: true,
        });
    }
    places
}

fn fault(state: &State, place: Held, earlier: &[Held]) -> Option<TrackCase> {
    let Held { post, track, ahead } = place;
    let above = track > state.tracks[usize::from(post)];
    let has_it = |other: &&Held| other.post == post && other.track == track;
    let another = earlier.iter().find(has_it);
    match (track, another) {
        (0, _) if ahead => Some(TrackCase::ToNone),
        (0, _) => Some(TrackCase::OnNone),
        _ if above && ahead => Some(TrackCase::ToOneAbove),
        _ if above => Some(TrackCase::OnOneAbove),
        (_, Some(other)) if ahead || other.ahead => Some(TrackCase::ToAnothers),
        (_, Some(_)) => Some(TrackCase::OnAnothers),
        (_, None) => None,
    }
}
