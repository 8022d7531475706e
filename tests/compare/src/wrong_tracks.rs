//! Boxes that are wrong with tracks.

use crate::cases::TrackCase;
use crate::state_tracks::{give, set_ahead, set_right, unheld};
use crate::tracks;
use crate::wrong_boxes::{every_is_found, Answered, Fault};
use inputs::encoding::state_bytes;
use inputs::frames::{AFE, AM, FA, FE};
use model::{Record, Standing, State, Train};

/// Another track for each FE of an up train, or of a down train, chosen of those that are left to it.
fn other_rule(a: Answered, up: bool, choose: fn(&[u8]) -> u8) {
    for fe in a.records.iter_mut().filter(|r| r.kind == FE) {
        let t = usize::from(fe.train);
        if a.after.train[t].is_up() == up {
            set_ahead(&mut a.after.train[t], 0);
            fe.track = choose(&unheld(a.after, fe.to));
            set_ahead(&mut a.after.train[t], fe.track);
        }
    }
}

/// The track of each record of a kind, by the states before and after.
fn other_record(a: Answered, kind: u8, track: fn(&Record, &State, &State) -> u8) {
    for r in a.records.iter_mut().filter(|r| r.kind == kind) {
        r.track = track(r, a.before, a.after);
    }
}

/// The train of an AM, before and after it.
fn arrived<'a>(a: &'a mut Answered) -> Option<(&'a Train, &'a mut Train)> {
    let am = a.records.iter().find(|r| r.kind == AM)?;
    let t = usize::from(am.train);
    Some((&a.before.train[t], &mut a.after.train[t]))
}

fn first(tracks: &[u8]) -> u8 {
    tracks[0]
}

fn last(tracks: &[u8]) -> u8 {
    tracks[tracks.len() - 1]
}

/// The track that a Running train runs to.
fn ahead(train: &Train) -> u8 {
    match train.standing {
        Standing::Running(track) => track,
        Standing::Free | Standing::Asked(_) => 0,
    }
}

/// A state that is strange for one such track is taken for one with right tracks.
fn overlooked(state: State, case: TrackCase) -> State {
    if tracks::of_strange(&state_bytes(&state)) == Some(case) {
        set_right(state)
    } else {
        state
    }
}

/// Tracks at opening by the rule in another order of the trains, or with other trains taken for down trains.
fn opened_by(state: &mut State, order: impl Iterator<Item = usize>, is_up: fn(&Train) -> bool) {
    for train in &mut state.train {
        train.track = 0;
    }
    for t in order {
        let train = state.train[t];
        if !train.is_put_away(state.sidings) {
            let track = state.free_track(train.at, is_up(&train));
            state.train[t].track = track.unwrap_or(0);
        }
    }
}

fn fleet(state: &State) -> std::ops::Range<usize> {
    0..usize::from(state.trains)
}

const FAULTS: [(&str, Fault); 27] = [
    (
        "up trains get the largest track",
        Fault::Answered(|a| other_rule(a, true, last)),
    ),
    (
        "down trains get the smallest track",
        Fault::Answered(|a| other_rule(a, false, first)),
    ),
    (
        "the track is one more than the holders",
        Fault::Answered(|a| {
            for fe in a.records.iter_mut().filter(|r| r.kind == FE) {
                let train = &mut a.after.train[usize::from(fe.train)];
                if train.is_up() {
                    fe.track = a.before.holders_of_post(fe.to) as u8 + 1;
                    set_ahead(train, fe.track);
                }
            }
        }),
    ),
    (
        "the track is counted from 0",
        Fault::Answered(|a| other_record(a, FE, |r, _, _| r.track - 1)),
    ),
    (
        "an FE has no track in the journal",
        Fault::Answered(|a| other_record(a, FE, |_, _, _| 0)),
    ),
    (
        "an FE has the track of the post left",
        Fault::Answered(|a| {
            other_record(a, FE, |r, before, _| {
                before.train[usize::from(r.train)].track
            });
        }),
    ),
    (
        "an AFE has a track in the journal",
        Fault::Answered(|a| other_record(a, AFE, |_, _, _| 1)),
    ),
    (
        "an AM has its track in the journal",
        Fault::Answered(|a| {
            other_record(a, AM, |r, before, _| {
                ahead(&before.train[usize::from(r.train)])
            });
        }),
    ),
    (
        "an FA has its track in the journal",
        Fault::Answered(|a| {
            other_record(a, FA, |r, _, after| {
                ahead(&after.train[usize::from(r.train)])
            });
        }),
    ),
    (
        "the track ahead is the present one",
        Fault::Answered(|a| {
            for train in &mut a.after.train {
                let track = train.track;
                set_ahead(train, track);
            }
        }),
    ),
    (
        "the present track is given up at the grant",
        Fault::Answered(|a| {
            for fe in a.records.iter().filter(|r| r.kind == FE) {
                a.after.train[usize::from(fe.train)].track = 0;
            }
        }),
    ),
    (
        "the track is kept after arrival",
        Fault::Answered(|mut a| {
            if let Some((before, after)) = arrived(&mut a) {
                if after.track != 0 {
                    after.track = before.track;
                }
            }
        }),
    ),
    (
        "a train put away keeps the track it ran to",
        Fault::Answered(|mut a| {
            if let Some((before, after)) = arrived(&mut a) {
                after.track = ahead(before);
            }
        }),
    ),
    (
        "a train at its end has no track, siding or not",
        Fault::Answered(|mut a| {
            if let Some((_, after)) = arrived(&mut a).filter(|(_, t)| t.at == t.end) {
                after.track = 0;
            }
        }),
    ),
    (
        "a train waiting gets another track",
        Fault::Answered(|a| {
            for afe in a.records.iter().filter(|r| r.kind == AFE) {
                let t = usize::from(afe.train);
                if let Some(track) = unheld(a.after, afe.from).first() {
                    a.after.train[t].track = *track;
                }
            }
        }),
    ),
    (
        "tracks in places not read are cleared",
        Fault::Answered(|a| {
            for place in &mut a.after.train[usize::from(a.before.trains)..] {
                place.track = 0;
            }
        }),
    ),
    (
        "parked trains count as down",
        Fault::Opened(|s| opened_by(s, fleet(s), |t| t.start < t.end)),
    ),
    (
        "trains take tracks at opening from the last to the first",
        Fault::Opened(|s| opened_by(s, fleet(s).rev(), Train::is_up)),
    ),
    (
        "all trains count as up at opening",
        Fault::Opened(|s| opened_by(s, fleet(s), |_| true)),
    ),
    (
        "a parked train put away has a track at opening",
        Fault::Opened(|s| {
            let sidings = std::mem::take(&mut s.sidings);
            give(s, first);
            s.sidings = sidings;
        }),
    ),
    (
        "no track is not seen to be strange",
        Fault::TakenFor(|s| overlooked(s, TrackCase::OnNone)),
    ),
    (
        "a track above the count is not seen",
        Fault::TakenFor(|s| overlooked(s, TrackCase::OnOneAbove)),
    ),
    (
        "two trains on one track are not seen",
        Fault::TakenFor(|s| overlooked(s, TrackCase::OnAnothers)),
    ),
    (
        "a train put away on a track is not seen",
        Fault::TakenFor(|s| overlooked(s, TrackCase::OnOnePutAway)),
    ),
    (
        "no track ahead, or one above the count, is not seen",
        Fault::TakenFor(|s| overlooked(overlooked(s, TrackCase::ToNone), TrackCase::ToOneAbove)),
    ),
    (
        "another's track ahead is not seen",
        Fault::TakenFor(|s| overlooked(s, TrackCase::ToAnothers)),
    ),
    (
        "tracks in places not read are seen",
        Fault::TakenFor(|s| {
            let unread = &s.train[usize::from(s.trains).min(6)..];
            if unread.iter().any(|place| place.track > 4) {
                State::EMPTY
            } else {
                s
            }
        }),
    ),
];

#[test]
fn every_box_wrong_with_tracks_is_found() {
    every_is_found(&FAULTS);
}
