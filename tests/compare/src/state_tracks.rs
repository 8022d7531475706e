//! The tracks of a state handed in: right ones, and one that is wrong.

use inputs::random::Random;
use model::{Standing, State, Train};

/// Gives each train a track at each post that it holds, chosen of those unheld there, and a train put away none. Where
/// no track is left, the number is 0.
pub fn give(state: &mut State, mut choose: impl FnMut(&[u8]) -> u8) {
    let trains = state.present().len();
    for train in &mut state.train[..trains] {
        train.track = 0;
        set_ahead(train, 0);
    }
    let mut chosen = |state: &State, post| match &unheld(state, post)[..] {
        [] => 0,
        some => choose(some),
    };
    for t in 0..trains {
        let train = state.train[t];
        if !train.is_put_away(state.sidings) {
            state.train[t].track = chosen(state, train.at);
        }
        if let Some(to) = running_to(&train) {
            let track = chosen(state, to);
            set_ahead(&mut state.train[t], track);
        }
    }
}

/// The same state, whatever it is, with right tracks where there are enough.
pub fn set_right(mut state: State) -> State {
    give(&mut state, |unheld| unheld[0]);
    state
}

/// The tracks of the post that no train has.
pub fn unheld(state: &State, post: u8) -> Vec<u8> {
    let held: Vec<u8> = state.tracks_held(post).collect();
    let count = state.tracks.get(usize::from(post)).copied().unwrap_or(0);
    (1..=count).filter(|track| !held.contains(track)).collect()
}

/// The post that a Running train runs to.
pub fn running_to(train: &Train) -> Option<u8> {
    match train.standing {
        Standing::Running(_) => train.next(),
        Standing::Free | Standing::Asked(_) => None,
    }
}

/// Gives a Running train another track ahead.
pub fn set_ahead(train: &mut Train, track: u8) {
    if let Standing::Running(ahead) = &mut train.standing {
        *ahead = track;
    }
}

/// Another number for one track of a valid state: the one that a train has at its post or runs to, or that of one put
/// away. It may be the same where a post has one holder.
pub fn altered(mut state: State, random: &mut Random) -> State {
    let t = random.below(usize::from(state.trains));
    let train = state.train[t];
    match running_to(&train) {
        Some(to) if random.one_in(2) => {
            let track = wrong(&state, to, random);
            set_ahead(&mut state.train[t], track);
        }
        _ => state.train[t].track = wrong(&state, train.at, random),
    }
    state
}

/// No track, one above the post's count, that of a train which holds the post, or any.
fn wrong(state: &State, post: u8, random: &mut Random) -> u8 {
    let count = state.tracks[usize::from(post)];
    let any = random.between(0, 5);
    let far = random.byte();
    let held: Vec<u8> = state.tracks_held(post).collect();
    match random.below(4) {
        0 => random.pick(&[count + 1, count + 1, 255, far]),
        1 if !held.is_empty() => random.pick(&held),
        2 => any,
        _ => 0,
    }
}
