//! States handed in: valid by construction, nearly valid, and such that no box ever had.

use crate::{state_counts, state_gangs, state_moves, state_tracks};
use inputs::encoding::{state_bytes, state_of, train_at, FREE, RUNNING};
use inputs::random::Random;
use inputs::sizes::{FLEET_AT, GIVEN_AT, SECTIONS_AT, STATE_BYTES, TRAIN_BYTES};
use model::{Standing, State, Train};

/// A state of some kind. `opened` is the first state of a book, for states of its line.
pub fn any(opened: &[u8], random: &mut Random) -> (&'static str, Vec<u8>) {
    let state = valid(opened, random);
    match random.below(20) {
        0..=4 => altered_bytes(state_bytes(&state).to_vec(), random),
        5..=10 => {
            let (kind, state) = altered(state, random);
            (kind, state_bytes(&state).to_vec())
        }
        _ => ("state: valid", state_bytes(&state).to_vec()),
    }
}

/// Bytes near those of a state, or any: whether they encode a state or not.
fn altered_bytes(mut bytes: Vec<u8>, random: &mut Random) -> (&'static str, Vec<u8>) {
    match random.below(12) {
        0..=5 => {
            let at = random.below(STATE_BYTES);
            bytes[at] = random.altered(bytes[at]);
            ("state: one field altered", bytes)
        }
        6..=8 => ("state: encodes none", encoding_none(bytes, random)),
        9 => ("state: random bytes", random.bytes(STATE_BYTES)),
        10 => ("state: small random bytes", small(random)),
        _ => ("state: wrong length", wrong_length(bytes, random)),
    }
}

/// A state with one thing changed. It may still be valid.
fn altered(state: State, random: &mut Random) -> (&'static str, State) {
    match random.below(10) {
        0 | 1 => (
            "state: a track altered",
            state_tracks::altered(state, random),
        ),
        6 | 7 => (
            "state: a last move altered",
            state_moves::altered(state, random),
        ),
        8 | 9 => (
            "state: a count above the most",
            state_counts::altered(state, random),
        ),
        2 => (
            "state: a gang or the number given altered",
            state_gangs::altered(state, random),
        ),
        3 => (
            "state: sidings altered",
            on_right_tracks(sidings_altered(state, random), random),
        ),
        _ => (
            "state: one rule perhaps broken",
            on_right_tracks(with_a_rule_broken(state, random), random),
        ),
    }
}

/// Mostly with right tracks again, so that they are not what makes the state strange.
fn on_right_tracks(state: State, random: &mut Random) -> State {
    if random.one_in(4) {
        state
    } else {
        state_tracks::set_right(state)
    }
}

/// A valid state: of the opened book's line, or of a line made up with it.
pub fn valid(opened: &[u8], random: &mut Random) -> State {
    let of_line = if random.one_in(2) {
        state_of(opened).map(|state| moved(state, random))
    } else {
        None
    };
    let mut state = of_line.unwrap_or_else(|| match random.below(6) {
        0 => crowd(random),
        _ => made_up(random),
    });
    let numbers = give_standings(&mut state, random);
    state_gangs::give(&mut state, random);
    state_moves::give(&mut state);
    state_counts::give(&mut state, numbers, random);
    state_tracks::give(&mut state, |unheld| random.pick(unheld));
    if random.one_in(2) {
        fill_unread(&mut state, random);
    }
    state
}

/// The line's trains at random posts of their ways, if there is room; else at their starts.
fn moved(first: State, random: &mut Random) -> State {
    for _ in 0..20 {
        let mut state = first;
        for train in trains_of(&mut state) {
            train.at = random.between(train.start.min(train.end), train.start.max(train.end));
        }
        if (0..state.posts).all(|post| room(&state, post) >= 0) {
            return state;
        }
    }
    first
}

/// A line of any size with trains that stand where there is room or are put away.
fn made_up(random: &mut Random) -> State {
    let posts = random.between(2, 8);
    let mut state = State {
        posts,
        sidings: random_sidings(posts, random),
        ..State::EMPTY
    };
    let most = random.between(1, 4);
    for tracks in &mut state.tracks[..usize::from(state.posts)] {
        *tracks = random.between(1, most);
    }
    for _ in 0..random.between(1, 6) {
        let Some(train) = one_more(&state, random) else {
            break;
        };
        state.train[usize::from(state.trains)] = train;
        state.trains += 1;
    }
    state
}

/// Sidings at no post, at each, or at any.
fn random_sidings(posts: u8, random: &mut Random) -> u8 {
    let some = random.byte();
    random.pick(&[0, 255, some, some]) >> (8 - posts)
}

/// A train put away in some siding, or one that stands where a track is free.
fn one_more(state: &State, random: &mut Random) -> Option<Train> {
    let posts = 0..state.posts;
    let has_siding = |post: &u8| state.sidings >> post & 1 == 1;
    let sidings: Vec<u8> = posts.clone().filter(has_siding).collect();
    if !sidings.is_empty() && random.one_in(3) {
        let end = random.pick(&sidings);
        let train = train_at(end, state.posts, random);
        return Some(Train { end, ..train });
    }
    let free: Vec<u8> = posts.filter(|post| room(state, *post) > 0).collect();
    if free.is_empty() {
        return None;
    }
    let at = random.pick(&free);
    Some(train_at(at, state.posts, random))
}

/// Six trains before six sections and room for all: many can be granted at once.
pub fn crowd(random: &mut Random) -> State {
    let mut state = State {
        posts: 8,
        tracks: [4; 8],
        sidings: random_sidings(8, random),
        trains: 6,
        ..State::EMPTY
    };
    let unused = random.between(0, 6);
    let sections = (0..7).filter(|section| *section != unused);
    for (train, section) in state.train.iter_mut().zip(sections) {
        let (low, high) = (random.between(0, section), random.between(section + 1, 7));
        let up = random.one_in(2);
        *train = Train {
            start: if up { low } else { high },
            end: if up { high } else { low },
            at: if up { section } else { section + 1 },
            ..Train::EMPTY
        };
    }
    state.train.rotate_left(random.below(6));
    state
}

/// A train whose way leads over the post.
fn train_at(at: u8, posts: u8, random: &mut Random) -> Train {
    let low = random.between(0, at);
    let high = random.between(at, posts - 1);
    let (start, end) = if random.one_in(2) {
        (low, high)
    } else {
        (high, low)
    };
    Train {
        start,
        end,
        at,
        ..Train::EMPTY
    }
}

/// Lets some trains run where section and post allow it and others ask, without tracks yet. Answers how many asked.
fn give_standings(state: &mut State, random: &mut Random) -> usize {
    // One state has mostly askers, of whom one frame may let many go; others have any mixture.
    let (run, ask) = if random.one_in(3) {
        (1, 7)
    } else {
        (random.below(9), random.below(9))
    };
    let mut asked = 0;
    let first = random.below(6);
    for turn in 0..usize::from(state.trains) {
        let t = (first + turn) % usize::from(state.trains);
        let train = state.train[t];
        let Some(to) = train.next() else {
            continue;
        };
        let may_run = random.below(8) < run;
        let section = train.at.min(to);
        if may_run && room(state, to) > 0 && state.holders_of_section(section) == 0 {
            state.train[t].standing = Standing::Running(0);
        } else if random.below(8) < ask {
            state.train[t].standing = Standing::Asked(0);
            asked += 1;
        }
    }
    asked
}

/// Anything in the places that are not read.
fn fill_unread(state: &mut State, random: &mut Random) {
    random.fill(&mut state.tracks[usize::from(state.posts)..]);
    state_gangs::fill_unread(state, random);
    for train in &mut state.train[usize::from(state.trains)..] {
        *train = Train {
            start: random.byte(),
            end: random.byte(),
            at: random.between(0, 9),
            track: random.byte(),
            standing: match random.below(3) {
                0 => Standing::Free,
                1 => Standing::Asked(random.byte()),
                _ => Standing::Running(random.byte()),
            },
            last: state_moves::any(random),
        };
    }
}

pub fn trains_of(state: &mut State) -> &mut [Train] {
    &mut state.train[..usize::from(state.trains)]
}

/// Tracks of the post less the trains that hold one there.
fn room(state: &State, post: u8) -> i32 {
    i32::from(state.tracks[usize::from(post)]) - state.holders_of_post(post) as i32
}

/// Another byte of sidings: with one bit flipped, on the line or off it, or any.
fn sidings_altered(mut state: State, random: &mut Random) -> State {
    if random.one_in(4) {
        state.sidings = random.byte();
    } else {
        state.sidings ^= 1 << random.below(8);
    }
    state
}

/// One train, track count or number changed without a look at the rules. It may still be valid.
fn with_a_rule_broken(mut state: State, random: &mut Random) -> State {
    let count = state.journal;
    let post = random.below(usize::from(state.posts));
    let other = random.pick(trains_of(&mut state));
    let t = random.below(usize::from(state.trains));
    let train = &mut state.train[t];
    match random.below(5) {
        0 => train.standing = Standing::Running(random.between(0, 5)),
        1 => {
            let post = random.between(train.start.min(train.end), train.start.max(train.end));
            state_moves::bring(train, post);
        }
        2 => train.standing = Standing::Asked(count),
        3 => {
            if let Standing::Asked(_) = other.standing {
                train.standing = other.standing;
            }
        }
        _ => state.tracks[post] -= 1,
    }
    state
}

/// A status above 2, a detail of a Free train, a last move that is none, or a section's byte above 1.
fn encoding_none(mut bytes: Vec<u8>, random: &mut Random) -> Vec<u8> {
    if random.one_in(3) {
        let any = random.between(2, 255);
        bytes[SECTIONS_AT + random.below(7)] = random.pick(&[2, 255, any]);
        return bytes;
    }
    let train = &mut bytes[FLEET_AT + TRAIN_BYTES * random.below(6)..][..TRAIN_BYTES];
    if random.one_in(2) {
        last_of_none(&mut train[train_at::LAST..], random);
    } else if train[train_at::STATUS] == FREE && random.one_in(2) {
        train[train_at::DETAIL] = random.between(1, 255);
    } else {
        let any = random.between(RUNNING + 1, 255);
        train[train_at::STATUS] = random.pick(&[RUNNING + 1, 255, any]);
    }
    bytes
}

/// The three bytes of a train's last move such that they encode none: a byte above 1, or none and a post.
fn last_of_none(last: &mut [u8], random: &mut Random) {
    let any = random.between(1, 255);
    match random.below(4) {
        0 => last[0] = random.pick(&[2, 2, 255, any.max(2)]),
        1 => last.copy_from_slice(&[any.max(2), 0, 0]),
        2 => last[0] = 0,
        _ => last.copy_from_slice(&[0, 0, 0]),
    }
    if last[0] == 0 {
        last[1 + random.below(2)] = random.pick(&[1, 255, any]);
    }
}

/// Bytes in which every number is small, so that some of them are states.
fn small(random: &mut Random) -> Vec<u8> {
    let mut bytes: Vec<u8> = (0..STATE_BYTES).map(|_| random.between(0, 8)).collect();
    for byte in &mut bytes[SECTIONS_AT..GIVEN_AT] {
        *byte /= 8;
    }
    for train in bytes[FLEET_AT..SECTIONS_AT].chunks_exact_mut(TRAIN_BYTES) {
        let last = &mut train[train_at::LAST..];
        last[0] /= 8;
        if last[0] == 0 {
            last.fill(0);
        }
    }
    bytes
}

fn wrong_length(mut bytes: Vec<u8>, random: &mut Random) -> Vec<u8> {
    let longer = STATE_BYTES + 1 + random.below(60);
    let shorter = random.below(STATE_BYTES);
    let len = random.pick(&[STATE_BYTES - 1, STATE_BYTES + 1, 0, shorter, longer]);
    bytes.resize(len, 0);
    bytes
}
