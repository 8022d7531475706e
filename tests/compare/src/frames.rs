//! Frames: what a crew would send in a state, and everything else.

use inputs::encoding::{is_home, train_at, ASKED, RUNNING};
use inputs::frames::{frame, local_run, AM, FA, FROM_AT, KIND_AT, LA, LB, LE, TO_AT, TRAIN_AT};
use inputs::random::Random;
use inputs::sizes::{FLEET_AT, FRAME_BYTES, SECTIONS_AT, STATE_BYTES, TRAINS_AT, TRAIN_BYTES};

/// A frame put to the box in a state, which may be any bytes: mostly of a kind that gets far.
pub fn to_box(state: &[u8], random: &mut Random) -> (&'static str, Vec<u8>) {
    if random.one_in(5) {
        return by_gang(state, random);
    }
    if random.one_in(4) {
        return again(state, random);
    }
    let suitable = of_crew(state, random);
    match random.below(8) {
        0 => damaged(suitable, random),
        1 => ("frame: FA or AM, whatever the status", other_kind(suitable)),
        _ => ("frame: as a crew sends it", suitable.to_vec()),
    }
}

/// A frame of a gang: mostly a right one.
fn by_gang(state: &[u8], random: &mut Random) -> (&'static str, Vec<u8>) {
    let suitable = of_gang(state, random);
    match random.below(8) {
        0 => damaged(suitable, random),
        1 => (
            "frame: LA, LE or LB, whoever has the section",
            any_local_kind(suitable, random),
        ),
        2 => (
            "frame: LA or LB named wrongly",
            misnamed(suitable, posts(state), random).to_vec(),
        ),
        _ => ("frame: as a gang sends it", suitable.to_vec()),
    }
}

/// An LA or LB that anybody puts to the box: mostly a right one, and the LB of a gang that is out rather than an LA;
/// else any of the two, one named wrongly, or any bytes after its kind.
pub fn by_anybody(state: &[u8], random: &mut Random) -> [u8; FRAME_BYTES] {
    let some = [0; 3].map(|_| of_gang(state, random));
    let back = some.iter().find(|frame| frame[KIND_AT] == LB);
    let suitable = *back.unwrap_or(&some[0]);
    let [section, kind] = [suitable[FROM_AT], random.pick(&[LA, LB])];
    match random.below(12) {
        0 => local_run(kind, section),
        1 => misnamed(suitable, posts(state), random),
        2 => frame(kind, random.byte(), random.byte(), random.byte()),
        _ => suitable,
    }
}

/// Some section of the line: it comes back where a gang has it, else it is asked for.
pub fn of_gang(state: &[u8], random: &mut Random) -> [u8; FRAME_BYTES] {
    let section = random.between(0, posts(state) - 2);
    let kind = match state.get(SECTIONS_AT + usize::from(section)) {
        Some(1) => LB,
        _ => LA,
    };
    local_run(kind, section)
}

/// The posts that a state's bytes name, in their range.
fn posts(state: &[u8]) -> u8 {
    state.first().copied().unwrap_or(0).clamp(2, 8)
}

fn any_local_kind(mut frame: [u8; FRAME_BYTES], random: &mut Random) -> Vec<u8> {
    frame[KIND_AT] = random.pick(&[LA, LE, LB]);
    frame.to_vec()
}

/// Posts that are no section of the line with the lower one first, or a train's number, or both.
fn misnamed(mut frame: [u8; FRAME_BYTES], posts: u8, random: &mut Random) -> [u8; FRAME_BYTES] {
    let right = [frame[FROM_AT], frame[TO_AT]];
    let [from, to] = right;
    let (far, train) = (random.byte(), random.between(0, 9));
    let named = random.pick(&[
        right,
        [to, from],
        [from, from],
        [from, to + 1],
        [posts - 1, posts],
        [far, far.wrapping_add(1)],
    ]);
    [frame[FROM_AT], frame[TO_AT]] = named;
    if named == right || random.one_in(4) {
        frame[TRAIN_AT] = random.pick(&[train, 254]);
    }
    frame
}

/// The next move of some train, as a request or, where the train is Running, an arrival.
pub fn of_crew(state: &[u8], random: &mut Random) -> [u8; FRAME_BYTES] {
    if state.len() != STATE_BYTES {
        let small = |random: &mut Random| random.between(0, 7);
        return frame(FA, small(random), small(random), small(random));
    }
    let t = of_whom(state, random);
    let train = train_of(state, t);
    let (end, at) = (train[train_at::END], train[train_at::POST]);
    let kind = if train[train_at::STATUS] == RUNNING {
        AM
    } else {
        FA
    };
    frame(kind, t as u8, at, towards(at, end))
}

/// What a crew sends again: the FA of its next move, where it waits or has an authority, or the AM of its last move;
/// and frames near to these, which repeat nothing.
fn again(state: &[u8], random: &mut Random) -> (&'static str, Vec<u8>) {
    if state.len() != STATE_BYTES {
        return damaged(of_crew(state, random), random);
    }
    let t = random.below(trains(state)) as u8;
    let posts = posts_around(train_of(state, t.into()));
    let [_, from, at, next, _] = posts;
    let sent = match random.below(3) {
        0 => frame(FA, t, at, next),
        1 => frame(AM, t, from, at),
        _ => {
            let near = nearly_again(state, t, posts, random);
            return ("frame: nearly as a crew sends it again", near.to_vec());
        }
    };
    ("frame: as a crew sends it again", sent.to_vec())
}

/// The posts on a train's way: where its last move but one and its last began, where it is, the next and the one after
/// that.
fn posts_around(train: &[u8]) -> [u8; 5] {
    let [start, end, at] = [train_at::START, train_at::END, train_at::POST].map(|n| train[n]);
    let (from, next) = (towards(at, start), towards(at, end));
    [towards(from, start), from, at, next, towards(next, end)]
}

/// Another kind for a move, another move of the train, one of its last move's posts alone, or another train.
fn nearly_again(state: &[u8], t: u8, posts: [u8; 5], random: &mut Random) -> [u8; FRAME_BYTES] {
    let [earlier, from, at, next, later] = posts;
    let other = random.between(0, 5);
    let place = train_of(state, other.into());
    let others = [train_at::LAST_FROM, train_at::LAST_TO].map(|n| place[n]);
    let any = random.between(0, 8);
    let (kind, train, [from, to]) = random.pick(&[
        (FA, t, [from, at]),
        (FA, t, [next, later]),
        (AM, t, [earlier, from]),
        (AM, t, [at, next]),
        (AM, t, [at, from]),
        (AM, t, [from, any]),
        (AM, t, [any, at]),
        (AM, other, [from, at]),
        (AM, other, others),
    ]);
    frame(kind, train, from, to)
}

/// The trains that a state's bytes name, in their range.
fn trains(state: &[u8]) -> usize {
    usize::from(state[TRAINS_AT].clamp(1, 6))
}

/// The bytes of a train in those of a state.
fn train_of(state: &[u8], t: usize) -> &[u8] {
    &state[FLEET_AT + TRAIN_BYTES * t..][..TRAIN_BYTES]
}

/// Some train; mostly one that has to go on and does not wait for an answer.
fn of_whom(state: &[u8], random: &mut Random) -> usize {
    let trains = trains(state);
    let mut t = random.below(trains);
    for _ in 0..3 {
        let train = train_of(state, t);
        if !is_home(train) && train[train_at::STATUS] != ASKED {
            break;
        }
        t = random.below(trains);
    }
    t
}

/// One post nearer to the end, or to the start. There, some other post: no frame is right then.
fn towards(at: u8, end: u8) -> u8 {
    if at <= end {
        at.wrapping_add(1)
    } else {
        at - 1
    }
}

fn other_kind(mut frame: [u8; FRAME_BYTES]) -> Vec<u8> {
    frame[KIND_AT] = if frame[KIND_AT] == FA { AM } else { FA };
    frame.to_vec()
}

/// A right frame with something wrong in it, or no frame at all.
pub fn damaged(frame: [u8; FRAME_BYTES], random: &mut Random) -> (&'static str, Vec<u8>) {
    match random.below(10) {
        0 => (
            "frame: cut short",
            frame[..random.below(FRAME_BYTES)].to_vec(),
        ),
        1 => ("frame: longer", longer(frame, random)),
        2 => ("frame: wrong length", altered(frame, 0..2, random)),
        3 => ("frame: other version", altered(frame, 2..3, random)),
        4 => ("frame: other kind", altered(frame, 3..4, random)),
        5 => ("frame: other train", altered(frame, 4..5, random)),
        6 => ("frame: other post", altered(frame, 5..7, random)),
        7 => ("frame: two bytes altered", twice_altered(frame, random)),
        8 => ("frame: seven random bytes", random.bytes(FRAME_BYTES)),
        _ => {
            let len = random.below(30);
            ("frame: random bytes", random.bytes(len))
        }
    }
}

/// A right frame with more behind it; sometimes its length says so.
fn longer(frame: [u8; FRAME_BYTES], random: &mut Random) -> Vec<u8> {
    let more = 1 + random.below(20);
    let mut bytes = frame.to_vec();
    bytes.extend(random.bytes(more));
    if random.one_in(2) {
        bytes[1] = (bytes.len() - 2) as u8;
    }
    bytes
}

fn altered(
    mut frame: [u8; FRAME_BYTES],
    places: std::ops::Range<usize>,
    random: &mut Random,
) -> Vec<u8> {
    let at = places.start + random.below(places.len());
    frame[at] = random.altered(frame[at]);
    frame.to_vec()
}

fn twice_altered(mut frame: [u8; FRAME_BYTES], random: &mut Random) -> Vec<u8> {
    for _ in 0..2 {
        let at = random.below(FRAME_BYTES);
        frame[at] = random.altered(frame[at]);
    }
    frame.to_vec()
}
