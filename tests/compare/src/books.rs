//! Books: well formed ones of all sizes and the three editions, and damaged ones for each refusal number of a book.

use crate::book_faults::FAULTS;
use crate::positions;
use inputs::books::{with_length, Parts};
use inputs::random::Random;
use inputs::sizes::LONGEST_BOOK;

/// A well formed book. It may still be overfull or have no way through.
pub fn well_formed(random: &mut Random) -> Vec<u8> {
    let parts = parts(random);
    match random.below(16) {
        0 => end_to_end(random),
        1..=4 => put_away(parts, random),
        _ => parts.bytes(),
    }
}

/// A well formed book of edition 3.
pub fn with_positions(random: &mut Random) -> Vec<u8> {
    let parts = parts(random);
    let positions = positions::right(parts.posts, random);
    parts.with_positions(&positions).bytes()
}

/// A book of some kind, damaged or not.
pub fn any(random: &mut Random) -> (&'static str, Vec<u8>) {
    let parts = parts(random);
    match random.below(24) {
        0 | 1 => ("book: well formed", parts.bytes()),
        2 => ("book: cut short", cut(parts, random)),
        3 => ("book: longer", lengthened(parts, random)),
        4 => ("book: wrong length", byte_altered(parts, 0..2, random)),
        5 => ("book: other edition", byte_altered(parts, 2..3, random)),
        6 => (
            "book: ends before its trains",
            without_trains(parts, random),
        ),
        7 => ("book: overfull", overfull(parts, random)),
        8 => ("book: head on, single tracks", head_on(random)),
        9 => ("book: ends at a siding", put_away(parts, random)),
        10 => (
            "book: any byte altered",
            byte_altered(parts, 0..LONGEST_BOOK, random),
        ),
        11 => ("book: random bytes", noise(random)),
        12..=15 => ("book: two faults", with_two_faults(parts, random)),
        _ => with_a_fault(parts, random),
    }
}

fn with_a_fault(mut parts: Parts, random: &mut Random) -> (&'static str, Vec<u8>) {
    let (kind, fault) = random.pick(&FAULTS);
    fault(&mut parts, random);
    (kind, parts.bytes())
}

/// The order of the checks decides which fault is told. The one that is told later is made first, so that it can rely
/// on the parts before it. At times the book is torn as well.
fn with_two_faults(mut parts: Parts, random: &mut Random) -> Vec<u8> {
    let one = random.below(FAULTS.len());
    let any = random.below(FAULTS.len());
    let other = random.pick(&[any, (one + 1) % FAULTS.len()]);
    for n in [one.max(other), one.min(other)] {
        FAULTS[n].1(&mut parts, random);
    }
    match random.below(8) {
        0 | 1 => without_trains(parts, random),
        2 => byte_altered(parts, 0..2, random),
        _ => parts.bytes(),
    }
}

fn parts(random: &mut Random) -> Parts {
    let posts = random.between(2, 8);
    let trains = random.between(1, 6);
    // Few tracks make trains wait, many let them all go.
    let most = random.between(1, 4);
    let post = |random: &mut Random| random.between(0, posts - 1);
    let tracks: Vec<u8> = (0..posts).map(|_| random.between(1, most)).collect();
    let routes: Vec<_> = (0..trains).map(|_| [post(random), post(random)]).collect();
    of_some_edition(&tracks, &routes, random)
}

/// Half of the books have positions, and some neither positions nor sidings.
fn of_some_edition(tracks: &[u8], routes: &[[u8; 2]], random: &mut Random) -> Parts {
    let posts = tracks.len() as u8;
    let parts = Parts::new(tracks, sidings(posts, random), routes);
    if random.one_in(2) {
        parts.with_positions(&positions::right(posts, random))
    } else {
        parts
    }
}

/// Sidings at some posts, at all or at none, or no byte for them.
fn sidings(posts: u8, random: &mut Random) -> Option<u8> {
    let all = 255 >> (8 - posts);
    let some = random.byte() & all;
    random.pick(&[None, None, Some(0), Some(all), Some(some), Some(some)])
}

fn cut(parts: Parts, random: &mut Random) -> Vec<u8> {
    let mut bytes = parts.bytes();
    bytes.truncate(random.below(bytes.len()));
    perhaps_with_length(bytes, random)
}

fn lengthened(parts: Parts, random: &mut Random) -> Vec<u8> {
    let mut bytes = parts.bytes();
    let many = random.below(300);
    let more = 1 + random.pick(&[0, 1, many]);
    bytes.extend(random.bytes(more));
    perhaps_with_length(bytes, random)
}

/// The bytes, half of the time with a length that fits them.
fn perhaps_with_length(bytes: Vec<u8>, random: &mut Random) -> Vec<u8> {
    if bytes.len() > 2 && random.one_in(2) {
        with_length(bytes)
    } else {
        bytes
    }
}

fn byte_altered(parts: Parts, places: std::ops::Range<usize>, random: &mut Random) -> Vec<u8> {
    let mut bytes = parts.bytes();
    let end = places.end.min(bytes.len());
    let at = places.start + random.below(end - places.start);
    bytes[at] = random.altered(bytes[at]);
    bytes
}

/// The length is right, yet the bytes end before the number of trains.
fn without_trains(mut parts: Parts, random: &mut Random) -> Vec<u8> {
    parts.routes.clear();
    let mut bytes = parts.bytes();
    bytes.truncate(4 + random.below(bytes.len() - 4));
    with_length(bytes)
}

/// All trains start at one post.
fn overfull(mut parts: Parts, random: &mut Random) -> Vec<u8> {
    let start = random.between(0, parts.posts - 1);
    parts.tracks[usize::from(start)] = random.between(1, 2);
    for route in &mut parts.routes {
        route[0] = start;
    }
    parts.bytes()
}

/// Two trains that must pass each other where no post has two tracks. A siding at an end would let a placing be lawful
/// in which both are there.
fn head_on(random: &mut Random) -> Vec<u8> {
    let posts = random.between(2, 8);
    let last = posts - 1;
    let tracks = vec![1; usize::from(posts)];
    of_some_edition(&tracks, &[[0, last], [last, 0]], random).bytes()
}

/// Six trains go all the way on the longest line: at their ends their code is the largest.
fn end_to_end(random: &mut Random) -> Vec<u8> {
    let tracks = [(); 8].map(|()| random.between(2, 4));
    let routes = [(); 6].map(|()| random.pick(&[[0, 7], [7, 0]]));
    of_some_edition(&tracks, &routes, random).bytes()
}

/// Most trains end at one post with few tracks and a siding, and some are parked there.
fn put_away(mut parts: Parts, random: &mut Random) -> Vec<u8> {
    let end = random.between(0, parts.posts - 1);
    parts.tracks[usize::from(end)] = random.between(1, 2);
    parts.sidings = Some(parts.sidings.unwrap_or(0) | 1 << end);
    for route in &mut parts.routes {
        match random.below(4) {
            0 => {}
            1 => *route = [end, end],
            _ => route[1] = end,
        }
    }
    parts.bytes()
}

/// Random bytes, often with a right head, so that they are read further.
fn noise(random: &mut Random) -> Vec<u8> {
    let len = random.below(LONGEST_BOOK + 8);
    let mut bytes = random.bytes(len);
    if len >= 4 && !random.one_in(4) {
        bytes[2] = random.between(1, 3);
        bytes[3] = random.between(0, 10);
        for byte in &mut bytes[4..] {
            *byte %= 10;
        }
        bytes = with_length(bytes);
    }
    bytes
}
