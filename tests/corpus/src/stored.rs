//! Every stored input by name: refused books, refused frames, torn tails, and whole runs.

use crate::{gangs, journals, positions, repeats};
use inputs::books::{book, book_2, X, Y};
use inputs::crews::{self, Senders};
use inputs::frames::{frame, AFE, AM, FA, FE, LA};
use inputs::random::Random;
use inputs::sizes::FRAME_BYTES;

pub type Input = (String, Vec<u8>);
pub type Frame = [u8; FRAME_BYTES];

/// Book X as one of edition 2, with a siding at each end of the line.
const X_2: [u8; 13] = [0, 11, 2, 3, 1, 2, 1, 5, 2, 0, 2, 2, 0];

/// Books that are refused, most of them book X with one byte changed.
const BOOKS: [(&str, &[u8]); 29] = [
    ("book-empty", &[]),
    ("book-one-byte", &[0]),
    ("book-length-only", &[0, 0]),
    ("book-three-bytes", &[0, 1, 1]),
    ("book-length-too-large", &x_with(1, 0x0B)),
    ("book-length-too-small", &x_with(1, 0x09)),
    ("book-length-high-byte", &x_with(0, 1)),
    ("book-ends-early", X.split_at(9).0),
    ("book-other-edition", &x_with(2, 4)),
    ("book-edition-0", &x_with(2, 0)),
    ("book-edition-2-without-its-byte", &x_with(2, 2)),
    ("book-edition-3-without-its-bytes", &x_with(2, 3)),
    ("book-edition-2-ends-early", &[0, 6, 2, 3, 1, 2, 1, 8]),
    (
        "book-edition-2-total-differs",
        &[0, 10, 2, 3, 1, 2, 1, 5, 2, 0, 2, 2],
    ),
    (
        "book-siding-off-the-line",
        &[0, 11, 2, 3, 1, 2, 1, 8, 2, 0, 2, 2, 0],
    ),
    ("book-siding-before-no-train", &[0, 7, 2, 3, 1, 2, 1, 8, 0]),
    (
        "book-five-tracks-before-siding",
        &[0, 9, 2, 3, 5, 2, 1, 8, 1, 0, 2],
    ),
    (
        "book-siding-still-needs-a-track",
        &[0, 10, 2, 2, 1, 1, 2, 2, 0, 1, 1, 0],
    ),
    (
        "book-parked-without-a-siding",
        &[0, 11, 1, 2, 1, 1, 3, 1, 1, 1, 1, 0, 1],
    ),
    ("book-one-post", &x_with(3, 1)),
    ("book-nine-posts", &x_with(3, 9)),
    ("book-posts-past-the-end", &[0, 3, 1, 8, 1]),
    ("book-no-track", &x_with(4, 0)),
    ("book-five-tracks", &x_with(4, 5)),
    ("book-no-train", &x_with(7, 0)),
    ("book-seven-trains", &x_with(7, 7)),
    ("book-total-differs", &x_with(7, 1)),
    ("book-start-off-the-line", &x_with(8, 3)),
    ("book-end-off-the-line", &x_with(11, 3)),
];

pub const ASK: Frame = frame(FA, 0, 0, 1);

/// The paper's run.
pub const RUN: [Frame; 8] = [
    ASK,
    frame(FA, 1, 2, 1),
    frame(AM, 0, 0, 1),
    frame(FA, 0, 1, 2),
    frame(AM, 1, 2, 1),
    frame(FA, 1, 1, 0),
    frame(AM, 0, 1, 2),
    frame(AM, 1, 1, 0),
];

/// Frames after book X.
const ON_X: [(&str, &[Frame]); 18] = [
    ("frame-run-of-the-paper", &RUN),
    ("frame-none", &[]),
    ("frame-other-length", &[[0, 6, 1, 1, 0, 0, 1], ASK]),
    ("frame-high-length-byte", &[[1, 5, 1, 1, 0, 0, 1]]),
    ("frame-other-edition", &[[0, 5, 2, 9, 0, 0, 1]]),
    ("frame-torn-and-other-edition", &[[0, 6, 2, 1, 0, 0, 1]]),
    ("frame-kind-0", &[frame(0, 0, 0, 1)]),
    ("frame-kind-8", &[frame(8, 0, 0, 1)]),
    ("frame-kind-255", &[frame(255, 255, 255, 255)]),
    ("frame-local-run-of-a-train", &[frame(LA, 0, 0, 1)]),
    ("frame-authority-at-the-box", &[frame(FE, 0, 0, 1)]),
    (
        "frame-wrong-end-before-unknown-train",
        &[frame(FE, 9, 9, 9), frame(AFE, 9, 9, 9)],
    ),
    (
        "frame-unknown-train",
        &[frame(FA, 2, 0, 1), frame(FA, 255, 0, 1)],
    ),
    (
        "frame-wrong-post",
        &[frame(FA, 0, 1, 2), frame(FA, 0, 0, 2), frame(AM, 0, 1, 2)],
    ),
    ("frame-asked-twice", &[ASK, ASK]),
    (
        "frame-wrong-post-before-authority",
        &[ASK, frame(FA, 0, 1, 2)],
    ),
    ("frame-arrival-without-authority", &[frame(AM, 0, 0, 1)]),
    (
        "frame-at-its-end",
        &[
            ASK,
            frame(AM, 0, 0, 1),
            frame(FA, 0, 1, 2),
            frame(FA, 1, 2, 1),
            frame(AM, 1, 2, 1),
            frame(AM, 0, 1, 2),
            frame(FA, 0, 2, 2),
            frame(AM, 0, 1, 2),
            frame(AM, 0, 0, 0),
        ],
    ),
];

pub fn all() -> Vec<Input> {
    let mut inputs: Vec<Input> = Vec::new();
    inputs.extend(BOOKS.map(|(name, bytes)| (name.to_string(), bytes.to_vec())));
    inputs.extend(ON_X.map(|(name, frames)| on(&X, name, frames)));
    inputs.extend(made_books());
    inputs.extend(sidings());
    inputs.extend(tracks());
    inputs.extend(frames());
    inputs.extend(gangs::all());
    inputs.extend(journals::all());
    inputs.extend(positions::all());
    inputs.extend(repeats::all());
    inputs.extend(tails());
    inputs.extend(runs());
    inputs.sort();
    inputs
}

/// Book X with one byte changed.
const fn x_with(at: usize, byte: u8) -> [u8; X.len()] {
    let mut bytes = X;
    bytes[at] = byte;
    bytes
}

/// Six trains on eight posts, three each way.
pub const LARGEST: ([u8; 8], [[u8; 2]; 6]) = (
    [4, 3, 2, 2, 2, 2, 3, 4],
    [[0, 7], [7, 0], [0, 6], [7, 1], [1, 7], [6, 0]],
);

fn largest() -> Vec<u8> {
    book(&LARGEST.0, &LARGEST.1)
}

/// Six trains go all the way: at their ends their code is the largest.
pub fn end_to_end() -> Vec<u8> {
    book(
        &[3, 2, 2, 2, 2, 2, 2, 3],
        &[[0, 7], [7, 0], [0, 7], [7, 0], [0, 7], [7, 0]],
    )
}

/// Three trains end at either single track, where they are put away.
pub fn put_away() -> Vec<u8> {
    book_2(
        &[1, 2, 2, 2, 2, 2, 2, 1],
        0x81,
        &[[0, 7], [7, 0], [1, 7], [6, 0], [2, 7], [5, 0]],
    )
}

/// A book and frames.
pub fn on(book: &[u8], name: &str, frames: &[Frame]) -> Input {
    (name.to_string(), [book, frames.as_flattened()].concat())
}

/// Books of other lines than X, with frames where they are accepted.
fn made_books() -> Vec<Input> {
    let on_line = |name, tracks: &[u8], routes: &[[u8; 2]], frames: &[Frame]| {
        on(&book(tracks, routes), name, frames)
    };
    let largest_2 = book_2(&LARGEST.0, 0x81, &LARGEST.1);
    let arrival = frame(AM, 0, 0, 1);
    let parked = [[0, 0], [0, 1], [1, 1]];
    vec![
        on(&x_with(4, 4), "book-four-tracks", &[ASK]),
        on(&x_with(10, 0), "book-overfull", &[]),
        on_line("book-no-way-through", &[1, 1, 1], &[[0, 2], [2, 0]], &[]),
        on_line("book-ends-overfull", &[1, 1, 1], &[[0, 2], [1, 2]], &[]),
        on_line("book-smallest", &[1, 1], &[[0, 1]], &[ASK, arrival]),
        on(&largest(), "book-longest-of-edition-1", &[ASK]),
        on(&largest_2, "book-longest-of-edition-2", &[ASK]),
        on(&[0xFF; 60], "book-names-ffff", &[]),
        on_line(
            "book-parked-trains",
            &[2, 2],
            &parked,
            &[frame(FA, 1, 0, 1), ASK],
        ),
    ]
}

/// Books with the frames in which sidings tell, or are to make no difference.
fn sidings() -> Vec<Input> {
    let second = frame(FA, 1, 0, 1);
    let (arrival, its_arrival) = (frame(AM, 0, 0, 1), frame(AM, 1, 0, 1));
    let two = |name, sidings| {
        let book = book_2(&[2, 1], sidings, &[[0, 1], [0, 1]]);
        on(&book, name, &[ASK, second, arrival, its_arrival])
    };
    let everywhere = book_2(&[1, 2, 1], 7, &[[0, 2], [2, 0]]);
    let through = book_2(&[1, 1, 1], 2, &[[0, 1], [1, 2]]);
    let going = [ASK, frame(FA, 1, 1, 2), frame(AM, 1, 1, 2)];
    let parked = book_2(&[1, 1], 2, &[[1, 1], [1, 1], [0, 1]]);
    let under_way = book_2(&[1, 1, 1], 2, &[[0, 1], [2, 1]]);
    vec![
        on(&X_2, "book-edition-2", &RUN),
        on(&everywhere, "book-siding-at-every-post", &RUN),
        on(&X_2, "frame-edition-2", &[[0, 5, 2, 1, 0, 0, 1], ASK]),
        two("book-siding-lets-in-two", 2),
        two("book-no-siding-for-two", 0),
        two("book-siding-at-the-other-post", 1),
        on(
            &book(&[2, 1], &[[0, 1], [0, 1]]),
            "book-edition-1-for-two",
            &[],
        ),
        on(&through, "book-siding-without-a-free-track", &going),
        on(&parked, "book-parked-in-a-siding", &[frame(FA, 2, 0, 1)]),
        on(
            &under_way,
            "book-siding-held-under-way",
            &[ASK, frame(FA, 1, 2, 1), arrival],
        ),
    ]
}

/// Runs in which the FEs tell which tracks are held.
fn tracks() -> Vec<Input> {
    let go = |moves: &[[u8; 3]]| -> Vec<Frame> {
        let asked_and_made =
            |[train, from, to]: [u8; 3]| [FA, AM].map(|kind| frame(kind, train, from, to));
        moves.iter().copied().flat_map(asked_and_made).collect()
    };
    // Four trains fill post 1. The first and the last of them leave, and two others get what they had there.
    let full = [[1, 2], [1, 0], [1, 1], [1, 0], [0, 2], [2, 0]];
    let two_in = go(&[[0, 1, 2], [3, 1, 0], [4, 0, 1], [5, 2, 1]]);
    let both_ways = [[0, 2], [2, 0], [0, 2], [2, 0]];
    let to_post_1 = [[0, 0, 1], [1, 2, 1], [2, 0, 1], [3, 2, 1]];
    let from_post_1 = [[3, 1, 0], [0, 1, 2], [1, 1, 0], [2, 1, 2]];
    let through = go(&[to_post_1, from_post_1].concat());
    let mostly_up = [[0, 2], [0, 2], [2, 0], [0, 2]];
    let again = go(&[[0, 0, 1], [1, 0, 1], [2, 2, 1], [0, 1, 2], [3, 0, 1]]);
    [
        ("book-tracks-at-opening", &full[..], two_in),
        ("run-tracks-up-and-down", &both_ways, through),
        ("run-track-freed-and-taken-again", &mostly_up, again),
    ]
    .map(|(name, routes, frames)| on(&book(&[4, 4, 4], routes), name, &frames))
    .to_vec()
}

/// Frames after book Y, and many refused ones.
fn frames() -> Vec<Input> {
    let declined = frame(FA, 2, 2, 1);
    vec![
        on(&Y, "frame-declined-by-the-table", &[declined]),
        on(&Y, "frame-declined-then-asked-again", &[declined; 2]),
        on(&Y, "frame-granted-on-y", &[ASK]),
        on(&X, "frame-refused-only", &[[0xFF; FRAME_BYTES]; 40]),
    ]
}

/// Inputs that end within a frame, after whole ones or a stray byte.
fn tails() -> Vec<Input> {
    let after_x =
        |name: &str, rest: &[&[u8]]| (name.to_string(), [&X, &rest.concat()[..]].concat());
    let mut inputs: Vec<Input> = (1..FRAME_BYTES)
        .map(|n| after_x(&format!("tail-of-{n}"), &[&ASK, &vec![0; n]]))
        .collect();
    inputs.push(after_x("tail-alone", &[&[0, 5]]));
    inputs.push(after_x(
        "tail-after-a-shift",
        &[&[0], &ASK, &frame(AM, 0, 0, 1)],
    ));
    inputs
}

/// Runs of crews that ask and report in a random order, among stray frames, until all are home; and such with gangs.
fn runs() -> Vec<Input> {
    let mut inputs = Vec::new();
    for (name, book) in [
        ("x", X.to_vec()),
        ("y", Y.to_vec()),
        ("largest", largest()),
        ("sidings", put_away()),
        ("end-to-end", end_to_end()),
    ] {
        inputs.extend(runs_of(&book, name, Senders::Crews, 6));
        let name = format!("gangs-{name}");
        inputs.extend(runs_of(&book, &name, Senders::CrewsAndGangs, 3));
    }
    for seed in 1..=6 {
        let random = &mut Random::of_stored_runs(seed * 104_729);
        let book = random_book(random);
        let name = format!("run-random-{seed}");
        inputs.extend(run_home(name, &book, Senders::Crews, random));
        let book = random_book_2(random);
        let name = format!("run-random-sidings-{seed}");
        inputs.extend(run_home(name, &book, Senders::Crews, random));
    }
    inputs
}

/// So many runs of a book, by their seeds.
pub fn runs_of(book: &[u8], name: &str, senders: Senders, runs: u64) -> Vec<Input> {
    let run = |seed| {
        let random = &mut Random::of_stored_runs(seed * 7919);
        run_home(format!("run-{name}-{seed}"), book, senders, random)
    };
    (1..=runs).filter_map(run).collect()
}

/// A random book that opens.
fn random_book(random: &mut Random) -> Vec<u8> {
    loop {
        let (tracks, routes) = random_line(random);
        let book = book(&tracks, &routes);
        if crews::open(&book).is_some() {
            return book;
        }
    }
}

/// A random book that opens by its sidings alone.
fn random_book_2(random: &mut Random) -> Vec<u8> {
    loop {
        let (tracks, routes) = random_line(random);
        let sidings = random.byte() >> (8 - tracks.len());
        let [with, without] = [sidings, 0].map(|sidings| book_2(&tracks, sidings, &routes));
        if crews::open(&with).is_some() && crews::open(&without).is_none() {
            return with;
        }
    }
}

fn random_line(random: &mut Random) -> (Vec<u8>, Vec<[u8; 2]>) {
    let posts = random.between(3, 8);
    let tracks = (0..posts).map(|_| random.between(1, 4)).collect();
    let routes = (0..random.between(3, 6))
        .map(|_| [(); 2].map(|()| random.between(0, posts - 1)))
        .collect();
    (tracks, routes)
}

/// The book and the frames of a run of it; none where the book is refused.
fn run_home(name: String, book: &[u8], senders: Senders, random: &mut Random) -> Option<Input> {
    let opened = crews::open(book)?;
    let frames = crews::run(&opened, senders, random).flat_map(|turn| turn.frame);
    Some((name, book.iter().copied().chain(frames).collect()))
}
