//! Stored inputs with books of edition 3: positions that are refused, and runs, in which they make no difference.

use crate::stored::{on, runs_of, Input, ASK, LARGEST, RUN};
use inputs::books::{book_3, with_length, Parts};
use inputs::crews::Senders;
use inputs::frames::{frame, AM, FA};
use inputs::sizes::METRES_MOST;

/// Where the posts of X are, and wrong positions.
const METRES: [u32; 3] = [0, 1000, 2234];
const FALLING: [u32; 3] = [0, 2234, 1000];

pub fn all() -> Vec<Input> {
    let mut inputs = refused_for_positions();
    inputs.extend(refused_before_or_after());
    inputs.extend(opened());
    inputs.extend(longest());
    inputs.extend(runs_of(
        &longest_book(),
        "positions",
        Senders::CrewsAndGangs,
        2,
    ));
    inputs
}

/// The parts of X as a book of edition 3.
fn x_3(positions: [u32; 3]) -> Parts {
    Parts::new(&[1, 2, 1], Some(0), &[[0, 2], [2, 0]]).with_positions(&positions)
}

/// 27, in each way.
fn refused_for_positions() -> Vec<Input> {
    let [_, second, third] = METRES;
    [
        ("not-from-0", [1, second, third]),
        ("equal", [0, second, second]),
        ("both-at-0", [0, 0, third]),
        ("falling", FALLING),
        ("too-far", [0, second, METRES_MOST + 1]),
        (
            "too-far-from-the-second",
            [0, METRES_MOST + 1, METRES_MOST + 2],
        ),
        ("too-far-at-the-second", [0, METRES_MOST + 1, third]),
        ("high-byte", [0, second, 1 << 24 | third]),
        ("low-byte-first", METRES.map(u32::swap_bytes)),
    ]
    .map(|(name, positions)| {
        let name = format!("book-positions-{name}");
        (name, x_3(positions).bytes())
    })
    .to_vec()
}

/// Books with two faults, of which one is that their positions fall; and faults of books whose positions are right.
fn refused_before_or_after() -> Vec<Input> {
    type Change = fn(&mut Parts);
    let changed = |name: &str, positions, change: Change| {
        let mut parts = x_3(positions);
        change(&mut parts);
        (name.to_string(), parts.bytes())
    };
    let early = |positions| with_length(x_3(positions).bytes()[..18].to_vec());
    let mut later = x_3(METRES).bytes();
    later[2] = 4;
    vec![
        changed("book-five-tracks-before-positions", FALLING, |x| {
            x.tracks[0] = 5;
        }),
        changed("book-siding-before-positions", FALLING, |x| {
            x.sidings = Some(8);
        }),
        changed("book-positions-before-no-train", FALLING, |x| x.trains = 0),
        changed("book-positions-before-the-total", FALLING, |x| x.trains = 1),
        changed("book-positions-before-off-the-line", FALLING, |x| {
            x.routes[0] = [3, 2];
        }),
        changed("book-edition-3-no-train", METRES, |x| x.trains = 0),
        changed("book-edition-3-total-differs", METRES, |x| x.trains = 1),
        changed("book-edition-3-off-the-line", METRES, |x| {
            x.routes[0] = [3, 2];
        }),
        ("book-edition-3-ends-early".to_string(), early(METRES)),
        (
            "book-early-end-before-positions".to_string(),
            early(FALLING),
        ),
        ("book-edition-4".to_string(), later),
    ]
}

/// Books that open as the same of edition 2 do.
fn opened() -> Vec<Input> {
    let with_sidings = Parts {
        sidings: Some(5),
        ..x_3(METRES)
    };
    let head_on = [[0, 1], [1, 0]];
    let overfull = [[0, 1], [0, 1]];
    let two_posts = |routes: &[[u8; 2]]| book_3(&[1, 1], 0, &[0, 1], routes);
    let at_the_bound = x_3([0, METRES_MOST - 1, METRES_MOST]);
    vec![
        on(&x_3(METRES).bytes(), "book-edition-3", &RUN),
        on(&with_sidings.bytes(), "book-edition-3-sidings", &RUN),
        on(&at_the_bound.bytes(), "book-positions-at-the-bound", &RUN),
        on(&two_posts(&[[0, 1]]), "book-smallest-of-edition-3", &[ASK]),
        on(&two_posts(&overfull), "book-edition-3-overfull", &[ASK]),
        on(
            &two_posts(&head_on),
            "book-edition-3-no-way-through",
            &[ASK],
        ),
    ]
}

fn longest_book() -> Vec<u8> {
    let metres = [0, 900, 4100, 4101, 66_000, 70_000, 1_000_000, METRES_MOST];
    book_3(&LARGEST.0, 0x81, &metres, &LARGEST.1)
}

/// The longest book with frames, cut at some places, and with a byte more.
fn longest() -> Vec<Input> {
    let longest = longest_book();
    let longer = with_length([&longest[..], &[0]].concat());
    let frames = [ASK, frame(FA, 1, 7, 6), frame(AM, 0, 0, 1)];
    let mut inputs = vec![
        on(&longest, "book-longest", &frames),
        on(&longer, "book-longer-than-the-longest", &frames),
    ];
    for bytes in [2, 13, 14, 46, 57] {
        let cut = longest[..bytes].to_vec();
        inputs.push((format!("book-longest-cut-to-{bytes}"), cut));
    }
    inputs
}
