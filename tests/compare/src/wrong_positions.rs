//! Boxes that are wrong with the positions of a book.

use crate::cases::TimeCase;
use crate::checks::{are_right, positions, sidings_at, trains_at};
use crate::counts::Entry;
use crate::timings::of_positions;
use crate::wrong_boxes::{every_is_found, Fault};
use inputs::sizes::METRES_MOST;

/// Other positions in the place of a book's, where it is of edition 3 and has all of them.
fn reposition(book: &mut [u8], other: impl Fn(&[u32]) -> Option<Vec<u32>>) {
    let named = positions(book);
    if !is_edition_3(book) || named.len() != usize::from(book[3]) || named.len() < 2 {
        return;
    }
    if let Some(others) = other(&named) {
        let at = sidings_at(book) + 1;
        for (four, metres) in book[at..].chunks_exact_mut(4).zip(others) {
            four.copy_from_slice(&metres.to_be_bytes());
        }
    }
}

fn is_edition_3(book: &[u8]) -> bool {
    book.len() >= 4 && book[2] == 3
}

/// Positions that are wrong in this way are taken for right ones.
fn overlook(book: &mut [u8], way: fn(&[u32]) -> bool) {
    reposition(book, |named| {
        let overlooked = !are_right(named) && way(named);
        overlooked.then(|| (0..named.len() as u32).collect())
    });
}

/// They are wrong in the way of this case alone.
fn is(case: TimeCase, positions: &[u32]) -> bool {
    of_positions(positions).contains(&case)
}

/// The bytes between the track counts and the number of trains, where they are all there.
fn between(book: &mut [u8]) -> &mut [u8] {
    let posts = book.get(3).copied().unwrap_or(0);
    let at = sidings_at(book);
    let whole = is_edition_3(book) && book.len() > at + 4 * usize::from(posts);
    let many = if whole { 1 + 4 * usize::from(posts) } else { 0 };
    book.get_mut(at..at + many).unwrap_or(&mut [])
}

/// A book is taken for another.
type Reads = fn(&mut [u8]);

const PLAIN: [(&str, Reads); 2] = [
    ("edition 3 is not known", |b| {
        if is_edition_3(b) {
            b[2] = 4;
        }
    }),
    ("positions are not looked at", |b| overlook(b, |_| true)),
];

const FINER: [(&str, Reads); 13] = [
    ("edition 4 is taken for edition 3", |b| {
        if b.get(2) == Some(&4) {
            b[2] = 3;
        }
    }),
    ("the low byte of a position is first", |b| {
        reposition(b, |named| {
            Some(named.iter().map(|metres| metres.swap_bytes()).collect())
        })
    }),
    ("positions stand before the siding byte", |b| {
        if let bytes @ [_, ..] = between(b) {
            bytes.rotate_right(1);
        }
    }),
    ("a siding off the line is not seen in edition 3", |b| {
        let posts = b.get(3).copied().unwrap_or(0).clamp(2, 8);
        if let [sidings, _, ..] = between(b) {
            *sidings &= 255 >> (8 - posts);
        }
    }),
    ("a first position that is not 0 is right", |b| {
        overlook(b, |named| is(TimeCase::NotFrom0, named))
    }),
    ("equal positions are right", |b| {
        overlook(b, |named| is(TimeCase::Equal, named))
    }),
    ("falling positions are right", |b| {
        overlook(b, |named| is(TimeCase::Falling, named))
    }),
    ("only the first two positions must rise", |b| {
        overlook(b, |named| are_right(&named[..2]) && !are_far(named))
    }),
    ("the last position may be too far", |b| {
        overlook(b, |named| is(TimeCase::LastTooFar, named))
    }),
    ("8,388,608 is right", |b| {
        overlook(b, |named| {
            is(TimeCase::LastTooFar, named) && named.ends_with(&[METRES_MOST + 1])
        })
    }),
    ("8,388,607 is too far", |b| {
        reposition(b, |named| {
            named
                .ends_with(&[METRES_MOST])
                .then(|| vec![1; named.len()])
        })
    }),
    ("27 before 23", |b| {
        if !are_right(&positions(b)) {
            if let [sidings, _, ..] = between(b) {
                *sidings = 0;
            }
        }
    }),
    ("27 after 17", |b| {
        let trains = b.get(trains_at(b)).copied().unwrap_or(0);
        if !(1..=6).contains(&trains) {
            overlook(b, |_| true);
        }
    }),
];

fn are_far(positions: &[u32]) -> bool {
    positions.iter().any(|metres| *metres > METRES_MOST)
}

fn every_is_found_at(call: Entry, faults: &[(&'static str, Reads)]) {
    let at_call = |(name, fault): &(&'static str, Reads)| (*name, Fault::ReadsBook(call, *fault));
    let faults: Vec<_> = faults.iter().map(at_call).collect();
    every_is_found(&faults);
}

#[test]
fn every_box_without_edition_3_or_27_is_found() {
    for call in [
        Entry::ReadBook,
        Entry::Open,
        Entry::RunningTime,
        Entry::Locate,
    ] {
        every_is_found_at(call, &PLAIN);
    }
}

/// Not at the opening: there are fewer of them, since each has a table.
#[test]
fn every_box_that_reads_positions_wrongly_is_found() {
    for call in [Entry::ReadBook, Entry::RunningTime, Entry::Locate] {
        every_is_found_at(call, &FINER);
    }
}
