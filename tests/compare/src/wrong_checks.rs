//! Boxes that check a question about a running time, or a place report, in another order.

use crate::checks::Check;
use crate::counts::Entry;
use crate::wrong_boxes::{every_is_found, Fault};

/// A check that comes too early, and the one that should come before it and all between them.
type Order = (&'static str, Check, Check);

/// With the checks of a book.
const OF_BOOKS: [Order; 9] = [
    (
        "4 before 14, the length named",
        Check::Edition,
        Check::Length,
    ),
    ("15 before 4", Check::Posts, Check::Edition),
    ("14, an early end, before 15", Check::Ends, Check::Posts),
    ("16 before 14, an early end", Check::Tracks, Check::Ends),
    ("23 before 16", Check::Sidings, Check::Tracks),
    ("27 before 23", Check::Positions, Check::Sidings),
    ("27 after 17", Check::Trains, Check::Positions),
    ("14, the total, before 17", Check::Total, Check::Trains),
    ("18 before 14, the total", Check::Routes, Check::Total),
];

const OF_TIMES: [Order; 4] = [
    ("9 before 18", Check::PostsAsked, Check::Routes),
    ("28 before 9", Check::Speed, Check::PostsAsked),
    (
        "9 right after the book's length",
        Check::PostsAsked,
        Check::Edition,
    ),
    ("28 before the book's numbers", Check::Speed, Check::Length),
];

const OF_PLACES: [Order; 11] = [
    ("5 before 1", Check::Kind, Check::Room),
    ("14, the length named, before 5", Check::Length, Check::Kind),
    ("4 before 5", Check::Edition, Check::Kind),
    ("27 before 5", Check::Positions, Check::Kind),
    ("18 before 5", Check::Routes, Check::Kind),
    ("9 before 18", Check::PostsAsked, Check::Routes),
    ("29 before 18", Check::Metres, Check::Routes),
    (
        "9 right after the book's length",
        Check::PostsAsked,
        Check::Edition,
    ),
    ("29 right after the positions", Check::Metres, Check::Trains),
    ("29 before 4", Check::Metres, Check::Edition),
    ("29 before the book's numbers", Check::Metres, Check::Length),
];

fn every_is_found_at(call: Entry, orders: &[Order]) {
    let fault = |(name, check, other): &Order| (*name, Fault::Earlier(call, *check, *other));
    let faults: Vec<_> = orders.iter().map(fault).collect();
    every_is_found(&faults);
}

#[test]
fn every_box_that_checks_a_question_in_another_order_is_found() {
    every_is_found_at(Entry::RunningTime, &OF_BOOKS);
    every_is_found_at(Entry::RunningTime, &OF_TIMES);
}

#[test]
fn every_box_that_checks_a_report_in_another_order_is_found() {
    every_is_found_at(Entry::Locate, &OF_BOOKS);
    every_is_found_at(Entry::Locate, &OF_PLACES);
}
