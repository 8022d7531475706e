//! Sidings (02, card 1): books of edition 2, and what a train put away in a siding changes.

use crate::common::*;
use model::*;

/// Both trains end at post 1, which has one track and a siding.
const TWO_IN: [u8; 12] = [0, 10, 2, 2, 2, 1, 2, 2, 0, 1, 0, 1];

/// Train 0 ends in the siding of post 1, from which train 1 goes on.
const ONE_OUT: [u8; 13] = [0, 11, 2, 3, 1, 1, 1, 2, 2, 0, 1, 1, 2];

/// Trains 0 and 1 are parked in the siding of post 1, where train 2 goes.
const PARKED: [u8; 14] = [0, 12, 2, 2, 1, 1, 2, 3, 1, 1, 1, 1, 0, 1];

/// The same book as one of edition 1, that is without its byte of sidings.
pub fn as_edition_1(book: &[u8]) -> Vec<u8> {
    let at = 4 + usize::from(book[3]);
    let mut bytes = [&book[..at], &book[at + 1..]].concat();
    bytes[1] -= 1;
    bytes[2] = 1;
    bytes
}

/// The same book with another byte of sidings.
fn with_sidings(book: &[u8], sidings: u8) -> Vec<u8> {
    let mut bytes = book.to_vec();
    bytes[4 + usize::from(book[3])] = sidings;
    bytes
}

#[test]
fn books_of_edition_2_in_order_of_checks() {
    let number = |bytes: &[u8]| read_book(bytes).err().unwrap_or(0);
    assert_eq!(number(&[0, 1, 2]), 14);
    assert_eq!(number(&[0, 2, 2, 9]), 15);
    assert_eq!(number(&[0, 2, 2, 2]), 14);
    // Under 6 + P bytes, though a book of edition 1 would go on.
    assert_eq!(number(&[0, 5, 2, 2, 0, 0, 255]), 14);
    assert_eq!(number(&[0, 5, 1, 2, 1, 1, 0]), 17);
    assert_eq!(number(&[0, 6, 2, 2, 0, 0, 255, 0]), 16);
    assert_eq!(number(&[0, 6, 2, 2, 1, 1, 4, 0]), 23);
    assert_eq!(number(&[0, 6, 2, 2, 1, 1, 3, 0]), 17);
    // Not 6 + P + 2T bytes.
    assert_eq!(number(&[0, 6, 2, 2, 1, 1, 3, 1]), 14);
    assert_eq!(number(&[0, 7, 2, 2, 1, 1, 3, 1, 0]), 14);
    assert_eq!(number(&[0, 8, 2, 2, 1, 1, 4, 1, 0, 2]), 23);
    assert_eq!(number(&[0, 8, 2, 2, 1, 1, 3, 1, 0, 2]), 18);
    assert_eq!(number(&[0, 8, 2, 2, 1, 1, 3, 1, 0, 1]), 0);
    assert_eq!(number(&[0, 9, 2, 2, 1, 1, 3, 1, 0, 1, 0]), 14);
    // 23 comes before 17 and after 16.
    assert_eq!(number(&[0, 7, 2, 3, 1, 2, 1, 8, 0]), 23);
    assert_eq!(number(&[0, 9, 2, 3, 5, 2, 1, 8, 1, 0, 2]), 16);
    // X as edition 2 without its byte: the number of trains is taken for it.
    assert_eq!(number(&[0, 10, 2, 3, 1, 2, 1, 2, 0, 2, 2, 0]), 17);
}

#[test]
fn other_editions() {
    for edition in (0..=255).filter(|edition| !matches!(edition, 1..=3)) {
        for book in [&X[..], &TWO_IN] {
            let mut other = book.to_vec();
            other[2] = edition;
            assert_eq!(refusal_of(&other), 4);
        }
    }
    // Frames have one edition.
    assert_eq!(read_frame(&[0, 5, 2, 1, 0, 0, 1]), Err(4));
    assert_eq!(Box::open(&TWO_IN).put(&[0, 5, 2, 1, 0, 0, 1]), Err(4));
}

/// 23 for each bit from P up, and for no bit below it.
#[test]
fn a_siding_off_the_line() {
    for posts in 2..=8u8 {
        for sidings in 0..=255 {
            let book = book_of(&vec![1; posts.into()], Some(sidings), &[(0, 1)]);
            let named = (0..8).filter(|post| sidings >> post & 1 == 1);
            let expected = if named.max() < Some(posts) { 0 } else { 23 };
            assert_eq!(refusal_of(&book), expected, "{book:?}");
        }
    }
    let x = [0, 11, 2, 3, 1, 2, 1, 8, 2, 0, 2, 2, 0];
    assert_eq!(refusal_of(&x), 23);
    assert_eq!(refusal_of(&with_sidings(&x, 7)), 0);
}

#[test]
fn a_book_of_edition_2_read_and_opened() {
    let without = read_book(&as_edition_1(&ONE_OUT)).unwrap();
    assert_eq!((without.sidings, without.trains), (0, 2));
    let with = Line {
        sidings: 2,
        ..without
    };
    assert_eq!(read_book(&ONE_OUT), Ok(with));
    let state = Box::open(&ONE_OUT).state;
    assert_eq!(state.sidings, 2);
    assert_eq!(Box::open(&X).state.sidings, 0);
}

/// Each train needs the other's only track, though one of them would leave it
/// at once: lawful placings alone are no way through.
#[test]
fn a_move_needs_a_free_track_before_it() {
    let swap = [0, 10, 2, 2, 1, 1, 2, 2, 0, 1, 1, 0];
    let mut table = vec![0; TABLE_BYTES];
    let journal = [Record::BLANK; JOURNAL_RECORDS];
    assert_eq!(open(&swap, &mut table, &journal), (State::EMPTY, 20));
    // With train 0 in the siding, train 1 goes. Codes 1 and 9.
    assert_eq!(table[..2], [2, 2]);
    assert!(table[2..].iter().all(|byte| *byte == 0));
    // A second track at either post is enough.
    for at in [4, 5] {
        let mut wider = swap;
        wider[at] = 2;
        assert_eq!(refusal_of(&wider), 0);
    }
}

#[test]
fn two_trains_end_at_one_track() {
    let mut b = Box::open(&TWO_IN);
    assert_eq!(b.put(&frame(FA, 0, 0, 1)), Ok(vec![[FE, 0, 0, 1]]));
    assert_eq!(b.put(&frame(FA, 1, 0, 1)), Ok(vec![[AFE, 1, 0, 1]]));
    assert_eq!(b.put(&frame(AM, 0, 0, 1)), Ok(vec![[FE, 1, 0, 1]]));
    assert_eq!(b.put(&frame(AM, 1, 0, 1)), Ok(vec![]));
    assert_eq!(b.state.holders_of_post(1), 0);
    assert_eq!(b.put(&frame(FA, 1, 1, 1)), Err(8));
    assert_eq!(refusal_of(&as_edition_1(&TWO_IN)), 20);
    // No siding, or one where nobody ends.
    assert_eq!(refusal_of(&with_sidings(&TWO_IN, 0)), 20);
    assert_eq!(refusal_of(&with_sidings(&TWO_IN, 1)), 20);
}

/// A train that goes on from a post with a siding holds its track there.
#[test]
fn the_way_into_a_siding_needs_a_track() {
    let mut b = Box::open(&ONE_OUT);
    assert_eq!(b.put(&frame(FA, 0, 0, 1)), Ok(vec![[AFE, 0, 0, 1]]));
    assert_eq!(b.put(&frame(FA, 1, 1, 2)), Ok(vec![[FE, 1, 1, 2]]));
    assert_eq!(b.put(&frame(AM, 1, 1, 2)), Ok(vec![[FE, 0, 0, 1]]));
    // Whatever the table says.
    let mut b = Box::open(&ONE_OUT);
    b.table.fill(255);
    assert_eq!(b.put(&frame(FA, 0, 0, 1)), Ok(vec![[AFE, 0, 0, 1]]));
}

/// Bound for a siding, a Running train holds a track at both posts until its AM.
#[test]
fn a_train_under_way_to_its_siding_holds_two_tracks() {
    let routes = [(0, 1), (2, 1), (1, 1)];
    let mut b = Box::open(&book_of(&[1, 1, 1], Some(2), &routes));
    assert_eq!(b.state.holders_of_post(1), 0);
    assert_eq!(b.put(&frame(FA, 0, 0, 1)), Ok(vec![[FE, 0, 0, 1]]));
    assert_eq!([0, 1, 2].map(|p| b.state.holders_of_post(p)), [1, 1, 1]);
    // The other section is free, and the track is not.
    assert_eq!(b.put(&frame(FA, 1, 2, 1)), Ok(vec![[AFE, 1, 2, 1]]));
    assert_eq!(b.put(&frame(AM, 0, 0, 1)), Ok(vec![[FE, 1, 2, 1]]));
    assert_eq!([0, 1, 2].map(|p| b.state.holders_of_post(p)), [0, 1, 1]);
}

#[test]
fn parked_trains_in_a_siding() {
    let mut b = Box::open(&PARKED);
    assert_eq!(b.put(&frame(FA, 2, 0, 1)), Ok(vec![[FE, 2, 0, 1]]));
    assert_eq!(refusal_of(&as_edition_1(&PARKED)), 19);
    assert_eq!(refusal_of(&with_sidings(&PARKED, 0)), 19);
    assert_eq!(refusal_of(&with_sidings(&PARKED, 1)), 19);
    // One that starts there and goes on holds a track, parked ones or not.
    let starts = [(1, 1), (1, 0), (1, 0)];
    assert_eq!(refusal_of(&book_of(&[2, 1], Some(3), &starts)), 19);
    assert_eq!(refusal_of(&book_of(&[2, 2], Some(3), &starts)), 0);
}

type Change = fn(&mut State);

/// Whether the state with both trains in the siding is still sound with this change.
const CHANGES: [(bool, Change); 10] = [
    (true, |_| ()),
    (false, |s| s.sidings = 0),
    (false, |s| s.sidings = 1),
    (true, |s| s.sidings = 3),
    (false, |s| s.sidings = 4), // a post not in the line
    (false, |s| s.sidings = 6),
    (false, |s| s.sidings = 130),
    // A train that has the post on its way holds a track there.
    (true, |s| s.train[0] = on_its_way(s.train[0])),
    (false, |s| {
        s.train[0] = on_its_way(s.train[0]);
        s.train[1] = on_its_way(s.train[1]);
    }),
    // One put away cannot run.
    (false, |s| s.train[0].standing = Standing::Running(1)),
];

/// At post 1, on its track, and bound for post 0.
fn on_its_way(train: Train) -> Train {
    Train {
        start: 1,
        end: 0,
        track: 1,
        last: None,
        ..train
    }
}

#[test]
fn sound_states_with_sidings() {
    for (number, (expected, change)) in CHANGES.iter().enumerate() {
        let mut s = Box::open(&TWO_IN).state;
        for train in &mut s.train[..2] {
            bring(train, 1);
            train.track = 0;
        }
        change(&mut s);
        assert_eq!(sound(&s), *expected, "change {number}: {s:?}");
    }
    // All eight bits name posts of a line of eight.
    let eight = Box::open(&book_of(&[1; 8], Some(255), &[(0, 7)])).state;
    assert_eq!((eight.sidings, sound(&eight)), (255, true));
    assert!(!sound(&State {
        posts: 7,
        train: [Train::EMPTY; 6],
        ..eight
    }));
}

/// Edition 1 is edition 2 with no sidings: the same state, table and refusal.
#[test]
fn edition_1_has_no_sidings() {
    let mut rng = Rng(0xED1);
    let mut accepted = 0;
    for _ in 0..400 {
        let (tracks, trains) = rng.line(6, 4, 2);
        let [old, new] = [None, Some(0)].map(|sidings| opened(&book_of(&tracks, sidings, &trains)));
        assert!(old == new, "{tracks:?} {trains:?}");
        accepted += u32::from(old.0 .1 == 0);
    }
    assert!((50..350).contains(&accepted), "{accepted}");
}

#[test]
fn sidings_in_the_program() {
    let input = [
        &TWO_IN[..],
        &frame(FA, 0, 0, 1),
        &frame(FA, 1, 0, 1),
        &frame(AM, 0, 0, 1),
        &frame(AM, 1, 0, 1),
    ];
    let printed = "0 FA 0 0 1 0
1 FE 0 0 1 1
2 FA 1 0 1 0
3 AFE 1 0 1 0
4 AM 0 0 1 0
5 FE 1 0 1 1
6 AM 1 0 1 0
end 7 0
";
    assert_eq!(program::run(&mut &input.concat()[..]), printed);
}
