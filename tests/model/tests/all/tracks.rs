//! Tracks (02, card 2): which track an authority names, which one a train has, and states that have
//! them wrong.

use crate::common::*;
use crate::runs::Run;
use model::*;
use std::collections::HashSet;

/// Trains 0 to 3 start at post 1, which has four tracks: up, down, parked, down.
const FOUR_AT_ONE: [u8; 16] = [0, 14, 1, 3, 2, 4, 2, 4, 1, 2, 1, 0, 1, 1, 1, 0];

/// Both trains end at post 1, which has one track and a siding.
const TWO_IN: [u8; 12] = [0, 10, 2, 2, 2, 1, 2, 2, 0, 1, 0, 1];

/// The present tracks of the first trains.
fn tracks_of<const N: usize>(state: &State) -> [u8; N] {
    std::array::from_fn(|t| state.train[t].track)
}

/// The tracks of the FE records, in order. No other record has one.
fn tracks_told(b: &Box) -> Vec<u8> {
    let log = &b.journal[..usize::from(b.state.journal)];
    assert!(log.iter().all(|r| r.kind == FE || r.track == 0));
    let fes = log.iter().filter(|r| r.kind == FE);
    fes.map(|r| r.track).collect()
}

/// A train asks, is granted at once, and arrives.
fn goes(b: &mut Box, train: u8, from: u8, to: u8) {
    let fe = vec![[FE, train, from, to]];
    assert_eq!(b.put(&frame(FA, train, from, to)), Ok(fe));
    assert_eq!(b.put(&frame(AM, train, from, to)), Ok(vec![]));
}

#[test]
fn tracks_of_the_printed_run() {
    let mut b = Box::open(&X);
    assert_eq!(tracks_of(&b.state), [1, 1]);
    b.put(&frame(FA, 0, 0, 1)).unwrap();
    // An up train and a down train at post 1, of two tracks.
    b.put(&frame(FA, 1, 2, 1)).unwrap();
    assert_eq!(tracks_told(&b), [1, 2]);
    assert_eq!(tracks_of(&b.state), [1, 1]);
    assert_eq!(b.state.train[0].standing, Standing::Running(1));
    assert_eq!(b.state.train[1].standing, Standing::Running(2));
    b.put(&frame(AM, 0, 0, 1)).unwrap();
    b.put(&frame(FA, 0, 1, 2)).unwrap();
    assert_eq!(b.journal[6], record(AFE, 0, 1, 2));
    b.put(&frame(AM, 1, 2, 1)).unwrap();
    assert_eq!(tracks_of(&b.state), [1, 2]);
    b.put(&frame(FA, 1, 1, 0)).unwrap();
    b.put(&frame(AM, 0, 1, 2)).unwrap();
    b.put(&frame(AM, 1, 1, 0)).unwrap();
    assert_eq!(tracks_told(&b), [1, 2, 1, 1]);
    // At an end without a siding a train keeps its track.
    assert_eq!(tracks_of(&b.state), [1, 1]);
}

#[test]
fn tracks_at_opening() {
    assert_eq!(tracks_of(&Box::open(&FOUR_AT_ONE).state), [1, 4, 2, 3]);
    // In number order: the same trains in another order.
    let routes = [(1, 0), (1, 1), (1, 0), (1, 2)];
    let other = Box::open(&book(&[2, 4, 2], &routes)).state;
    assert_eq!(tracks_of(&other), [4, 1, 3, 2]);
    // Of each post alone, and with tracks left over.
    let routes = [(0, 2), (2, 0), (0, 1), (2, 0), (2, 2), (1, 0)];
    let apart = Box::open(&book(&[4, 4, 4], &routes)).state;
    assert_eq!(tracks_of(&apart), [1, 4, 2, 3, 1, 4]);
    // Places from T on have none.
    assert_eq!(tracks_of(&Box::open(&X).state), [1, 1, 0, 0, 0, 0]);
}

/// One put away takes no track, and leaves it to the next train.
#[test]
fn put_away_at_opening() {
    let routes = [(1, 1), (1, 0), (0, 1), (1, 1), (1, 0)];
    let with = Box::open(&book_of(&[3, 4], Some(2), &routes)).state;
    assert_eq!(tracks_of(&with), [0, 4, 1, 0, 3]);
    let without = Box::open(&book_of(&[3, 4], Some(1), &routes)).state;
    assert_eq!(tracks_of(&without), [1, 4, 1, 2, 3]);
}

/// The smallest unheld track, though higher ones are held.
#[test]
fn a_track_freed_and_taken_again() {
    let mut b = Box::open(&[0, 14, 1, 3, 4, 4, 4, 4, 0, 2, 0, 2, 2, 0, 0, 2]);
    goes(&mut b, 0, 0, 1);
    goes(&mut b, 1, 0, 1);
    goes(&mut b, 2, 2, 1);
    goes(&mut b, 0, 1, 2);
    assert_eq!(b.put(&frame(FA, 3, 0, 1)), Ok(vec![[FE, 3, 0, 1]]));
    assert_eq!(tracks_told(&b), [1, 2, 4, 1, 1]);
    assert_eq!(tracks_of(&b.state), [1, 2, 4, 3]);
}

/// Down trains from the last track down; where one track is left, any train gets that.
#[test]
fn the_largest_track_for_a_down_train() {
    let routes = [(2, 0), (2, 0), (2, 0), (0, 2), (0, 2)];
    let mut b = Box::open(&book(&[4, 4, 4], &routes));
    for train in 0..3 {
        goes(&mut b, train, 2, 1);
    }
    assert_eq!(tracks_told(&b), [4, 3, 2]);
    assert_eq!(b.state.free_track(1, true), Some(1));
    assert_eq!(b.state.free_track(1, false), Some(1));
    goes(&mut b, 3, 0, 1);
    assert_eq!(b.state.free_track(1, true), None);
    assert_eq!(b.state.free_track(1, false), None);
    // Up and down go by start and end: the middle one leaves, and an up train follows it.
    goes(&mut b, 1, 1, 0);
    goes(&mut b, 4, 0, 1);
    assert_eq!(tracks_told(&b), [4, 3, 2, 1, 4, 3]);
}

/// A train has its track from the grant until it reports from the next post, and a track left
/// behind is free with that report.
#[test]
fn a_train_keeps_its_track_while_it_holds_the_post() {
    let mut b = Box::open(&book(&[2, 2, 2], &[(1, 2), (0, 2), (0, 1)]));
    assert_eq!(tracks_of(&b.state), [1, 1, 2]);
    b.put(&frame(FA, 0, 1, 2)).unwrap();
    assert_eq!(b.state.free_track(1, true), Some(2));
    goes(&mut b, 1, 0, 1);
    assert_eq!(b.state.train[1].track, 2);
    assert_eq!(b.state.free_track(1, true), None);
    // Declined, for want of a track: waiting changes none.
    b.put(&frame(FA, 2, 0, 1)).unwrap();
    assert_eq!(tracks_of(&b.state), [1, 2, 2]);
    // The arrival frees track 1 of post 1, and the one that waits gets it.
    let fe = vec![[FE, 2, 0, 1]];
    assert_eq!(b.put(&frame(AM, 0, 1, 2)), Ok(fe));
    assert_eq!(tracks_told(&b), [1, 2, 1]);
    assert_eq!(b.state.train[2].track, 2);
    assert_eq!(b.state.train[2].standing, Standing::Running(1));
}

/// Several authorities in one answer, to one post: each has a track of its own.
#[test]
fn tracks_of_one_answer() {
    let mut b = Box::open(&book(&[2, 3, 2], &[(0, 2), (2, 0), (1, 2)]));
    b.table.fill(0);
    b.put(&frame(FA, 0, 0, 1)).unwrap();
    b.put(&frame(FA, 1, 2, 1)).unwrap();
    b.table.fill(255);
    let sent = [[FE, 0, 0, 1], [FE, 1, 2, 1], [AFE, 2, 1, 2]];
    assert_eq!(b.put(&frame(FA, 2, 1, 2)), Ok(sent.to_vec()));
    // Train 2 has track 1 there.
    assert_eq!(tracks_told(&b), [2, 3]);
}

/// Two trains end at one track: each leaves it for the siding, and has none then.
#[test]
fn one_put_away_has_no_track() {
    let mut b = Box::open(&TWO_IN);
    assert_eq!(tracks_of(&b.state), [1, 2]);
    assert_eq!(b.put(&frame(FA, 0, 0, 1)), Ok(vec![[FE, 0, 0, 1]]));
    assert_eq!(b.put(&frame(FA, 1, 0, 1)), Ok(vec![[AFE, 1, 0, 1]]));
    assert_eq!(b.put(&frame(AM, 0, 0, 1)), Ok(vec![[FE, 1, 0, 1]]));
    assert_eq!(tracks_of(&b.state), [0, 2]);
    assert_eq!(b.put(&frame(AM, 1, 0, 1)), Ok(vec![]));
    assert_eq!(tracks_told(&b), [1, 1]);
    assert_eq!(tracks_of(&b.state), [0, 0]);
}

type Change = fn(&mut State);

/// Whether a state of X, with train 0 at post 1 on track 1 and train 1 Running there to track 2,
/// is still sound with this change.
const CHANGES: [(bool, Change); 16] = [
    (true, |_| ()),
    (false, |s| s.train[0].track = 0),
    (false, |s| s.train[0].track = 2), // the other's
    (false, |s| s.train[0].track = 3),
    (false, |s| s.train[0].track = 255),
    (false, |s| s.train[1].track = 0),
    (false, |s| s.train[1].track = 2),
    (false, |s| s.train[1].standing = Standing::Running(0)),
    (false, |s| s.train[1].standing = Standing::Running(1)), // the other's
    (false, |s| s.train[1].standing = Standing::Running(3)),
    // Any two that differ.
    (true, |s| {
        s.train[0].track = 2;
        s.train[1].standing = Standing::Running(1);
    }),
    // Both at post 1.
    (true, |s| s.train[1] = standing_at_1(s.train[1], 2)),
    (false, |s| s.train[1] = standing_at_1(s.train[1], 1)),
    (false, |s| s.train[1] = standing_at_1(s.train[1], 0)),
    // Places from T on are not read.
    (true, |s| s.train[2].track = 1),
    (true, |s| {
        let ghost = standing_at_1(s.train[1], 200);
        s.train[2..].fill(ghost);
        s.train[5].standing = Standing::Running(0);
    }),
];

fn standing_at_1(train: Train, track: u8) -> Train {
    let mut at_1 = Train {
        track,
        standing: Standing::Free,
        ..train
    };
    bring(&mut at_1, 1);
    at_1
}

#[test]
fn sound_states_with_tracks() {
    for (number, (expected, change)) in CHANGES.iter().enumerate() {
        let mut b = Box::open(&X);
        goes(&mut b, 0, 0, 1);
        b.put(&frame(FA, 1, 2, 1)).unwrap();
        change(&mut b.state);
        assert_eq!(sound(&b.state), *expected, "change {number}: {:?}", b.state);
        let strange = b.put(&frame(FA, 2, 0, 1)) == Err(1);
        assert_eq!(strange, !expected);
    }
}

/// One put away has track 0 and no other; one that stands at its end without a siding has one.
#[test]
fn sound_states_with_put_away_trains() {
    for sidings in [0, 2] {
        for track in 0..=3 {
            let mut b = Box::open(&book_of(&[2, 2], Some(sidings), &[(0, 1), (0, 1)]));
            goes(&mut b, 0, 0, 1);
            b.state.train[0].track = track;
            let expected = match sidings {
                0 => track == 1 || track == 2,
                _ => track == 0,
            };
            assert_eq!(sound(&b.state), expected, "{:?}", b.state);
        }
    }
}

/// Tracks in places that are not read neither change an answer nor are changed.
#[test]
fn unread_tracks() {
    let mut clean = Box::open(&X);
    let mut odd = Box::open(&X);
    for (t, place) in odd.state.train.iter_mut().enumerate().skip(2) {
        place.track = t as u8;
        place.standing = Standing::Running(200);
    }
    let places = odd.state.train;
    for f in [
        frame(FA, 0, 0, 1),
        frame(FA, 1, 2, 1),
        frame(AM, 0, 0, 1),
        frame(AM, 1, 2, 1),
    ] {
        assert_eq!(clean.put(&f), odd.put(&f));
        assert_eq!(clean.journal, odd.journal);
        assert_eq!(clean.state.train[..2], odd.state.train[..2]);
        assert_eq!(odd.state.train[2..], places[2..]);
    }
}

/// The free-track test over all ways in which tracks of a post can be held.
#[test]
fn the_free_track_is_the_first_or_the_last_unheld() {
    for count in 1..=4u8 {
        for held in 0..1 << count {
            let is_held = |track: &u8| held >> (track - 1) & 1 == 1;
            let mut s = Box::open(&book(&[count, 1], &[(0, 0)])).state;
            s.trains = 0;
            for track in (1..=count).filter(is_held) {
                s.train[usize::from(s.trains)].track = track;
                s.trains += 1;
            }
            let unheld: Vec<u8> = (1..=count).filter(|track| !is_held(track)).collect();
            assert_eq!(s.free_track(0, true), unheld.first().copied());
            assert_eq!(s.free_track(0, false), unheld.last().copied());
        }
    }
    assert_eq!(State::EMPTY.free_track(0, true), None);
    assert_eq!(State::EMPTY.free_track(255, false), None);
}

/// What runs showed of tracks.
#[derive(Debug, Default)]
struct Shown {
    /// Authorities to each track, by its number.
    given: [u32; 5],
    up_past_the_first: u32,
    down_before_the_last: u32,
    taken_again: u32,
}

impl Shown {
    fn count(&mut self, run: &Run) {
        let mut taken = HashSet::new();
        for fe in &run.authorities {
            let t = usize::from(fe.train);
            let last = run.tally.tracks[usize::from(fe.to)];
            let up = run.tally.ends[t] > run.tally.starts[t];
            self.given[usize::from(fe.track)] += 1;
            self.up_past_the_first += u32::from(up && fe.track > 1);
            self.down_before_the_last += u32::from(!up && fe.track < last);
            self.taken_again += u32::from(!taken.insert((fe.to, fe.track)));
        }
    }
}

/// Over random lists of frames, half of them with tables altered at will: what is checked after
/// each frame (`Run::check`) has the clause on tracks, told by the tally, that the free-track test
/// finds one exactly where fewer trains hold the post than it has tracks, and that the state is
/// sound.
#[test]
fn no_track_has_two_trains() {
    let mut rng = Rng(0x7AC);
    let mut shown = Shown::default();
    for round in 0..1500 {
        let mut run = Run::open(&mut rng);
        if round % 2 == 1 {
            run.right_table = false;
            run.table.fill(255);
        }
        for _ in 0..rng.below(150) {
            let f = run.random_frame(&mut rng);
            let mut out = Run::random_out(&mut rng);
            run.put(&f, &mut out);
        }
        shown.count(&run);
    }
    assert_eq!(shown.given[0], 0);
    assert!(shown.given[1..].iter().all(|n| *n > 200), "{shown:?}");
    assert!(shown.up_past_the_first > 500, "{shown:?}");
    assert!(shown.down_before_the_last > 500, "{shown:?}");
    assert!(shown.taken_again > 500, "{shown:?}");
}
