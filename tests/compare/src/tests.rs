//! The comparison can fail: whatever one side answers or writes otherwise is seen.

use crate::asked::About;
use crate::cases::{CodeCase, SidingCase, TrackCase};
use crate::counts::{Counts, Entry};
use crate::lent::Lent;
use crate::model_ends::Model;
use crate::pair::{Pair, Reply};
use crate::questions::Question;
use crate::reports::Report;
use crate::state_moves::bring;
use crate::wrong_boxes::ENOUGH;
use crate::{
    all, channel_alone, codes, reports_alone, sidings, state_tracks, states, tracks, Options,
};
use boundary::Ends;
use inputs::books::{book, book_2, book_3, X};
use inputs::crews;
use inputs::encoding::{put_records, state_bytes, state_of, POST};
use inputs::frames::{frame, AFE, AM, FA, FE};
use inputs::random::Random;
use inputs::sizes::JOURNAL_BYTES;
use model::{Record, Standing, State, Verdict};
use std::cell::Cell;

/// The model's verdict as the C interface tells it.
pub fn reply_of(verdict: Verdict) -> Reply {
    match verdict {
        Verdict::Refused(refusal) => Reply { refusal, sent: 0 },
        Verdict::Sent(sent) => Reply { refusal: 0, sent },
    }
}

/// Where the altered bit is: in the result or in the buffer of this place among the written ones.
#[derive(Debug, Clone, Copy, PartialEq)]
enum Place {
    Result,
    Buffer(usize),
}

/// The model, except that one bit is altered after the call of this number of one entry point.
struct Altered {
    entry: Entry,
    place: Place,
    last_byte: bool,
    calls_left: Cell<u32>,
}

impl Altered {
    fn settle(&self, entry: Entry, result: u32, buffers: &mut [&mut [u8]]) -> u32 {
        if entry != self.entry {
            return result;
        }
        let left = self.calls_left.get();
        self.calls_left.set(left.wrapping_sub(1));
        match self.place {
            _ if left != 0 => result,
            Place::Result => result ^ 1,
            Place::Buffer(n) => {
                let bytes = &mut buffers[n];
                let at = if self.last_byte {
                    bytes.len().saturating_sub(1)
                } else {
                    0
                };
                match bytes.get_mut(at) {
                    Some(byte) => *byte ^= 128,
                    // An empty buffer has no byte to alter: the next call must do.
                    None => self.calls_left.set(0),
                }
                result
            }
        }
    }
}

impl Ends for Altered {
    fn read_book(&self, book: &[u8], line: &mut [u8]) -> u32 {
        let result = Model.read_book(book, line);
        self.settle(Entry::ReadBook, result, &mut [line])
    }

    fn open(&self, book: &[u8], state: &mut [u8], table: &mut [u8], journal: &[u8]) -> u32 {
        let result = Model.open(book, state, table, journal);
        self.settle(Entry::Open, result, &mut [state, table])
    }

    fn answer(
        &self,
        state: &mut [u8],
        table: &[u8],
        journal: &mut [u8],
        frame: &[u8],
        out: &mut [u8],
    ) -> u32 {
        let result = Model.answer(state, table, journal, frame, out);
        self.settle(Entry::Answer, result, &mut [state, journal, out])
    }

    fn running_time(&self, book: &[u8], from: u8, to: u8, speed: u32, time: &mut [u8]) -> u32 {
        let result = Model.running_time(book, from, to, speed, time);
        self.settle(Entry::RunningTime, result, &mut [time])
    }

    fn locate(&self, book: &[u8], kind: u8, post: u8, metres: f32, place: &mut [u8]) -> u32 {
        let result = Model.locate(book, kind, post, metres, place);
        self.settle(Entry::Locate, result, &mut [place])
    }

    fn make_unit(&self, train: u8, start: u8, end: u8, unit: &mut [u8]) -> u32 {
        let result = Model.make_unit(train, start, end, unit);
        self.settle(Entry::MakeUnit, result, &mut [unit])
    }

    fn press(&self, unit: &mut [u8], button: u8, frame: &mut [u8]) -> u32 {
        let result = Model.press(unit, button, frame);
        self.settle(Entry::Press, result, &mut [unit, frame])
    }

    fn hear(&self, unit: &mut [u8], frame: &[u8]) -> u32 {
        let result = Model.hear(unit, frame);
        self.settle(Entry::Hear, result, &mut [unit])
    }
}

/// A run that is too short to reach everything.
const SHORT: Options = Options {
    seed: 3,
    frames: 500,
    reports: None,
    events: None,
};

/// The entry points, each with the number of buffers that it may write to.
const WRITTEN: [(Entry, usize); 8] = [
    (Entry::ReadBook, 1),
    (Entry::Open, 2),
    (Entry::Answer, 3),
    (Entry::RunningTime, 1),
    (Entry::Locate, 1),
    (Entry::MakeUnit, 1),
    (Entry::Press, 2),
    (Entry::Hear, 1),
];

fn seen(entry: Entry, place: Place, last_byte: bool) -> bool {
    let altered = Altered {
        entry,
        place,
        last_byte,
        calls_left: Cell::new(3),
    };
    let mut pair = Pair::new(Box::new(altered), Box::new(Model));
    all(&mut pair, &SHORT).is_err()
}

#[test]
fn one_altered_bit_is_seen() {
    for (entry, buffers) in WRITTEN {
        assert!(seen(entry, Place::Result, false), "{entry:?}, result");
        for n in 0..buffers {
            for last_byte in [false, true] {
                assert!(
                    seen(entry, Place::Buffer(n), last_byte),
                    "{entry:?}, buffer {n}"
                );
            }
        }
    }
}

/// Of a running time and of a place that is told and of one that is refused, around the book and around the answer.
#[test]
fn a_byte_outside_the_buffers_of_an_answer_is_seen() {
    let random = &mut Random::new(1);
    let line = book_3(&[1, 1], 0, &[0, 1000], &[[0, 1]]);
    let mut asked = |about: About, beside: Option<(bool, bool)>| {
        let mut pair = Pair::new(Box::new(Model), Box::new(Model));
        let mut book = Lent::new(&line, random);
        let mut answer = Lent::random(about.bytes(), random);
        match beside {
            Some((true, behind)) => book.write_outside(behind),
            Some((false, behind)) => answer.write_outside(behind),
            None => {}
        }
        pair.ask(&book, about, &mut answer)
    };
    let at = |speed| {
        let (from, to) = (0, 1);
        About::Time(Question { from, to, speed })
    };
    let post = |post| {
        let (kind, bits) = (POST, 0);
        About::Place(Report { kind, post, bits })
    };
    for (about, refusal) in [(at(60), 0), (at(0), 28), (post(1), 0), (post(2), 9)] {
        let reply = Reply { refusal, sent: 0 };
        assert_eq!(asked(about, None).ok(), Some(reply));
        for beside in [(true, true), (true, false), (false, true), (false, false)] {
            let seen = asked(about, Some(beside)).unwrap_err().0;
            assert!(seen.contains("outside"), "{seen}");
        }
    }
}

#[test]
fn the_model_agrees_with_itself() {
    let mut pair = Pair::new(Box::new(Model), Box::new(Model));
    assert!(all(&mut pair, &SHORT).is_ok());
}

/// Some of what a run without a frame does not reach.
const OF_FRAMES: [&str; 28] = [
    "answer never answered 12",
    "answer never answered 26",
    "read_book never answered 27",
    "open never answered 27",
    "running_time never answered 0",
    "running_time never answered 28",
    "locate never answered 0",
    "locate never answered 29",
    "never 6 frames sent",
    "status of a train: Running never reached",
    "case of sidings: a train put away never reached",
    "case of tracks: authority to track 4 never reached",
    "case of codes: authority by the largest code, 262,143 never reached",
    "case of local runs: LB, several trains granted never reached",
    "case of running times: over 8,388,607 metres never reached",
    "case of the order of checks for them: 23 before 27 never reached",
    "case of place reports: minus zero never reached",
    "case of the order of checks for those: 18 before 29 never reached",
    "case of repeats: FE again, it would be declined now never reached",
    "case of last moves: a strange state, backwards never reached",
    "case of the journal's count: 236 left, LB and six FE never reached",
    "case of the journal's count: 228 in a run never reached",
    "case of the channel: AM taken a second time never reached",
    "case of the channel: two units Under way, sections apart never reached",
    "input: run: of a book of edition 3 never reached",
    "input: run: over bad radio, all home never reached",
    "input: channel: a run until all are home never reached",
    "input: table: all ones never reached",
];

/// Too short a run is not taken for a good one.
#[test]
fn what_is_never_reached_fails() {
    let mut pair = Pair::new(Box::new(Model), Box::new(Model));
    let no_frame = Options { frames: 0, ..SHORT };
    assert!(all(&mut pair, &no_frame).is_ok());
    let failings = pair.counts.failings();
    for due in OF_FRAMES {
        assert!(failings.contains(&due.to_string()), "{failings:?}");
    }
    let none_heard = Counts::new().failings();
    let never_pressed = "case of Again: AM, Standing at the end never reached".to_string();
    assert!(none_heard.contains(&never_pressed) && !failings.contains(&never_pressed));
    for kind in ["LA", "LE", "LB"] {
        let due = format!("{kind} heard by a unit: Arrived never reached");
        assert!(none_heard.contains(&due), "{none_heard:?}");
        assert!(!failings.contains(&due), "{failings:?}");
    }
}

/// The names of what is due for the journal's count have one of these.
const OF_COUNTS: [&str; 3] = [
    "count",
    "run: many go at once near the most",
    "run: each request declined at first",
];

/// Within the frames of a wrong box each case of the journal's count is reached, and each kind of input for it.
#[test]
fn counts_near_the_most_and_above_it_are_reached() {
    let missing = |failings: &[String], words: &str| {
        let missing = failings.iter().find(|failing| failing.contains(words));
        missing.cloned()
    };
    let mut pair = Pair::new(Box::new(Model), Box::new(Model));
    assert!(all(&mut pair, &ENOUGH).is_ok());
    for words in OF_COUNTS {
        assert!(missing(&Counts::new().failings(), words).is_some());
        assert_eq!(missing(&pair.counts.failings(), words), None);
    }
}

/// A run of place reports alone is to reach what is due for them, and that only.
#[test]
fn reports_alone_reach_all_that_is_due_for_them() {
    let mut pair = Pair::new(Box::new(Model), Box::new(Model));
    let failings = pair.counts.failings_of_reports();
    for due in [
        "locate never answered 29",
        "case of place reports: 29, infinity never reached",
        "case of the order of checks for those: 23 before 27 never reached",
    ] {
        assert!(failings.contains(&due.to_string()), "{failings:?}");
    }
    assert!(reports_alone(&mut pair, 3, 200_000).is_ok());
    assert_eq!(pair.counts.failings_of_reports(), Vec::<String>::new());
    assert!(pair.counts.refusal(Entry::Locate, 28));
    let wrong = ["locate answered 28".to_string()];
    assert_eq!(pair.counts.failings_of_reports(), wrong);
}

/// So it is with events over a channel alone, and 60,000 of them are enough.
#[test]
fn events_alone_reach_all_that_is_due_for_them() {
    let mut pair = Pair::new(Box::new(Model), Box::new(Model));
    let failings = pair.counts.failings_of_channel();
    for due in [
        "case of the channel: AM after the next FA, which was 9 never reached",
        "case of the channel: an FE never delivered never reached",
        "input: channel: a longer table never reached",
    ] {
        assert!(failings.contains(&due.to_string()), "{failings:?}");
    }
    assert!(!failings.iter().any(|failing| failing.contains("radio")));
    assert!(channel_alone(&mut pair, 3, 60_000).is_ok());
    assert_eq!(pair.counts.failings_of_channel(), Vec::<String>::new());
    assert_eq!(pair.counts.frames(), 0);
}

/// "Refusals 10 and 11 go", and 13 is removed: a box that gives one fails, also where both sides agree.
#[test]
fn numbers_that_are_gone_fail() {
    for number in [10, 11, 13] {
        let mut counts = Counts::new();
        let answered = format!("answer answered {number}");
        let due = format!("answer never answered {number}");
        assert!(!counts
            .failings()
            .iter()
            .any(|f| [&answered, &due].contains(&f)));
        assert!(counts.refusal(Entry::Answer, number));
        assert!(counts.failings().contains(&answered));
    }
}

#[test]
fn states_valid_by_construction_are_sound_and_come_back_from_their_bytes() {
    let random = &mut Random::new(5);
    let mut by_sidings = 0;
    let mut with_gangs = 0;
    for _ in 0..200_000 {
        let state = states::valid(&[], random);
        assert!(model::sound(&state), "{state:?}");
        assert_eq!(state_of(&state_bytes(&state)), Some(state));
        let without = State {
            sidings: 0,
            ..state
        };
        by_sidings += u32::from(!model::sound(&state_tracks::set_right(without)));
        with_gangs += u32::from((0..7).any(|section| state.gang_holds(section)));
    }
    assert!(by_sidings > 10_000, "{by_sidings}");
    assert!(with_gangs > 50_000, "{with_gangs}");
}

#[test]
fn what_sidings_bring_about_is_told() {
    let swap = [[0, 1], [1, 0]];
    let parked = [[1, 1], [1, 1], [0, 1]];
    for (book, refusal, case) in [
        (
            book_2(&[2, 1], 2, &[[0, 1], [0, 1]]),
            0,
            Some(SidingCase::WayFits),
        ),
        (book_2(&[1, 1], 2, &parked), 0, Some(SidingCase::StartFits)),
        (book_2(&[1, 1], 2, &swap), 20, Some(SidingCase::TrackBefore)),
        (book_2(&[1, 1], 0, &swap), 20, None),
        (book(&[1, 1], &swap), 20, None),
        (book_2(&[2, 2], 3, &swap), 0, None),
        (X.to_vec(), 0, None),
    ] {
        assert_eq!(sidings::of_opening(&book, refusal), case, "{book:?}");
    }
}

/// X after the opening, with train 0 at post 1 and train 1 under way to it.
fn x_with_both_at_post_1() -> State {
    let mut state = crews::open(&X).unwrap().state;
    bring(&mut state.train[0], 1);
    state.train[1].standing = Standing::Running(2);
    state
}

#[test]
fn the_one_wrong_track_of_a_strange_state_is_told() {
    type Change = fn(&mut State);
    let changes: [(Option<TrackCase>, Change); 11] = [
        (None, |_| ()),
        (Some(TrackCase::OnNone), |s| s.train[0].track = 0),
        (Some(TrackCase::OnOneAbove), |s| s.train[0].track = 3),
        (Some(TrackCase::ToNone), |s| {
            s.train[1].standing = Standing::Running(0)
        }),
        (Some(TrackCase::ToOneAbove), |s| {
            s.train[1].standing = Standing::Running(3)
        }),
        (Some(TrackCase::ToAnothers), |s| {
            s.train[1].standing = Standing::Running(1)
        }),
        (Some(TrackCase::ToAnothers), |s| s.train[0].track = 2),
        (Some(TrackCase::OnAnothers), |s| {
            bring(&mut s.train[1], 1);
            s.train[1].standing = Standing::Free;
        }),
        (Some(TrackCase::OnOnePutAway), |s| {
            s.sidings = 4;
            bring(&mut s.train[0], 2);
        }),
        // Two wrong tracks, and a state that right tracks would not make sound.
        (None, |s| (s.train[0].track, s.train[1].track) = (0, 0)),
        (None, |s| (s.train[0].track, s.journal) = (0, 230)),
    ];
    for (number, (case, change)) in changes.into_iter().enumerate() {
        let mut state = x_with_both_at_post_1();
        change(&mut state);
        let told = tracks::of_strange(&state_bytes(&state));
        assert_eq!(told, case, "change {number}: {state:?}");
        assert_eq!(model::sound(&state), number == 0);
    }
}

#[test]
fn tracks_at_opening_are_told() {
    let told = |book: &[u8]| tracks::of_opening(&state_bytes(&crews::open(book).unwrap().state));
    assert_eq!(told(&X), []);
    let two = book(&[2, 1], &[[0, 0], [0, 1]]);
    assert_eq!(
        told(&two),
        [TrackCase::OpenedParked, TrackCase::OpenedApart]
    );
    let away = book_2(&[2, 1], 1, &[[0, 0], [0, 1]]);
    assert_eq!(told(&away), [TrackCase::OpenedPutAway]);
}

/// Train 0 leaves track 1 of post 1, the last for it, and train 2 gets that after train 1 got track 2.
#[test]
fn tracks_of_an_answer_are_told() {
    let line = book_2(&[2, 2, 1], 4, &[[1, 2], [2, 0], [0, 2]]);
    let mut before = crews::open(&line).unwrap().state;
    before.train[0].standing = Standing::Running(1);
    before.train[4].track = 7;
    let mut after = before;
    (after.train[0].at, after.train[0].track) = (2, 0);
    after.train[0].standing = Standing::Free;
    after.journal = 3;
    let record = |kind, train, from, to, track| Record {
        kind,
        train,
        from,
        to,
        track,
    };
    let logged = [
        record(AM, 0, 1, 2, 0),
        record(FE, 1, 2, 1, 2),
        record(FE, 2, 0, 1, 1),
        record(FA, 9, 9, 9, 9),
    ];
    let mut journal = [0; JOURNAL_BYTES];
    put_records(&logged, &mut journal);
    let told = tracks::of_answer(&state_bytes(&before), &state_bytes(&after), &journal);
    let expected = [
        TrackCase::FreedAndTaken,
        TrackCase::PutAway,
        TrackCase::Second,
        TrackCase::First,
        TrackCase::TwoAtOnce,
        TrackCase::Unread,
    ];
    assert_eq!(told, expected);
}

/// Six trains that go all the way, and so many posts travelled by each; the last of them is Running, one post short of that.
#[test]
fn codes_of_an_answer_are_told() {
    let line = book(&[4; 8], &[[0, 7], [7, 0], [0, 7], [7, 0], [0, 7], [7, 0]]);
    let opened = crews::open(&line).unwrap().state;
    let told = |travelled: [u8; 6], kind| {
        let mut state = opened;
        for (train, posts) in state.train.iter_mut().zip(travelled) {
            train.at = if train.is_up() { posts } else { 7 - posts };
        }
        let to = state.train[5].at;
        (state.train[5].at, state.train[5].standing) = (to + 1, Standing::Running(1));
        codes::of_answer(&state_bytes(&state), &frame(kind, 5, to + 1, to))
    };
    assert_eq!(told([7; 6], FE), Some(CodeCase::Largest));
    assert_eq!(told([6, 7, 7, 7, 7, 7], FE), Some(CodeCase::Past16Bits));
    assert_eq!(told([0, 0, 0, 0, 0, 2], FE), Some(CodeCase::Past16Bits));
    assert_eq!(told([7, 7, 7, 7, 7, 1], FE), Some(CodeCase::In16Bits));
    assert_eq!(told([7; 6], AFE), None);
}
