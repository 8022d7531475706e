//! Cab and desk taken together (02, card 9): both ends and the frames sent, worked by hand, and
//! what is a fault and what is none. A test or more for each sentence of the card. Random runs,
//! every list on small lines and wrong ends are in `channel.rs`.

use crate::common::*;
use crate::local_runs::{gang, Came};
use crate::repeats::NOTHING;
use model::*;
use std::collections::HashMap;
use std::mem::discriminant;

/// Both ends opened from one book. Frames are named by their bytes, and after every event there is
/// no fault.
struct Pair(Together);

impl Pair {
    fn open(book: &[u8]) -> Pair {
        let pair = Pair(Together::open(book).expect("a book that opens"));
        assert_eq!(pair.0.fault(), None);
        assert!(pair.0.sent.is_empty());
        pair
    }

    /// The frames sent, from this one on: kind, train, from, to.
    fn sent_from(&self, first: usize) -> Vec<[u8; 4]> {
        let told = |f: &[u8; FRAME_BYTES]| [f[3], f[4], f[5], f[6]];
        self.0.sent[first..].iter().map(told).collect()
    }

    /// The number of the frame with these bytes that was sent last.
    fn number(&self, f: [u8; FRAME_BYTES]) -> usize {
        let at = self.0.sent.iter().rposition(|sent| *sent == f);
        at.expect("a frame that was sent")
    }

    /// The frames sent from this one on, or the refusal.
    fn came(&self, verdict: Option<Verdict>, first: usize) -> Came {
        assert_eq!(self.0.fault(), None);
        let answers = self.sent_from(first);
        match verdict.expect("an event") {
            Verdict::Refused(number) => {
                assert_eq!(answers, [[0; 4]; 0]);
                Err(number)
            }
            Verdict::Sent(count) => {
                assert_eq!(answers.len(), count);
                Ok(answers)
            }
        }
    }

    /// The frame sent at a press, or the refusal.
    fn press(&mut self, unit: usize, button: Button) -> Came {
        let first = self.0.sent.len();
        let refusal = self.0.press(unit, button).expect("a unit");
        assert_eq!(self.0.fault(), None);
        let sent = self.sent_from(first);
        if refusal == 0 {
            return Ok(sent);
        }
        assert_eq!(sent, [[0; 4]; 0]);
        Err(refusal)
    }

    fn at_box(&mut self, f: [u8; FRAME_BYTES]) -> Came {
        let first = self.0.sent.len();
        let verdict = self.0.to_box(self.number(f), &mut [0xEE; OUT_BYTES]);
        self.came(verdict, first)
    }

    /// The refusal or 0, and what the unit is in then.
    fn at_unit(&mut self, f: [u8; FRAME_BYTES], unit: usize) -> (u8, UnitState) {
        let refusal = self.0.to_unit(self.number(f), unit).expect("a unit");
        assert_eq!(self.0.fault(), None);
        (refusal, self.0.units[unit].state)
    }

    /// What comes of an LA or LB besides that it is sent.
    fn local(&mut self, f: [u8; FRAME_BYTES]) -> Came {
        let first = self.0.sent.len();
        let verdict = self.0.local(&f, &mut [0xEE; OUT_BYTES]);
        assert_eq!(self.0.sent[first], f);
        self.came(verdict, first + 1)
    }

    /// A unit asks and hears that it is granted at once; gives the move's train and posts.
    fn asks(&mut self, unit: usize) -> [u8; 3] {
        let fa = self.press(unit, Button::Ask).expect("an FA")[0];
        let [_, train, from, to] = fa;
        let answers = self.at_box(frame(FA, train, from, to));
        assert_eq!(answers, Ok(vec![[FE, train, from, to]]));
        let heard = self.at_unit(frame(FE, train, from, to), unit);
        assert_eq!(heard, (0, UnitState::Granted));
        [train, from, to]
    }

    /// From Granted to Standing at the next post; gives the AM, which is not delivered.
    fn runs(&mut self, unit: usize) -> [u8; FRAME_BYTES] {
        assert_eq!(self.press(unit, Button::Depart), NOTHING);
        assert_eq!(self.press(unit, Button::Reached), NOTHING);
        let am = self.press(unit, Button::Report).expect("an AM")[0];
        assert_eq!(am[0], AM);
        frame(am[0], am[1], am[2], am[3])
    }

    /// The unit's post and what it is in.
    fn unit(&self, unit: usize) -> (u8, UnitState) {
        (self.0.units[unit].at, self.0.units[unit].state)
    }

    /// The train's post and standing at the box.
    fn train(&self, t: usize) -> (u8, Standing) {
        (self.0.state.train[t].at, self.0.state.train[t].standing)
    }
}

// "Take a dispatcher and one unit per train, opened from one book"

/// The box as the book opens it, and a unit for each train with its number, start and end.
#[test]
fn opened_from_one_book() {
    let longest: Vec<(u8, u8)> = (0..6).map(|t| (t, t + 1)).collect();
    let books = [
        X.to_vec(),
        Y.to_vec(),
        book_of(&[2, 1], Some(2), &[(0, 1), (0, 1), (1, 1)]),
        book_with_positions(&[4; 8], 0, &[0, 1, 2, 3, 4, 5, 6, 7], &longest),
    ];
    for book in books {
        let pair = Pair::open(&book).0;
        let ((state, _), table) = opened(&book);
        assert!(pair.state == state && pair.table == table);
        assert_eq!(pair.journal, [Record::BLANK; JOURNAL_RECORDS]);
        let line = read_book(&book).unwrap();
        let made = |t: u8| {
            let [start, end] = [line.starts, line.ends].map(|posts| posts[usize::from(t)]);
            unit::make(t, start, end)
        };
        let units: Vec<(Unit, u8)> = pair.units.iter().map(|u| (*u, 0)).collect();
        let due: Vec<(Unit, u8)> = (0..line.trains).map(made).collect();
        assert_eq!(units, due);
    }
}

#[test]
fn a_refused_book() {
    let jammed = book(&[1, 1, 1], &[(0, 2), (2, 0)]);
    let overfull = book(&[1, 2, 1], &[(0, 2), (0, 0)]);
    let off = book(&[1, 2, 1], &[(0, 3)]);
    let sidings = book_of(&[1, 2, 1], Some(8), &[(0, 2)]);
    let positions = book_with_positions(&[1, 1], 0, &[1, 2], &[(0, 1)]);
    for (book, number) in [
        (jammed, 20),
        (overfull, 19),
        (off, 18),
        (sidings, 23),
        (positions, 27),
        (book(&[1, 2, 1], &[]), 17),
        (vec![], 14),
        (X[..11].to_vec(), 14),
    ] {
        assert_eq!(refusal_of(&book), number);
        assert_eq!(Together::open(&book).err(), Some(number));
    }
}

/// A parked train has a unit too: it hears of others, and no press of it sends anything.
#[test]
fn the_unit_of_a_parked_train() {
    let mut pair = Pair::open(&book(&[2, 1], &[(0, 0), (0, 1)]));
    assert_eq!(pair.0.units.len(), 2);
    assert_eq!(pair.press(0, Button::Ask), Err(8));
    for button in &BUTTONS[1..] {
        assert_eq!(pair.press(0, *button), Err(21));
    }
    pair.asks(1);
    let stands = (0, UnitState::Standing);
    assert_eq!(pair.at_unit(frame(FE, 1, 0, 1), 0), stands);
    let am = pair.runs(1);
    assert_eq!(pair.at_unit(am, 0), (6, UnitState::Standing));
    assert_eq!(pair.at_box(am), NOTHING);
    assert_eq!((pair.unit(0), pair.train(0)), (stands, (0, Standing::Free)));
}

// "a channel that may lose, repeat, delay or reorder frames but delivers only frames sent"

/// The FA comes twice, and the FE of each to the unit.
#[test]
fn a_request_that_comes_twice() {
    let mut pair = Together::open(&X).unwrap();
    assert_eq!(pair.press(0, Button::Ask), Some(0));
    for _ in 0..2 {
        let verdict = pair.to_box(0, &mut [0; OUT_BYTES]);
        assert_eq!(verdict, Some(Verdict::Sent(1)));
    }
    let [fa, fe] = [FA, FE].map(|kind| frame(kind, 0, 0, 1));
    assert_eq!(pair.sent, [fa, fe, fe]);
    assert_eq!(pair.to_unit(1, 0), Some(0));
    assert_eq!(pair.units[0].state, UnitState::Granted);
    assert_eq!(pair.to_unit(2, 0), Some(22));
    assert_eq!(pair.units[0].state, UnitState::Granted);
    assert_eq!(pair.fault(), None);
}

/// The AM comes only after the FA of the next move, which is refused until then.
#[test]
fn an_arrival_that_comes_late() {
    let mut pair = Pair::open(&X);
    pair.asks(0);
    let am = pair.runs(0);
    assert_eq!(pair.press(0, Button::Ask), Ok(vec![[FA, 0, 1, 2]]));
    let fa = frame(FA, 0, 1, 2);
    assert_eq!(pair.at_box(fa), Err(9));
    assert_eq!(pair.train(0), (0, Standing::Running(1)));
    assert_eq!(pair.unit(0), (1, UnitState::Asked));
    assert_eq!(pair.at_box(am), NOTHING);
    assert_eq!(pair.train(0), (1, Standing::Free));
    // Train 1 stands on the only track of post 2.
    assert_eq!(pair.at_box(fa), Ok(vec![[AFE, 0, 1, 2]]));
    assert_eq!(pair.train(0), (1, Standing::Asked(3)));
}

/// To the box the train is Running, but its unit stands at the post run to: no one else is let in.
#[test]
fn while_the_arrival_is_not_there() {
    let mut pair = Pair::open(&book(&[2, 2], &[(0, 1), (1, 0)]));
    pair.asks(0);
    let am = pair.runs(0);
    assert_eq!(pair.unit(0), (1, UnitState::Standing));
    assert_eq!(pair.press(1, Button::Ask), Ok(vec![[FA, 1, 1, 0]]));
    let fa = frame(FA, 1, 1, 0);
    assert_eq!(pair.at_box(fa), Ok(vec![[AFE, 1, 1, 0]]));
    assert_eq!(pair.local(gang(LA, 0)), Err(24));
    assert_eq!(pair.at_box(am), Ok(vec![[FE, 1, 1, 0]]));
    let fe = frame(FE, 1, 1, 0);
    assert_eq!(pair.at_unit(fe, 1), (0, UnitState::Granted));
}

/// An FA and an AM at a unit, an FE, an AFE and an LE at the box, also at whoever sent them, are 6.
#[test]
fn frames_at_the_wrong_end() {
    let mut pair = Pair::open(&X);
    pair.asks(0);
    for unit in [0, 1] {
        let before = pair.0.units[unit].state;
        assert_eq!(pair.at_unit(frame(FA, 0, 0, 1), unit), (6, before));
    }
    assert_eq!(pair.at_box(frame(FE, 0, 0, 1)), Err(6));
    pair.asks(1);
    // The FE of the other train changes nothing.
    let granted = (0, UnitState::Granted);
    assert_eq!(pair.at_unit(frame(FE, 1, 2, 1), 0), granted);
    assert_eq!(pair.unit(0), granted);
    let am = pair.runs(0);
    for unit in [0, 1] {
        let before = pair.0.units[unit].state;
        assert_eq!(pair.at_unit(am, unit), (6, before));
    }
    assert_eq!(pair.at_box(am), NOTHING);
    assert_eq!(pair.press(0, Button::Ask), Ok(vec![[FA, 0, 1, 2]]));
    assert_eq!(
        pair.at_box(frame(FA, 0, 1, 2)),
        Ok(vec![[AFE, 0, 1, 2]]),
        "train 1 is in the section"
    );
    assert_eq!(pair.at_box(frame(AFE, 0, 1, 2)), Err(6));
    assert_eq!(pair.local(gang(LA, 0)), Ok(vec![[LE, 255, 0, 1]]));
    assert_eq!(pair.at_box(gang(LE, 0)), Err(6));
}

/// An FE of a move that is over is not awaited, whatever the unit is in.
#[test]
fn an_authority_of_before() {
    let mut pair = Pair::open(&X);
    pair.asks(0);
    let am = pair.runs(0);
    let old = frame(FE, 0, 0, 1);
    assert_eq!(pair.at_unit(old, 0), (22, UnitState::Standing));
    assert_eq!(pair.at_box(am), NOTHING);
    assert_eq!(pair.press(0, Button::Ask), Ok(vec![[FA, 0, 1, 2]]));
    assert_eq!(pair.at_unit(old, 0), (22, UnitState::Asked));
    assert_eq!(
        pair.at_box(frame(FA, 0, 1, 2)).map(|sent| sent.len()),
        Ok(1)
    );
    let afe = frame(AFE, 0, 1, 2);
    assert_eq!(pair.at_unit(afe, 0), (0, UnitState::Declined));
    assert_eq!(pair.at_unit(old, 0), (22, UnitState::Declined));
    assert_eq!(pair.unit(0), (1, UnitState::Declined));
}

/// An AFE that comes after the FE, or after its move, or twice, changes nothing.
#[test]
fn a_decline_of_before() {
    let mut pair = Pair::open(&X);
    assert_eq!(pair.local(gang(LA, 0)), Ok(vec![[LE, 255, 0, 1]]));
    pair.press(0, Button::Ask).unwrap();
    let [fa, fe, afe] = [FA, FE, AFE].map(|kind| frame(kind, 0, 0, 1));
    assert_eq!(pair.at_box(fa), Ok(vec![[AFE, 0, 0, 1]]));
    assert_eq!(pair.at_box(fa), Ok(vec![[AFE, 0, 0, 1]]));
    assert_eq!(pair.local(gang(LB, 0)), Ok(vec![[FE, 0, 0, 1]]));
    // The FE overtakes both.
    assert_eq!(pair.at_unit(fe, 0), (0, UnitState::Granted));
    assert_eq!(pair.at_unit(afe, 0), (0, UnitState::Granted));
    assert_eq!(pair.press(0, Button::Depart), NOTHING);
    assert_eq!(pair.at_unit(afe, 0), (0, UnitState::UnderWay));
    assert_eq!(pair.press(0, Button::Reached), NOTHING);
    assert_eq!(pair.at_unit(afe, 0), (0, UnitState::Arrived));
    assert_eq!(pair.press(0, Button::Report), Ok(vec![[AM, 0, 0, 1]]));
    assert_eq!(pair.press(0, Button::Ask), Ok(vec![[FA, 0, 1, 2]]));
    assert_eq!(pair.at_unit(afe, 0), (0, UnitState::Asked));
}

/// The AM comes twice, and after it the FA of the same move: neither starts anything.
#[test]
fn a_move_that_is_over() {
    let mut pair = Pair::open(&X);
    pair.asks(0);
    let am = pair.runs(0);
    assert_eq!(pair.at_box(am), NOTHING);
    let state = pair.0.state;
    assert_eq!(pair.at_box(am), NOTHING);
    assert_eq!(pair.at_box(frame(FA, 0, 0, 1)), Err(9));
    assert_eq!(pair.0.state, state);
    // While the next move is run too.
    pair.asks(1);
    let back = pair.runs(1);
    assert_eq!(pair.at_box(back), NOTHING);
    pair.asks(0);
    let state = pair.0.state;
    assert_eq!(pair.at_box(am), NOTHING);
    assert_eq!(pair.at_box(frame(FA, 0, 0, 1)), Err(9));
    assert_eq!(pair.0.state, state);
    let last = pair.runs(0);
    assert_eq!(pair.at_box(last), NOTHING);
    // The train is at its end: of its moves only the last is still taken.
    assert_eq!(pair.at_box(am), Err(8));
    assert_eq!(pair.at_box(last), NOTHING);
    assert_eq!(pair.at_box(frame(FA, 0, 1, 2)), Err(8));
}

/// One AM lets two trains go: both FEs are sent in order of writing, and heard in any.
#[test]
fn two_go_at_one_arrival() {
    let mut pair = Pair::open(&book(&[1, 2, 3], &[(1, 2), (0, 2), (1, 2)]));
    pair.asks(0);
    // Both tracks of post 1 are held, and the section after it is train 0's.
    for (unit, train, from, to) in [(1, 1, 0, 1), (2, 2, 1, 2)] {
        pair.press(unit, Button::Ask).unwrap();
        let declined = Ok(vec![[AFE, train, from, to]]);
        assert_eq!(pair.at_box(frame(FA, train, from, to)), declined);
    }
    let am = pair.runs(0);
    let sent = vec![[FE, 1, 0, 1], [FE, 2, 1, 2]];
    assert_eq!(pair.at_box(am), Ok(sent));
    let granted = (0, UnitState::Granted);
    assert_eq!(pair.at_unit(frame(FE, 2, 1, 2), 2), granted);
    assert_eq!(pair.at_unit(frame(FE, 1, 0, 1), 1), granted);
    pair.press(1, Button::Depart).unwrap();
    pair.press(2, Button::Depart).unwrap();
}

/// A frame that is never delivered changes nothing at the other end: Again sends it once more.
#[test]
fn a_frame_that_is_lost() {
    let mut pair = Pair::open(&X);
    let opened = pair.0.state;
    let fa = [FA, 0, 0, 1];
    assert_eq!(pair.press(0, Button::Ask), Ok(vec![fa]));
    assert_eq!(pair.0.state, opened);
    assert_eq!(pair.press(0, Button::Again), Ok(vec![fa]));
    assert_eq!(pair.sent_from(0), [fa, fa]);
    assert_eq!(pair.unit(0), (0, UnitState::Asked));
    assert_eq!(pair.press(0, Button::Depart), Err(21));
    assert_eq!(pair.at_box(frame(FA, 0, 0, 1)), Ok(vec![[FE, 0, 0, 1]]));
    assert_eq!(pair.unit(0), (0, UnitState::Asked));
}

/// What was never sent, and units that there are not: nothing happens.
#[test]
fn only_frames_sent() {
    let mut pair = Together::open(&X).unwrap();
    pair.press(0, Button::Ask);
    let (state, units) = (pair.state, pair.units.clone());
    let mut out = [0xEE; OUT_BYTES];
    for number in [1, 2, usize::MAX] {
        assert_eq!(pair.to_box(number, &mut out), None);
        assert_eq!(pair.to_unit(number, 0), None);
    }
    for unit in [2, 5, 6, usize::MAX] {
        for button in BUTTONS {
            assert_eq!(pair.press(unit, button), None);
        }
        assert_eq!(pair.to_unit(0, unit), None);
    }
    assert_eq!(out, [0xEE; OUT_BYTES]);
    assert_eq!((pair.state, pair.units), (state, units));
    assert_eq!(pair.sent, [frame(FA, 0, 0, 1)]);
}

/// A buffer that is too short: 2, nothing is sent, and the frame may still come.
#[test]
fn a_short_out_buffer() {
    let mut pair = Together::open(&X).unwrap();
    pair.press(0, Button::Ask);
    let opened = pair.state;
    for length in [0, 7, 41] {
        let mut out = vec![0xEE; length];
        assert_eq!(pair.to_box(0, &mut out), Some(Verdict::Refused(2)));
        assert_eq!(out, vec![0xEE; length]);
    }
    assert_eq!((pair.state, pair.sent.len()), (opened, 1));
    let verdict = pair.local(&gang(LA, 0), &mut [0; 41]);
    assert_eq!(verdict, Some(Verdict::Refused(2)));
    assert_eq!((pair.state, pair.sent.len()), (opened, 2));
    // That LA was sent all the same, and the buffer after it may be longer than it need be.
    let mut out = [0xEE; 50];
    assert_eq!(pair.to_box(1, &mut out), Some(Verdict::Sent(1)));
    assert_eq!(pair.sent[2..], [gang(LE, 0)]);
    assert_eq!(out[..7], gang(LE, 0));
    assert_eq!(out[7..], [0xEE; 43]);
}

// "LA and LB at the dispatcher"

/// A gang is in the section, and the train goes when it is back.
#[test]
fn a_gang_before_the_train() {
    let mut pair = Pair::open(&X);
    assert_eq!(pair.local(gang(LA, 0)), Ok(vec![[LE, 255, 0, 1]]));
    pair.press(0, Button::Ask).unwrap();
    let [fa, fe, afe] = [FA, FE, AFE].map(|kind| frame(kind, 0, 0, 1));
    assert_eq!(pair.at_box(fa), Ok(vec![[AFE, 0, 0, 1]]));
    assert_eq!(pair.at_unit(afe, 0), (0, UnitState::Declined));
    assert_eq!(pair.local(gang(LB, 0)), Ok(vec![[FE, 0, 0, 1]]));
    assert_eq!(pair.at_unit(fe, 0), (0, UnitState::Granted));
    let sent = [LA, LE].map(|kind| [kind, 255, 0, 1]);
    assert_eq!(pair.sent_from(0)[..2], sent);
    assert_eq!(pair.sent_from(4), [[LB, 255, 0, 1], [FE, 0, 0, 1]]);
}

/// From the grant to the AM at the box the section is taken, wherever the unit is by then.
#[test]
fn a_gang_behind_the_train() {
    let mut pair = Pair::open(&X);
    pair.asks(0);
    let taken = |pair: &mut Pair| assert_eq!(pair.local(gang(LA, 0)), Err(24));
    taken(&mut pair);
    pair.press(0, Button::Depart).unwrap();
    taken(&mut pair);
    pair.press(0, Button::Reached).unwrap();
    taken(&mut pair);
    let am = pair.press(0, Button::Report).unwrap()[0];
    taken(&mut pair);
    let [kind, train, from, to] = am;
    assert_eq!(pair.at_box(frame(kind, train, from, to)), NOTHING);
    assert_eq!(pair.local(gang(LA, 0)), Ok(vec![[LE, 255, 0, 1]]));
}

/// An LA, LE or LB heard by a unit changes nothing, in each of its states.
#[test]
fn units_hear_of_gangs_too() {
    let mut pair = Pair::open(&X);
    pair.local(gang(LA, 0)).unwrap();
    pair.local(gang(LB, 0)).unwrap();
    let hear = |pair: &mut Pair| {
        let (units, state) = (pair.0.units.clone(), pair.0.state);
        for (kind, unit) in [LA, LE, LB].into_iter().flat_map(|k| [(k, 0), (k, 1)]) {
            assert_eq!(pair.at_unit(gang(kind, 0), unit).0, 0);
        }
        assert_eq!((&pair.0.units, pair.0.state), (&units, state));
        units[0].state
    };
    let mut heard = vec![hear(&mut pair)];
    pair.press(0, Button::Ask).unwrap();
    heard.push(hear(&mut pair));
    pair.at_box(frame(FA, 0, 0, 1)).unwrap();
    pair.at_unit(frame(FE, 0, 0, 1), 0);
    heard.push(hear(&mut pair));
    for button in [Button::Depart, Button::Reached] {
        pair.press(0, button).unwrap();
        heard.push(hear(&mut pair));
    }
    use UnitState::*;
    assert_eq!(heard, [Standing, Asked, Granted, UnderWay, Arrived]);
}

/// They are frames sent as well, and come again: a late LA takes the section once more, and a late
/// LB gives back what was given meanwhile.
#[test]
fn gangs_frames_that_come_again() {
    let mut pair = Pair::open(&X);
    let [la, lb] = [LA, LB].map(|kind| gang(kind, 0));
    assert_eq!(pair.local(la), Ok(vec![[LE, 255, 0, 1]]));
    assert_eq!(pair.at_box(la), Err(24));
    assert_eq!(pair.local(lb), NOTHING);
    assert_eq!(pair.at_box(lb), Err(25));
    assert_eq!(pair.at_box(la), Ok(vec![[LE, 255, 0, 1]]));
    pair.press(0, Button::Ask).unwrap();
    let fa = frame(FA, 0, 0, 1);
    assert_eq!(pair.at_box(fa), Ok(vec![[AFE, 0, 0, 1]]));
    assert_eq!(pair.at_box(lb), Ok(vec![[FE, 0, 0, 1]]));
    assert_eq!(pair.at_box(la), Err(24), "a train is there");
    assert_eq!(pair.0.state.given, 2);
}

/// Any train byte and any posts are put, and count as sent where they are refused; other bytes are
/// not put.
#[test]
fn what_is_put_as_local() {
    let mut pair = Pair::open(&X);
    for (f, number) in [
        (frame(LA, 0, 0, 1), 7),
        (frame(LB, 254, 9, 9), 7),
        (frame(LA, 255, 1, 0), 9),
        (frame(LB, 255, 2, 3), 9),
        (frame(LB, 255, 1, 2), 25),
    ] {
        assert_eq!(pair.local(f), Err(number));
        assert_eq!(pair.at_box(f), Err(number));
        assert_eq!(pair.at_unit(f, 0), (0, UnitState::Standing));
    }
    let (state, sent) = (pair.0.state, pair.0.sent.clone());
    assert_eq!(sent.len(), 5);
    let mut others: Vec<Vec<u8>> = [0, FA, FE, AFE, AM, LE, 8, 255]
        .map(|kind| frame(kind, 255, 0, 1).to_vec())
        .to_vec();
    others.push(frame(FA, 0, 0, 1).to_vec());
    others.push(vec![]);
    others.push(gang(LA, 0)[..6].to_vec());
    others.push([&gang(LA, 0)[..], &[0]].concat());
    others.push(vec![0, 5, 2, LA, 255, 0, 1]);
    others.push(vec![0, 6, 1, LA, 255, 0, 1]);
    for f in others {
        assert_eq!(pair.0.local(&f, &mut [0; OUT_BYTES]), None, "{f:?}");
    }
    assert_eq!((pair.0.state, pair.0.sent), (state, sent));
}

/// Two trains end in the siding of post 1, which has one track: the second is let in when the AM of
/// the first is there, and what is still on its way then harms nobody.
#[test]
fn into_a_siding() {
    let mut pair = Pair::open(&book_of(&[2, 1], Some(2), &[(0, 1), (0, 1)]));
    pair.asks(0);
    pair.press(1, Button::Ask).unwrap();
    let fa = frame(FA, 1, 0, 1);
    assert_eq!(pair.at_box(fa), Ok(vec![[AFE, 1, 0, 1]]));
    let am = pair.runs(0);
    // The unit is there, the section still its train's.
    assert_eq!(pair.at_box(fa), Ok(vec![[AFE, 1, 0, 1]]));
    assert_eq!(pair.at_box(am), Ok(vec![[FE, 1, 0, 1]]));
    // The other's FE names the same posts: unit 1 takes its own only.
    assert_eq!(pair.at_unit(frame(FE, 0, 0, 1), 1), (0, UnitState::Asked));
    assert_eq!(pair.at_unit(frame(FE, 1, 0, 1), 1), (0, UnitState::Granted));
    assert_eq!(
        pair.at_unit(frame(AFE, 1, 0, 1), 1),
        (0, UnitState::Granted)
    );
    assert_eq!(
        pair.at_unit(frame(FE, 0, 0, 1), 0),
        (22, UnitState::Standing)
    );
    let last = pair.runs(1);
    assert_eq!(pair.at_box(am), NOTHING);
    assert_eq!(pair.at_box(last), NOTHING);
    let home = (1, Standing::Free);
    assert_eq!([pair.train(0), pair.train(1)], [home; 2]);
    assert_eq!([pair.unit(0), pair.unit(1)], [(1, UnitState::Standing); 2]);
}

// "each unit that is Granted, Under way or Arrived has a Running train with the same move at the
// dispatcher. So no two units are under way in one section."

/// X with train 0 Running from 0 to 1 and train 1 from 2 to 1, and their units Granted.
fn both_granted() -> Together {
    let mut pair = Pair::open(&X);
    pair.asks(0);
    pair.asks(1);
    pair.0
}

type Change = fn(&mut Together);

/// What is wrong with these two moves after a change.
const CHANGES: [(Option<Fault>, Change); 45] = [
    (None, |_| ()),
    (None, |p| p.units[0].state = UnitState::UnderWay),
    (None, |p| p.units[1].state = UnitState::Arrived),
    // The box knows nothing of the move.
    (Some(Fault::NotCovered(0)), |p| {
        p.state.train[0].standing = Standing::Free
    }),
    (Some(Fault::NotCovered(1)), |p| {
        p.state.train[1].standing = Standing::Asked(0);
        p.units[1].state = UnitState::UnderWay;
    }),
    (Some(Fault::NotCovered(1)), |p| {
        p.state.train[1].standing = Standing::Free;
        p.units[1].state = UnitState::Arrived;
    }),
    (None, |p| {
        p.state.train[0].standing = Standing::Free;
        p.units[0].state = UnitState::Standing;
    }),
    (None, |p| {
        p.state.train[0].standing = Standing::Asked(0);
        p.units[0].state = UnitState::Asked;
    }),
    (None, |p| {
        p.state.train[1].standing = Standing::Free;
        p.units[1].state = UnitState::Declined;
    }),
    // The box knows of another move of the train.
    (Some(Fault::NotCovered(0)), |p| {
        bring(&mut p.state.train[0], 1)
    }),
    (Some(Fault::NotCovered(0)), |p| p.units[0].at = 1),
    (Some(Fault::NotCovered(1)), |p| p.units[1].at = 1),
    (Some(Fault::NotCovered(0)), |p| {
        bring(&mut p.state.train[0], 1);
        p.units[0] = Unit {
            at: 1,
            start: 2,
            end: 0,
            ..p.units[0]
        };
    }),
    // There is no such train, or it is another's.
    (Some(Fault::NotCovered(0)), |p| p.units[0].train = 2),
    (Some(Fault::NotCovered(0)), |p| p.units[0].train = 1),
    (Some(Fault::NotCovered(0)), |p| p.state.trains = 0),
    // Without a next post there is no move.
    (Some(Fault::NotCovered(0)), |p| {
        bring(&mut p.state.train[0], 2);
        p.units[0].at = 2;
    }),
    // Both in section 0, or both in section 1.
    (Some(Fault::SameSection(0, 1)), |p| {
        bring(&mut p.state.train[1], 1);
        p.units[1].at = 1;
    }),
    (Some(Fault::SameSection(0, 1)), |p| {
        bring(&mut p.state.train[0], 1);
        p.units[0].at = 1;
        p.units[0].state = UnitState::Arrived;
    }),
    // Only the box has two there, which is strange.
    (Some(Fault::Strange), |p| {
        bring(&mut p.state.train[1], 1);
        p.units[1] = Unit {
            at: 1,
            state: UnitState::Asked,
            ..p.units[1]
        };
    }),
    (Some(Fault::GangThere(0)), |p| p.state.possessions[0] = true),
    (Some(Fault::GangThere(1)), |p| p.state.possessions[1] = true),
    (Some(Fault::GangThere(0)), |p| {
        p.state.possessions = [true; 7]
    }),
    (None, |p| p.state.possessions[2..].fill(true)), // not read
    (None, |p| {
        p.state.possessions[0] = true;
        p.state.train[0].standing = Standing::Asked(0);
        p.units[0].state = UnitState::Declined;
    }),
    // Each is at both posts of its move, on both tracks of post 1.
    (Some(Fault::Overfull(0)), |p| p.state.tracks[0] = 0),
    (Some(Fault::Overfull(1)), |p| p.state.tracks[1] = 1),
    (Some(Fault::Overfull(1)), |p| {
        p.state.tracks[1] = 1;
        p.units[0].state = UnitState::UnderWay;
        p.units[1].state = UnitState::Arrived;
    }),
    (Some(Fault::Overfull(2)), |p| p.state.tracks[2] = 0),
    (Some(Fault::Overfull(0)), |p| p.state.tracks = [0; 8]),
    (Some(Fault::Overfull(2)), |p| p.state.posts = 2),
    // Only the box has two there, which is strange.
    (Some(Fault::Strange), |p| {
        p.state.tracks[1] = 1;
        p.units[1].state = UnitState::Declined;
    }),
    // Unit 0 is gone from post 0, and stands on one track of post 1.
    (Some(Fault::Strange), |p| {
        p.state.tracks[0] = 0;
        p.units[0] = Unit {
            at: 1,
            state: UnitState::Standing,
            ..p.units[0]
        };
    }),
    (Some(Fault::Overfull(1)), |p| {
        p.state.tracks[1] = 1;
        p.units[0] = Unit {
            at: 1,
            state: UnitState::Standing,
            ..p.units[0]
        };
    }),
    // It stands at its end, where unit 1 is, or in a siding there.
    (Some(Fault::Overfull(2)), |p| {
        p.units[0] = Unit {
            at: 2,
            state: UnitState::Standing,
            ..p.units[0]
        };
    }),
    (Some(Fault::Elsewhere(0)), |p| {
        p.state.sidings = 4;
        p.units[0] = Unit {
            at: 2,
            state: UnitState::Standing,
            ..p.units[0]
        };
    }),
    // The AM is not there yet.
    (None, |p| {
        p.units[0] = Unit {
            at: 1,
            state: UnitState::Asked,
            ..p.units[0]
        }
    }),
    (Some(Fault::Elsewhere(0)), |p| {
        p.state.train[0].standing = Standing::Free;
        p.units[0] = Unit {
            at: 1,
            state: UnitState::Standing,
            ..p.units[0]
        };
    }),
    (Some(Fault::Elsewhere(0)), |p| {
        p.state.tracks[2] = 2;
        p.units[0] = Unit {
            at: 2,
            state: UnitState::Standing,
            ..p.units[0]
        };
    }),
    (Some(Fault::Elsewhere(1)), |p| {
        bring(&mut p.state.train[1], 1);
        p.state.train[1].standing = Standing::Free;
        p.units[1].state = UnitState::Standing;
    }),
    (Some(Fault::Elsewhere(1)), |p| {
        p.units[1] = Unit {
            train: 5,
            state: UnitState::Asked,
            ..p.units[1]
        };
    }),
    (Some(Fault::Strange), |p| p.state.journal = 230),
    (Some(Fault::Strange), |p| p.state.given = 21),
    (Some(Fault::Strange), |p| {
        p.units[0] = Unit {
            start: 1,
            state: UnitState::Asked,
            ..p.units[0]
        };
    }),
    (Some(Fault::Strange), |p| {
        p.units[1] = Unit {
            end: 8,
            state: UnitState::Standing,
            ..p.units[1]
        };
    }),
];

#[test]
fn faults_made_up() {
    for (number, (due, change)) in CHANGES.iter().enumerate() {
        let mut pair = both_granted();
        change(&mut pair);
        assert_eq!(pair.fault(), *due, "change {number}: {pair:?}");
        assert_eq!(fault(&pair.state, &pair.units), *due);
    }
}

/// Three Running trains in one section, made up: the first two units that are under way there.
#[test]
fn the_first_two_in_a_section() {
    let trains = [(0, 1, Standing::Running(1)); 3];
    let box_state = state(&[4, 4], &trains, 0);
    for (waits, a, b) in [(3, 0, 1), (2, 0, 1), (1, 0, 2), (0, 1, 2)] {
        for (moving, waiting) in (3..6).flat_map(|m| (0..3).map(move |w| (m, w))) {
            let units = [0, 1, 2].map(|t| {
                let state = STATES[if t == waits { waiting } else { moving }];
                let (made, _) = unit::make(t, 0, 1);
                Unit { state, ..made }
            });
            let found = fault(&box_state, &units);
            assert_eq!(found, Some(Fault::SameSection(a, b)));
        }
    }
}

/// What is wrong with these units, each at its start with an end and a state, where the box has their
/// trains as they are.
fn fault_at(tracks: &[u8], sidings: u8, units: &[(u8, u8, UnitState)]) -> Option<Fault> {
    let train = |(start, end, state): &(u8, u8, UnitState)| {
        let standing = match STATES[3..].contains(state) {
            true => Standing::Running(1),
            false => Standing::Free,
        };
        (*start, *end, standing)
    };
    let trains: Vec<(u8, u8, Standing)> = units.iter().map(train).collect();
    let mut box_state = state(tracks, &trains, 0);
    box_state.sidings = sidings;
    let made = |(t, (start, end, state)): (u8, &(u8, u8, UnitState))| {
        let (made, _) = unit::make(t, *start, *end);
        Unit {
            state: *state,
            ..made
        }
    };
    let units: Vec<Unit> = (0..).zip(units).map(made).collect();
    let found = fault(&box_state, &units);
    assert_eq!(found, judged(&box_state, &units), "{box_state:?} {units:?}");
    found
}

/// The same, where only an overfull post is asked for; the box may be strange.
fn overfull_at(tracks: &[u8], sidings: u8, units: &[(u8, u8, UnitState)]) -> Option<u8> {
    match fault_at(tracks, sidings, units) {
        Some(Fault::Overfull(post)) => Some(post),
        Some(Fault::Strange) | None => None,
        other => panic!("{other:?}"),
    }
}

/// As many units stand at a post as it has tracks, whatever they wait for; one more is too many.
#[test]
fn a_full_post() {
    for (tracks, waiting) in (1..=4).flat_map(|n| (0..3).map(move |w| (n, w))) {
        for (start, end) in [(0, 1), (1, 0)] {
            let full = vec![(start, end, STATES[waiting]); tracks];
            let counts = [tracks as u8; 2];
            assert_eq!(fault_at(&counts, 0, &full), None);
            let more = [&full[..], &[(start, end, UnitState::Standing)]].concat();
            assert_eq!(fault_at(&counts, 0, &more), Some(Fault::Overfull(start)));
        }
    }
}

/// A unit that is Granted, Under way or Arrived is at both posts of its move, up and down the line,
/// and at no third; one that waits is at its present post alone.
#[test]
fn at_both_posts_of_a_move() {
    use UnitState::Standing;
    for (state, (start, end)) in STATES.into_iter().flat_map(|s| [(s, (1, 3)), (s, (2, 0))]) {
        let next = if start < end { start + 1 } else { start - 1 };
        let moves = STATES[3..].contains(&state);
        for post in 0..4 {
            // The other one stands there, short of its end.
            let other = (post, if post < 2 { 3 } else { 0 }, Standing);
            for units in [[(start, end, state), other], [other, (start, end, state)]] {
                let there = post == start || (moves && post == next);
                let due = there.then_some(post);
                assert_eq!(overfull_at(&[1; 4], 0, &units), due, "{units:?}");
                assert_eq!(overfull_at(&[2; 4], 0, &units), None);
            }
        }
    }
}

/// Units put away are at no post; those at an end without a siding are, those short of their ends
/// where there is one, and those on their way into it.
#[test]
fn units_put_away() {
    use UnitState::{Arrived, Asked, Granted, Standing};
    let tracks = [1, 1, 4];
    // Nobody is on a track there.
    assert_eq!(overfull_at(&tracks, 2, &[(1, 1, Standing); 6]), None);
    for sidings in [0, 1, 4, 5, 253] {
        assert_eq!(overfull_at(&tracks, sidings, &[(1, 1, Standing)]), None);
        let two = [(1, 1, Standing); 2];
        assert_eq!(overfull_at(&tracks, sidings, &two), Some(1));
    }
    // One is on the track there; with one more, which may be on its way there or from there, two are.
    let one = [(1, 1, Standing), (1, 0, Asked), (1, 1, Standing)];
    assert_eq!(overfull_at(&tracks, 2, &one), None);
    for more in [(1, 0, Standing), (1, 2, Granted), (2, 1, Arrived)] {
        let units = [&one[..], &[more]].concat();
        assert_eq!(overfull_at(&tracks, 2, &units), Some(1));
        let alone = [one[0], more, one[2]];
        assert_eq!(overfull_at(&tracks, 2, &alone), None);
    }
}

/// Of several posts the lowest, in whatever order the units are.
#[test]
fn the_lowest_overfull_post() {
    use UnitState::{Granted, Standing};
    let [high, low, both] = [(3, 4, Standing), (1, 0, Standing), (2, 1, Granted)];
    let tracks = [1, 1, 1, 1, 1];
    for (due, units) in [
        (Some(3), vec![high, high]),
        (Some(1), vec![high, low, high, low]),
        (Some(1), vec![low, high, low, high]),
        (Some(1), vec![high, high, both, low]),
        (Some(2), vec![high, high, both, (2, 4, Standing)]),
        (None, vec![both, high]),
    ] {
        assert_eq!(overfull_at(&tracks, 0, &units), due, "{units:?}");
    }
}

/// Off the line there are no tracks, whatever number P is and whatever stands in the places for posts.
#[test]
fn off_the_line() {
    let opened = Together::open(&X).unwrap();
    for (posts, post) in [(3, 3), (3, 255), (0, 0), (2, 2), (255, 8), (255, 255)] {
        let mut state = opened.state;
        state.posts = posts;
        state.tracks = [255; 8];
        let mut units = opened.units.clone();
        units[0] = Unit {
            at: post,
            end: post,
            ..units[0]
        };
        let due = Some(Fault::Overfull(post));
        assert_eq!(fault(&state, &units), due, "{posts} {post}");
        assert_eq!(judged(&state, &units), due);
    }
}

/// The present post and the next one towards the end, which at the end is the same.
fn way(at: u8, end: u8) -> [i16; 2] {
    let [at, end] = [at, end].map(i16::from);
    [at, at + (end - at).signum()]
}

/// The posts that the box has for the unit's train: the present one, and the next one if it runs.
fn posts_at_box(state: &State, unit: &Unit) -> Vec<i16> {
    let train = state.train.get(usize::from(unit.train));
    match train.filter(|_| unit.train < state.trains) {
        Some(train) => match train.standing {
            Standing::Running(_) => way(train.at, train.end).to_vec(),
            Standing::Free | Standing::Asked(_) => vec![train.at.into()],
        },
        None => vec![],
    }
}

/// The sections that gangs hold, each by the sum of its posts, which no other section has.
fn sums_of_gangs(state: &State) -> Vec<i16> {
    let held = (0..i16::from(state.posts) - 1).zip(state.possessions);
    held.filter(|(_, gang)| *gang)
        .map(|(post, _)| post + post + 1)
        .collect()
}

/// The tracks left at each post there could be, once every unit has taken one wherever it is; below
/// 0 where there are too few.
pub fn tracks_left(state: &State, units: &[Unit]) -> Vec<i16> {
    let mut left: Vec<i16> = state.tracks.map(i16::from).to_vec();
    left.truncate(state.posts.into());
    left.resize(256, 0);
    let with_siding = |post: i16| (0..8).any(|n| n == post && state.sidings / (1 << n) % 2 == 1);
    for u in units {
        let posts = match way(u.at, u.end) {
            posts if STATES[3..].contains(&u.state) => posts.to_vec(),
            [at, next] if at == next && with_siding(at) => vec![],
            [at, _] => vec![at],
        };
        for post in posts {
            left[post as usize] -= 1;
        }
    }
    left
}

/// The first fault once more, by posts alone.
pub fn judged(state: &State, units: &[Unit]) -> Option<Fault> {
    let moves = |u: &Unit| STATES[3..].contains(&u.state);
    let covered = |u: &Unit| u.at != u.end && posts_at_box(state, u) == way(u.at, u.end);
    let first = |wrong: &dyn Fn(&Unit) -> bool| units.iter().position(wrong);
    if let Some(n) = first(&|u| moves(u) && !covered(u)) {
        return Some(Fault::NotCovered(n));
    }
    let sum = |u: &Unit| way(u.at, u.end).iter().sum::<i16>();
    for (b, a) in (0..units.len()).flat_map(|a| (a + 1..units.len()).map(move |b| (b, a))) {
        let both_move = moves(&units[a]) && moves(&units[b]);
        if both_move && sum(&units[a]) == sum(&units[b]) {
            return Some(Fault::SameSection(a, b));
        }
    }
    if let Some(n) = first(&|u| moves(u) && sums_of_gangs(state).contains(&sum(u))) {
        return Some(Fault::GangThere(n));
    }
    let mut left = tracks_left(state, units).into_iter();
    if let Some(post) = left.position(|tracks| tracks < 0) {
        return Some(Fault::Overfull(post as u8));
    }
    if let Some(n) = first(&|u| !posts_at_box(state, u).contains(&u.at.into())) {
        return Some(Fault::Elsewhere(n));
    }
    let strange = !sound(state) || units.iter().any(|u| !unit::sound(u));
    strange.then_some(Fault::Strange)
}

/// All standings, posts, gangs and units' states on X: as judged, and each fault is among them.
#[test]
fn faults_on_x() {
    let standings = [Standing::Free, Standing::Asked(0), Standing::Running(1)];
    let opened = Together::open(&X).unwrap();
    let mut met = HashMap::new();
    for combination in 0..9 * 9 * 4 * 18 * 18 {
        let mut rest = combination;
        let mut one_of = |count: usize| {
            let chosen = rest % count;
            rest /= count;
            chosen
        };
        let (mut state, mut units) = (opened.state, opened.units.clone());
        for (t, unit) in units.iter_mut().enumerate() {
            bring(&mut state.train[t], one_of(3) as u8);
            state.train[t].standing = standings[one_of(3)];
            state.possessions[t] = one_of(2) == 1;
            unit.at = one_of(3) as u8;
            unit.state = STATES[one_of(6)];
        }
        let due = judged(&state, &units);
        assert_eq!(fault(&state, &units), due, "{state:?} {units:?}");
        *met.entry(due.map(|f| discriminant(&f))).or_insert(0) += 1;
    }
    assert_eq!(met.len(), 7, "{met:?}");
    assert!(met.values().all(|n| *n > 50), "{met:?}");
}
