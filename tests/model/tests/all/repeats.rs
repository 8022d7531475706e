//! Repeats over bad radio (02, card 6): the press Again, an FA or an AM that comes once more, and the
//! last finished move of each train. A test or more for each sentence of the card.

use crate::common::*;
use crate::runs::{said_again, Run};
use crate::tally::{Has, Tally};
use model::*;
use std::collections::HashSet;

/// What came of a frame: the frames sent, or the refusal.
type Came = Result<Vec<[u8; 4]>, u8>;

/// Accepted, with this one frame sent.
fn one(kind: u8, train: u8, from: u8, to: u8) -> Came {
    Ok(vec![[kind, train, from, to]])
}

/// Accepted, and nothing sent.
pub const NOTHING: Came = Ok(vec![]);

/// Puts frames, each with what must come of it.
fn put_all(b: &mut Box, list: &[([u8; FRAME_BYTES], Came)]) {
    for (number, (f, came)) in list.iter().enumerate() {
        assert_eq!(b.put(f), *came, "frame {number}: {f:?}");
    }
}

/// A train asks, is granted at once, and arrives.
fn goes(b: &mut Box, train: u8, from: u8, to: u8) {
    let fe = one(FE, train, from, to);
    assert_eq!(b.put(&frame(FA, train, from, to)), fe);
    assert_eq!(b.put(&frame(AM, train, from, to)), NOTHING);
}

// Two lists, right after opening.

fn list_on_x() -> Vec<([u8; FRAME_BYTES], Came)> {
    vec![
        (frame(FA, 0, 0, 1), one(FE, 0, 0, 1)),
        (frame(FA, 0, 0, 1), one(FE, 0, 0, 1)),
        (frame(AM, 0, 0, 1), NOTHING),
        (frame(AM, 0, 0, 1), NOTHING),
        (frame(FA, 0, 0, 1), Err(9)),
        (frame(FA, 0, 1, 2), one(AFE, 0, 1, 2)),
        (frame(AM, 0, 0, 1), NOTHING), // it is Asked now
    ]
}

const PRINTED: &str = "0 FA 0 0 1 0
1 FE 0 0 1 1
2 AM 0 0 1 0
3 FA 0 1 2 0
4 AFE 0 1 2 0
end 5 1
";

#[test]
fn the_list_on_x() {
    let mut b = Box::open(&X);
    put_all(&mut b, &list_on_x());
    let logged = [
        record(FA, 0, 0, 1),
        authority(0, 0, 1, 1),
        record(AM, 0, 0, 1),
        record(FA, 0, 1, 2),
        record(AFE, 0, 1, 2),
    ];
    assert_eq!(b.journal[..5], logged);
    assert!(b.journal[5..].iter().all(|r| *r == OLD));
    assert_eq!(b.state.journal, 5);
    assert_eq!(b.state.train[0].standing, Standing::Asked(3));
}

#[test]
fn the_list_on_x_printed() {
    let mut input = X.to_vec();
    input.extend(list_on_x().into_iter().flat_map(|(f, _)| f));
    assert_eq!(program::run(&mut &input[..]), PRINTED);
}

#[test]
fn the_list_on_y() {
    let mut b = Box::open(&Y);
    let declined = || (frame(FA, 2, 2, 1), one(AFE, 2, 2, 1));
    put_all(&mut b, &[declined(), declined()]);
    let logged = [record(FA, 2, 2, 1), record(AFE, 2, 2, 1), OLD];
    assert_eq!(b.journal[..3], logged);
    assert_eq!(b.state.journal, 2);
    let input = [&Y[..], &declined().0, &declined().0].concat();
    let printed = "0 FA 2 2 1 0\n1 AFE 2 2 1 0\nend 2 0\n";
    assert_eq!(program::run(&mut &input[..]), printed);
}

// "A new press, Again, changes no state: it gives the FA in Asked or Declined, the AM of the last
// move in Standing past the start, and else 21."

/// A unit with what its crew does and hears.
struct Cab(Unit);

impl Cab {
    fn of(train: u8, start: u8, end: u8) -> Cab {
        let (unit, refusal) = unit::make(train, start, end);
        assert_eq!(refusal, 0);
        Cab(unit)
    }

    /// What a press gives: a frame, nothing, or the refusal.
    fn press(&mut self, button: Button) -> Result<Option<[u8; FRAME_BYTES]>, u8> {
        let (after, refusal, sent) = unit::press(&self.0, button);
        if refusal != 0 {
            assert_eq!((after, sent), (self.0, None));
            return Err(refusal);
        }
        self.0 = after;
        Ok(sent)
    }

    /// Again, twice, with the same answer and no change.
    fn again(&mut self) -> Result<[u8; FRAME_BYTES], u8> {
        let before = self.0;
        let came = self.press(Button::Again);
        assert_eq!(self.press(Button::Again), came);
        assert_eq!(self.0, before);
        came.map(|sent| sent.expect("Again gives a frame or is refused"))
    }

    fn hear(&mut self, f: [u8; FRAME_BYTES]) {
        let (after, refusal) = unit::hear(&self.0, &f);
        assert_eq!(refusal, 0);
        self.0 = after;
    }

    /// From Granted to Standing at the next post.
    fn runs(&mut self, am: [u8; FRAME_BYTES]) {
        assert_eq!(self.press(Button::Depart), Ok(None));
        assert_eq!(self.again(), Err(21));
        assert_eq!(self.press(Button::Reached), Ok(None));
        assert_eq!(self.again(), Err(21));
        assert_eq!(self.press(Button::Report), Ok(Some(am)));
        assert_eq!(self.again(), Ok(am));
    }
}

#[test]
fn again_on_the_way_up() {
    let mut cab = Cab::of(0, 0, 2);
    assert_eq!(cab.again(), Err(21));
    let fa = frame(FA, 0, 0, 1);
    assert_eq!(cab.press(Button::Ask), Ok(Some(fa)));
    assert_eq!(cab.again(), Ok(fa));
    cab.hear(frame(AFE, 0, 0, 1));
    assert_eq!(cab.0.state, UnitState::Declined);
    assert_eq!(cab.again(), Ok(fa));
    cab.hear(frame(AFE, 0, 0, 1)); // that FA's
    assert_eq!(cab.again(), Ok(fa));
    cab.hear(frame(FE, 0, 0, 1));
    assert_eq!(cab.again(), Err(21));
    cab.runs(frame(AM, 0, 0, 1));
    // The FA of the new move takes the AM's place.
    let fa = frame(FA, 0, 1, 2);
    assert_eq!(cab.press(Button::Ask), Ok(Some(fa)));
    assert_eq!(cab.again(), Ok(fa));
    cab.hear(frame(FE, 0, 1, 2));
    cab.runs(frame(AM, 0, 1, 2));
    // At the end.
    assert_eq!(cab.again(), Ok(frame(AM, 0, 1, 2)));
    assert_eq!(cab.press(Button::Ask), Err(8));
    for button in [Button::Depart, Button::Reached, Button::Report] {
        assert_eq!(cab.press(button), Err(21));
    }
    assert_eq!(cab.again(), Ok(frame(AM, 0, 1, 2)));
}

#[test]
fn again_on_the_way_down() {
    let mut cab = Cab::of(5, 7, 4);
    assert_eq!(cab.again(), Err(21));
    for from in [7, 6, 5] {
        let fa = frame(FA, 5, from, from - 1);
        assert_eq!(cab.press(Button::Ask), Ok(Some(fa)));
        assert_eq!(cab.again(), Ok(fa));
        cab.hear(frame(FE, 5, from, from - 1));
        assert_eq!(cab.again(), Err(21));
        cab.runs(frame(AM, 5, from, from - 1));
    }
    assert_eq!(cab.0.at, cab.0.end);
    assert_eq!(cab.press(Button::Ask), Err(8));
    assert_eq!(cab.again(), Ok(frame(AM, 5, 5, 4)));
}

/// A unit that has no way to go is never past its start; one that is strange is 1.
#[test]
fn again_without_a_move() {
    for post in 0..8 {
        let mut parked = Cab::of(3, post, post);
        assert_eq!(parked.again(), Err(21));
        assert_eq!(parked.press(Button::Ask), Err(8));
    }
    assert_eq!(Cab(Unit::EMPTY).again(), Err(1));
    let (unit, _) = unit::make(2, 1, 4);
    for strange in [
        Unit { train: 6, ..unit },
        Unit { at: 0, ..unit },
        Unit { at: 5, ..unit },
        Unit { end: 8, ..unit },
        Unit { start: 255, ..unit },
        Unit {
            at: 4,
            state: UnitState::Asked,
            ..unit
        },
    ] {
        assert_eq!(Cab(strange).again(), Err(1));
    }
}

/// Every sound unit: its way is a list of posts, and the moves are neighbours in it.
#[test]
fn again_of_every_unit() {
    for (start, end) in (0..8u8).flat_map(|s| (0..8u8).map(move |e| (s, e))) {
        let way: Vec<u8> = match start <= end {
            true => (start..=end).collect(),
            false => (end..=start).rev().collect(),
        };
        for (place, state) in (0..way.len()).flat_map(|p| STATES.map(|s| (p, s))) {
            let at = way[place];
            let mut cab = Cab::of(4, start, end);
            cab.0 = Unit { at, state, ..cab.0 };
            let due = match state {
                UnitState::Standing if place > 0 => Ok(frame(AM, 4, way[place - 1], at)),
                UnitState::Standing => Err(21),
                _ if at == end => Err(1),
                UnitState::Asked | UnitState::Declined => Ok(frame(FA, 4, at, way[place + 1])),
                _ => Err(21),
            };
            assert_eq!(cab.again(), due, "{:?}", cab.0);
        }
    }
}

/// Again gives what the unit gave last, wherever it gives anything.
#[test]
fn again_is_the_last_frame_given() {
    let mut rng = Rng(0xA6A);
    let mut met = [0; 6];
    for _ in 0..300 {
        let mut cab = Cab::of(rng.within(0, 5), rng.within(0, 7), rng.within(0, 7));
        let mut given = None;
        for _ in 0..150 {
            if let Ok(frame) = cab.again() {
                assert_eq!(Some(frame), given);
                met[cab.0.state as usize] += 1;
            } else {
                let answered = !matches!(cab.0.state, UnitState::Asked | UnitState::Declined);
                assert!(answered && (given.is_none() || cab.0.state != UnitState::Standing));
            }
            let heard = given.filter(|_| rng.chance(30));
            if let Some([.., 1, train, from, to]) = heard {
                let f = frame(rng.within(FE, AFE), train, from, to);
                cab.0 = unit::hear(&cab.0, &f).0;
            }
            let sent = cab.press(BUTTONS[rng.below(4) as usize]);
            given = sent.ok().flatten().or(given);
        }
    }
    assert!(met[..3].iter().all(|n| *n > 500), "{met:?}");
    assert_eq!(met[3..], [0; 3]);
}

// "At the dispatcher a repeated FA gets its AFE or FE again"

/// The AFE as long as the train is Asked, and from then on the FE, whoever's frame it was granted
/// with.
#[test]
fn afe_or_fe_again() {
    let mut b = Box::open(&X);
    goes(&mut b, 0, 0, 1);
    let ask = frame(FA, 0, 1, 2);
    assert_eq!(b.put(&ask), one(AFE, 0, 1, 2));
    assert_eq!(put_repeat(&mut b, &ask), [[AFE, 0, 1, 2]]);
    assert_eq!(b.put(&frame(FA, 1, 2, 1)), one(FE, 1, 2, 1));
    assert_eq!(put_repeat(&mut b, &ask), [[AFE, 0, 1, 2]]);
    assert_eq!(put_repeat(&mut b, &frame(FA, 1, 2, 1)), [[FE, 1, 2, 1]]);
    // Train 1 is at post 1, and the FE of train 0 may be lost.
    assert_eq!(b.put(&frame(AM, 1, 2, 1)), one(FE, 0, 1, 2));
    for _ in 0..3 {
        assert_eq!(put_repeat(&mut b, &ask), [[FE, 0, 1, 2]]);
    }
    assert_eq!(b.put(&frame(AM, 0, 1, 2)), NOTHING);
    assert_eq!(b.put(&ask), Err(8));
}

/// Several go with one answer: each one's FE comes again alone, and so does the asker's AFE.
#[test]
fn one_answer_again() {
    let mut b = Box::open(&book(&[2, 3, 2], &[(0, 2), (2, 0), (1, 2)]));
    b.table.fill(0);
    b.put(&frame(FA, 0, 0, 1)).unwrap();
    b.put(&frame(FA, 1, 2, 1)).unwrap();
    b.table.fill(255);
    let sent = [[FE, 0, 0, 1], [FE, 1, 2, 1], [AFE, 2, 1, 2]];
    assert_eq!(b.put(&frame(FA, 2, 1, 2)), Ok(sent.to_vec()));
    for [kind, train, from, to] in sent {
        let again = put_repeat(&mut b, &frame(FA, train, from, to));
        assert_eq!(again, [[kind, train, from, to]]);
    }
}

/// Nobody is granted with a repeat, though the train that asks again, or another, could be.
#[test]
fn a_repeat_starts_no_granting() {
    let mut b = Box::open(&X);
    let right = b.table.clone();
    b.table.fill(0);
    assert_eq!(b.put(&frame(FA, 0, 0, 1)), one(AFE, 0, 0, 1));
    assert_eq!(b.put(&frame(FA, 1, 2, 1)), one(AFE, 1, 2, 1));
    b.table = right;
    for _ in 0..2 {
        assert_eq!(put_repeat(&mut b, &frame(FA, 0, 0, 1)), [[AFE, 0, 0, 1]]);
        assert_eq!(put_repeat(&mut b, &frame(FA, 1, 2, 1)), [[AFE, 1, 2, 1]]);
    }
    // The next that does start it finds both.
    assert_eq!(b.put(&frame(LA, GANG, 0, 1)), one(LE, GANG, 0, 1));
    let both = vec![[FE, 0, 0, 1], [FE, 1, 2, 1]];
    assert_eq!(b.put(&frame(LB, GANG, 0, 1)), Ok(both));

    // With a repeated AM neither: train 0 waits at post 1.
    let mut b = Box::open(&book(&[2, 2, 2], &[(0, 2), (0, 2)]));
    goes(&mut b, 0, 0, 1);
    b.table.fill(0);
    assert_eq!(b.put(&frame(FA, 0, 1, 2)), one(AFE, 0, 1, 2));
    b.table.fill(255);
    assert!(put_repeat(&mut b, &frame(AM, 0, 0, 1)).is_empty());
    let both = vec![[FE, 0, 1, 2], [FE, 1, 0, 1]];
    assert_eq!(b.put(&frame(FA, 1, 0, 1)), Ok(both));
}

/// One that asks again keeps its turn: the number of its FA stays.
#[test]
fn a_repeat_keeps_its_turn() {
    for first in [0, 1] {
        let routes = [(0, 1), (1, 0)];
        let mut b = Box::open(&book(&[2, 2], &routes));
        let ask = |t: usize| frame(FA, t as u8, routes[t].0, routes[t].1);
        assert_eq!(b.put(&frame(LA, GANG, 0, 1)), one(LE, GANG, 0, 1));
        b.put(&ask(first)).unwrap();
        b.put(&ask(1 - first)).unwrap();
        for _ in 0..3 {
            put_repeat(&mut b, &ask(first));
        }
        assert_eq!(b.state.train[first].standing, Standing::Asked(2));
        let granted = b.put(&frame(LB, GANG, 0, 1)).unwrap();
        assert_eq!(granted.len(), 1);
        assert_eq!(granted[0][1], first as u8);
    }
}

/// An FA with other posts is no repeat, whatever its train does: 9, or 8 at the end, also with those
/// of the finished move.
#[test]
fn an_fa_of_other_posts() {
    let others = |from, to| {
        let pairs = (0..4).flat_map(|p| (0..4).map(move |q| (p, q)));
        pairs.filter(move |pair| *pair != (from, to))
    };
    let mut b = Box::open(&X);
    goes(&mut b, 0, 0, 1);
    b.put(&frame(FA, 0, 1, 2)).unwrap();
    b.put(&frame(FA, 1, 2, 1)).unwrap();
    for (t, from, to) in [(0, 1, 2), (1, 2, 1)] {
        for (p, q) in others(from, to) {
            assert_eq!(b.put(&frame(FA, t, p, q)), Err(9), "{t} {p} {q}");
        }
    }
    b.put(&frame(AM, 1, 2, 1)).unwrap();
    b.put(&frame(AM, 0, 1, 2)).unwrap();
    for (p, q) in others(9, 9) {
        assert_eq!(b.put(&frame(FA, 0, p, q)), Err(8), "{p} {q}");
    }
}

// "and an AM naming the train's last finished move is taken with no output"

/// Whatever the train does now, Free, Asked or Running; at the post after it no more.
#[test]
fn an_arrival_again() {
    let mut b = Box::open(&X);
    let first = frame(AM, 0, 0, 1);
    assert_eq!(b.put(&first), Err(12));
    b.put(&frame(FA, 0, 0, 1)).unwrap();
    assert_eq!(b.put(&first), NOTHING);
    assert!(put_repeat(&mut b, &first).is_empty());
    b.put(&frame(FA, 0, 1, 2)).unwrap();
    assert_eq!(b.state.train[0].standing, Standing::Asked(3));
    assert!(put_repeat(&mut b, &first).is_empty());
    assert_eq!(b.put(&frame(AM, 0, 1, 2)), Err(12));
    b.put(&frame(FA, 1, 2, 1)).unwrap();
    assert_eq!(b.put(&frame(AM, 1, 2, 1)), one(FE, 0, 1, 2));
    assert!(put_repeat(&mut b, &first).is_empty());
    // An AM of its present move is new, and then the first one is an earlier move's.
    assert_eq!(b.put(&frame(AM, 0, 1, 2)), NOTHING);
    assert_eq!(b.put(&first), Err(8));
}

/// Both posts must be those of the move, and the train that one.
#[test]
fn an_arrival_of_other_posts() {
    for (start, end, from, to) in [(1, 4, 2, 3), (4, 0, 3, 2)] {
        let mut s = state(&[2; 5], &[(start, end, Standing::Free); 2], 0);
        bring(&mut s.train[0], to);
        assert_eq!(s.train[0].last, Some((from, to)));
        let mut b = boxed(s, vec![0; TABLE_BYTES]);
        for (p, q) in (0..=6).flat_map(|p| (0..=6).map(move |q| (p, q))) {
            let next = Some((to, s.train[0].next().unwrap()));
            let due = match Some((p, q)) {
                named if named == s.train[0].last => NOTHING,
                named if named == next => Err(12),
                _ => Err(9),
            };
            assert_eq!(b.put(&frame(AM, 0, p, q)), due, "{p} {q}");
            assert_eq!(b.state, s);
        }
        // Train 1 has finished none.
        assert_eq!(b.put(&frame(AM, 1, from, to)), Err(9));
        assert_eq!(b.put(&frame(AM, 2, from, to)), Err(7));
    }
}

/// The repeat of a move before the last is refused, by 9 on the way and by 8 at the end.
#[test]
fn an_earlier_arrival() {
    let mut b = Box::open(&book(&[1; 5], &[(0, 4)]));
    for from in 0..4 {
        goes(&mut b, 0, from, from + 1);
        for earlier in 0..from {
            let number = if from == 3 { 8 } else { 9 };
            assert_eq!(b.put(&frame(AM, 0, earlier, earlier + 1)), Err(number));
        }
        assert!(put_repeat(&mut b, &frame(AM, 0, from, from + 1)).is_empty());
    }
}

// "neither is logged or changes the state, and both are answered before 13." Card 7 takes 13 away.

/// So many records, in a journal of this length: train 0 waits, train 1 runs, train 2 has made a move.
fn with_records(count: u8, length: usize) -> Box {
    let routes = [
        (0, 7, Standing::Asked(9)),
        (7, 0, Standing::Running(4)),
        (2, 5, Standing::Free),
    ];
    let mut s = state(&[4; 8], &routes, count);
    bring(&mut s.train[2], 3);
    let mut b = boxed(s, vec![255; TABLE_BYTES]);
    b.journal = vec![OLD; length];
    b
}

/// At every count that is not strange an FA of an Asked train gets its AFE, one of a Running train
/// its FE, and the AM of a finished move is taken. The count stays, and so the state stays sound.
/// From 230 records on it is strange, to a repeat as to what is new.
#[test]
fn answered_up_to_229_records() {
    for (count, length) in (10..=255).flat_map(|count| [(count, 236), (count, 300)]) {
        let mut b = with_records(count, length);
        let before = b.state;
        let is_sound = count <= 229;
        let due = |came: Came| if is_sound { came } else { Err(1) };
        let list = [
            (frame(FA, 0, 0, 1), due(one(AFE, 0, 0, 1))),
            (frame(FA, 1, 7, 6), due(one(FE, 1, 7, 6))),
            (frame(AM, 2, 2, 3), due(NOTHING)),
            (frame(AM, 2, 3, 4), due(Err(12))),
        ];
        for (f, came) in list.iter().chain(&list) {
            assert_eq!(b.put(f), *came, "{f:?} at {count}");
            assert_eq!(b.state, before);
            assert_eq!(sound(&b.state), is_sound);
            assert!(b.journal.iter().all(|r| *r == OLD));
        }
        // And what is new: the granting finds train 0 too, before the asker.
        let came = b.put(&frame(FA, 2, 3, 4));
        assert_eq!(came, due(Ok(vec![[FE, 0, 0, 1], [FE, 2, 3, 4]])));
        // Three records more, and the state that this leaves may be strange.
        let came = b.put(&frame(AM, 1, 7, 6));
        assert_eq!(came, if count > 226 { Err(1) } else { NOTHING });
    }
}

/// The out buffer is written from its beginning, seven bytes or none, and 1 and 2 come first.
#[test]
fn stores_of_a_repeat() {
    let mut b = Box::open(&X);
    goes(&mut b, 0, 0, 1);
    b.put(&frame(FA, 0, 1, 2)).unwrap();
    b.put(&frame(FA, 1, 2, 1)).unwrap();
    let strange = State {
        given: 21,
        ..b.state
    };
    for (f, sent) in [
        (frame(FA, 0, 1, 2), frame(AFE, 0, 1, 2).to_vec()),
        (frame(FA, 1, 2, 1), frame(FE, 1, 2, 1).to_vec()),
        (frame(AM, 0, 0, 1), vec![]),
    ] {
        for (table, records, room, number) in [
            (32_767, 236, 42, 2),
            (32_768, 235, 42, 2),
            (32_768, 236, 41, 2),
            (32_768, 236, 42, 0),
            (32_768, 236, 50, 0),
        ] {
            let mut out = vec![0x77; room];
            let mut journal = b.journal[..records].to_vec();
            let mut put =
                |state: &State| answer(state, &b.table[..table], &mut journal, &f, &mut out);
            assert_eq!(put(&strange), (strange, Verdict::Refused(1)));
            let verdict = match number {
                0 => Verdict::Sent(sent.len() / FRAME_BYTES),
                _ => Verdict::Refused(number),
            };
            assert_eq!(put(&b.state), (b.state, verdict));
            assert_eq!(journal, b.journal[..records]);
            let written = if number == 0 { &sent[..] } else { &[] };
            assert_eq!(out[..written.len()], *written);
            assert!(out[written.len()..].iter().all(|byte| *byte == 0x77));
        }
    }
}

/// Checks 3 to 7 come before a repeat is known.
#[test]
fn checks_before_a_repeat() {
    let mut b = Box::open(&X);
    goes(&mut b, 0, 0, 1);
    let again = frame(AM, 0, 0, 1);
    for (place, byte, number) in [(1, 6, 3), (2, 2, 4), (3, 9, 5), (3, FE, 6), (4, 2, 7)] {
        let mut other = again;
        other[place] = byte;
        assert_eq!(b.put(&other), Err(number));
    }
    assert_eq!(b.put(&again[..6]), Err(3));
    assert!(put_repeat(&mut b, &again).is_empty());
}

/// A gang's frames have no repeats: a second LA is 24, a second LB 25.
#[test]
fn no_repeats_of_gangs() {
    let mut b = Box::open(&X);
    assert_eq!(b.put(&frame(LA, GANG, 0, 1)), one(LE, GANG, 0, 1));
    assert_eq!(b.put(&frame(LA, GANG, 0, 1)), Err(24));
    assert_eq!(b.put(&frame(LB, GANG, 0, 1)), NOTHING);
    assert_eq!(b.put(&frame(LB, GANG, 0, 1)), Err(25));
}

// "The state keeps each train's last finished move, or none: in a sound state none at its start,
// else the one-post move towards its end that reached the present post."

/// The last finished moves of the first trains.
fn last_of<const N: usize>(state: &State) -> [Option<(u8, u8)>; N] {
    std::array::from_fn(|t| state.train[t].last)
}

/// It is written by an arrival, and by nothing else.
#[test]
fn the_last_move_over_a_run() {
    let mut b = Box::open(&X);
    assert_eq!(last_of(&b.state), [None; 6]);
    let steps = [
        (frame(FA, 0, 0, 1), [None, None]),
        (frame(FA, 1, 2, 1), [None, None]),
        (frame(AM, 0, 0, 1), [Some((0, 1)), None]),
        (frame(FA, 0, 1, 2), [Some((0, 1)), None]),
        (frame(LA, GANG, 0, 1), [Some((0, 1)), None]),
        (frame(AM, 1, 2, 1), [Some((0, 1)), Some((2, 1))]), // train 0 is Running now
        (frame(LB, GANG, 0, 1), [Some((0, 1)), Some((2, 1))]),
        (frame(FA, 1, 1, 0), [Some((0, 1)), Some((2, 1))]),
        (frame(AM, 0, 1, 2), [Some((1, 2)), Some((2, 1))]),
        (frame(AM, 1, 1, 0), [Some((1, 2)), Some((1, 0))]),
    ];
    for (f, last) in steps {
        assert!(b.put(&f).is_ok(), "{f:?}");
        assert_eq!(last_of(&b.state), last, "{f:?}");
        assert_eq!(b.state.train[2..], [Train::EMPTY; 4]);
        assert!(sound(&b.state));
    }
}

#[test]
fn no_move_is_finished_at_the_opening() {
    for b in [&X[..], &Y] {
        assert_eq!(last_of(&Box::open(b).state), [None; 6]);
    }
    assert_eq!(last_of(&State::EMPTY), [None; 6]);
    // A parked train has none for good.
    let mut parked = Box::open(&book(&[1, 1], &[(1, 1)]));
    assert_eq!(last_of(&parked.state), [None; 6]);
    for (from, to) in [(0, 1), (1, 1), (2, 1), (1, 0)] {
        assert_eq!(parked.put(&frame(AM, 0, from, to)), Err(8));
        parked.state.train[0].last = Some((from, to));
        assert_eq!(parked.put(&frame(AM, 0, from, to)), Err(1));
        parked.state.train[0].last = None;
    }
}

/// Every train of a line of eight posts at every post of its way, with every last move: one is
/// right, and any other is 1. So it is for a train that waits or runs.
#[test]
fn sound_states_with_last_moves() {
    let moves: Vec<Option<(u8, u8)>> = (0..9u8)
        .flat_map(|from| (0..9u8).map(move |to| Some((from, to))))
        .chain([None, Some((255, 0)), Some((0, 255)), Some((255, 255))])
        .collect();
    for (start, end) in (0..8u8).flat_map(|s| (0..8u8).map(move |e| (s, e))) {
        for at in start.min(end)..=start.max(end) {
            let right = match (at == start, start < end) {
                (true, _) => None,
                (_, true) => Some((at - 1, at)),
                (_, false) => Some((at + 1, at)),
            };
            for standing in [Standing::Free, Standing::Asked(0), Standing::Running(1)] {
                let mut s = state(&[1; 8], &[(start, end, standing)], 1);
                s.train[0].at = at;
                for last in &moves {
                    s.train[0].last = *last;
                    let due = *last == right && (at != end || standing == Standing::Free);
                    assert_eq!(sound(&s), due, "{:?}", s.train[0]);
                }
            }
        }
    }
}

/// A strange last move is refused by 1 before all else, also one that the frame names.
#[test]
fn strange_last_moves() {
    let mut b = Box::open(&X);
    goes(&mut b, 0, 0, 1);
    let frames = [
        frame(AM, 0, 0, 1),
        frame(AM, 0, 1, 2),
        frame(AM, 1, 2, 1),
        frame(FA, 0, 1, 2),
        frame(FE, 0, 0, 1),
    ];
    for (t, last) in [
        (0, None),
        (0, Some((1, 0))),
        (0, Some((1, 2))),
        (0, Some((2, 1))),
        (0, Some((0, 2))),
        (0, Some((1, 1))),
        (1, Some((2, 1))), // at its start
        (1, Some((1, 2))),
        (1, Some((0, 0))),
    ] {
        let mut strange = boxed(b.state, b.table.clone());
        strange.state.train[t].last = last;
        for f in &frames {
            assert_eq!(strange.put(f), Err(1), "{t} {last:?}");
        }
        assert_eq!(strange.put(&[]), Err(1));
    }
}

/// Last moves of trains from T on neither change an answer nor are changed.
#[test]
fn unread_last_moves() {
    let mut clean = Box::open(&X);
    let mut odd = Box::open(&X);
    for (t, place) in odd.state.train.iter_mut().enumerate().skip(2) {
        place.last = Some((0, t as u8));
    }
    let places = odd.state.train;
    let list = list_on_x().into_iter().map(|(f, _)| f);
    for f in list.chain((0..6).map(|t| frame(AM, t, 0, t))) {
        assert_eq!(clean.put(&f), odd.put(&f), "{f:?}");
        assert_eq!(clean.journal, odd.journal);
        assert_eq!(clean.state.train[..2], odd.state.train[..2]);
        assert_eq!(odd.state.train[2..], places[2..]);
    }
}

// "The test for a finished move comes before 8."

/// A train home at its end: its last AM is taken without output, its FA and the AM of an earlier
/// move are 8. Up and down, with and without a siding.
#[test]
fn at_its_end() {
    for sidings in [0, 7] {
        for way in [[0, 1, 2], [2, 1, 0]] {
            let route = (way[0], way[2]);
            let mut b = Box::open(&book_of(&[1; 3], Some(sidings), &[route]));
            goes(&mut b, 0, way[0], way[1]);
            goes(&mut b, 0, way[1], way[2]);
            let put_away = b.state.train[0].track == 0;
            assert_eq!(put_away, sidings == 7);
            assert!(put_repeat(&mut b, &frame(AM, 0, way[1], way[2])).is_empty());
            assert_eq!(b.put(&frame(FA, 0, way[1], way[2])), Err(8));
            assert_eq!(b.put(&frame(AM, 0, way[0], way[1])), Err(8));
            assert_eq!(b.put(&frame(AM, 0, way[2], way[1])), Err(8));
            assert_eq!(b.put(&frame(AM, 0, way[2], way[2])), Err(8));
        }
    }
}

// "K now shows FE twice." It is with the examples. The refusals that are left to a frame are listed
// where any frames are put (`states_of_all_sorts`, `demand_three`).

/// Frames of trains 0 to T over any two posts of a line with three, T counted.
fn crew_frames(state: &State) -> Vec<[u8; FRAME_BYTES]> {
    let mut frames = vec![];
    for t in 0..=state.trains {
        for (from, to) in (0..4).flat_map(|p| (0..4).map(move |q| (p, q))) {
            frames.extend([FA, AM].map(|kind| frame(kind, t, from, to)));
        }
    }
    frames
}

/// What must come of a frame of a train that is put to a state once more, after these answers: of an
/// FA the one among them that is for its own train and move; of an AM nothing.
fn answer_again(f: &[u8; FRAME_BYTES], answers: &[[u8; 4]]) -> Vec<[u8; 4]> {
    let own = answers.iter().filter(|a| f[3] == FA && a[1..] == f[4..]);
    own.copied().collect()
}

/// All states that frames of trains lead to from an opening. In each of them each frame that is new
/// is put twice: the second time it is answered as the first, alone, and nothing changes.
fn put_each_twice(book: &[u8]) -> (usize, usize) {
    let opened = Box::open(book);
    let mut seen = HashSet::from([format!("{:?}", opened.state)]);
    let mut left = vec![opened.state];
    let mut twice = 0;
    while let Some(state) = left.pop() {
        for f in crew_frames(&state) {
            let mut b = boxed(state, opened.table.clone());
            let Ok(answers) = b.put(&f) else { continue };
            let again = put_repeat(&mut b, &f);
            if b.state == state {
                assert_eq!(again, answers);
                continue;
            }
            assert_eq!(again, answer_again(&f, &answers));
            assert_eq!(again.len(), usize::from(f[3] == FA));
            twice += 1;
            if seen.insert(format!("{:?}", b.state)) {
                left.push(b.state);
            }
        }
    }
    (seen.len(), twice)
}

#[test]
fn each_frame_twice_in_each_state() {
    let (states, twice) = put_each_twice(&X);
    assert!(states > 30 && twice > 40, "{states} {twice}");
    let (states, twice) = put_each_twice(&Y);
    assert!(states > 200 && twice > 200, "{states} {twice}");
}

// "All of demand 3 covers lists with repeats." The runs of `runs.rs` have repeats, and after each
// frame all clauses are checked.

/// By the tally's own rules a repeated FA makes its train asked, and its FE gives the authority back;
/// a repeated AM is for no authority that its train has.
#[test]
fn the_tally_stays_as_it_was() {
    let mut tally = Tally::new(&[1, 2, 1], 0, &[(0, 2), (2, 0)]);
    tally.take(&frame(FA, 1, 2, 1));
    tally.hear(&authority(1, 2, 1, 2), 2);
    tally.take(&frame(AM, 1, 2, 1));
    tally.take(&frame(FA, 1, 1, 0));
    tally.take(&frame(FA, 0, 0, 1));
    tally.hear(&authority(0, 0, 1, 1), 1);
    let before = tally.clone();
    assert_eq!(before.has, [Has::Authority(0, 1), Has::Asked]);
    assert_eq!(before.order, [1]);

    let due = tally.repeat_due(&frame(FA, 0, 0, 1));
    assert_eq!(due, Some(vec![authority(0, 0, 1, 1)]));
    tally.take(&frame(FA, 0, 0, 1));
    assert_eq!(tally.has, [Has::Asked; 2]);
    tally.hear(&authority(0, 0, 1, 1), 1);
    assert_eq!(tally, before);

    let due = tally.repeat_due(&frame(FA, 1, 1, 0));
    assert_eq!(due, Some(vec![record(AFE, 1, 1, 0)]));
    tally.take(&frame(FA, 1, 1, 0));
    assert_eq!(tally, before);

    assert_eq!(tally.repeat_due(&frame(AM, 1, 2, 1)), Some(vec![]));
    tally.take(&frame(AM, 1, 2, 1));
    assert_eq!(tally, before);
    assert_eq!(tally.repeat_due(&frame(AM, 0, 0, 1)), None);
}

/// Random runs in which crews say again what they said: such a frame is taken as a repeat, and
/// changes neither state nor journal nor the tally (`Run::put` checks the answer, and the last of
/// these too). Without its repeats a list comes to the same.
#[test]
fn a_list_with_and_without_repeats() {
    let mut rng = Rng(0x2E9);
    let mut repeats = 0;
    for round in 0..400 {
        let mut run = Run::open(&mut rng);
        run.right_table = round % 2 == 0;
        if !run.right_table {
            run.table.fill(255);
        }
        let (opened, mut journal) = (run.state, run.journal.clone());
        let mut new = vec![];
        for _ in 0..rng.below(150) {
            say_again(&mut run, &mut rng);
            let f = run.random_frame(&mut rng);
            let before = run.repeats.len();
            run.put(&f, &mut [0; OUT_BYTES]);
            if run.repeats.len() == before {
                new.push(f);
            }
        }
        let put = |state, f: &Vec<u8>| {
            let mut out = [0; OUT_BYTES];
            answer(&state, &run.table, &mut journal, f, &mut out).0
        };
        assert_eq!(new.iter().fold(opened, put), run.state);
        assert_eq!(journal, run.journal);
        repeats += run.repeats.len();
    }
    assert!(repeats > 10_000, "{repeats}");
}

/// Some crew says again what it said, if any has said anything.
fn say_again(run: &mut Run, rng: &mut Rng) {
    let Some(f) = said_again(&run.tally, rng) else {
        return;
    };
    let (state, journal, tally) = (run.state, run.journal.clone(), run.tally.clone());
    let before = run.repeats.len();
    run.put(&f, &mut [0; OUT_BYTES]);
    assert_eq!(run.repeats.len(), before + 1);
    assert_eq!(run.state, state);
    assert_eq!(run.journal, journal);
    assert_eq!(run.tally, tally);
}

// "Frames get lost in cuttings."

/// What got lost, by kind.
#[derive(Debug, Default)]
struct Radio {
    lost: [u32; 8],
}

impl Radio {
    /// The frame gets through; two of five do not.
    fn carries(&mut self, f: &[u8], rng: &mut Rng) -> bool {
        let lost = rng.chance(40);
        self.lost[usize::from(f[3])] += u32::from(lost);
        !lost
    }
}

/// What a unit may be in while frames get lost: with an authority it has one by the tally too, and
/// where it is a post ahead its AM got lost.
fn keeps_up(tally: &Tally, t: usize, unit: &Unit) -> bool {
    let here = unit.at == tally.post[t];
    match (unit.state, tally.has[t]) {
        (UnitState::Standing, Has::Authority(_, to)) => unit.at == to,
        (UnitState::Standing, has) => here && has == Has::Nothing,
        (UnitState::Asked | UnitState::Declined, _) => here,
        (_, has) => here && matches!(has, Has::Authority(_, _)),
    }
}

/// A crew presses any button, but Again for Ask as long as its AM did not get through. Its frame and
/// each answer, to each unit, may get lost.
fn press_over_bad_radio(run: &mut Run, units: &mut [Unit], radio: &mut Radio, rng: &mut Rng) {
    let t = rng.below(units.len() as u64) as usize;
    let button = match BUTTONS[rng.below(5) as usize] {
        Button::Ask if units[t].at != run.tally.post[t] => Button::Again,
        button => button,
    };
    let (after, refusal, sent) = unit::press(&units[t], button);
    assert!(matches!(refusal, 0 | 8 | 21));
    units[t] = after;
    let Some(f) = sent.filter(|f| radio.carries(f, rng)) else {
        return;
    };
    let answers = run.put(&f, &mut [0; OUT_BYTES]);
    for a in answers.chunks(FRAME_BYTES) {
        for unit in units.iter_mut().filter(|_| radio.carries(a, rng)) {
            let (after, refusal) = unit::hear(unit, a);
            assert_eq!(refusal, 0);
            *unit = after;
        }
    }
}

/// Both ends over bad radio: nothing is refused, and by Again all come home at both ends.
#[test]
fn all_come_home_over_bad_radio() {
    let mut rng = Rng(0xBAD);
    let mut radio = Radio::default();
    let (mut repeats, mut again) = (0, 0);
    for _ in 0..200 {
        let mut run = Run::open(&mut rng);
        let tally = &run.tally;
        let mut units: Vec<Unit> = (0..tally.trains())
            .map(|t| unit::make(t as u8, tally.starts[t], tally.ends[t]).0)
            .collect();
        let home = |run: &Run| (0..run.tally.trains()).all(|t| !run.tally.short_of_end(t));
        for _ in 0..50_000 {
            if home(&run) {
                break;
            }
            press_over_bad_radio(&mut run, &mut units, &mut radio, &mut rng);
            for (t, u) in units.iter().enumerate() {
                assert!(keeps_up(&run.tally, t, u), "{u:?}");
            }
        }
        assert!(home(&run) && units.iter().all(|u| u.at == u.end));
        assert_eq!(run.refused, [0; 27]);
        repeats += run.repeats.len();
        again += run.again.len();
    }
    let lost = [FA, FE, AFE, AM].map(|kind| radio.lost[usize::from(kind)]);
    assert!(lost.iter().all(|n| *n > 500), "{lost:?}");
    assert!(repeats > 2000 && again > 500, "{repeats} {again}");
}

/// A lost AM and an Ask before Again: to the dispatcher the train still runs, so that its FA is 9,
/// and Again gives no other frame. Again before Ask, and all is well.
#[test]
fn again_before_ask() {
    let mut b = Box::open(&X);
    let mut cab = Cab::of(0, 0, 2);
    let fa = cab.press(Button::Ask).unwrap().unwrap();
    assert_eq!(b.put(&fa), one(FE, 0, 0, 1));
    cab.hear(frame(FE, 0, 0, 1));
    let am = frame(AM, 0, 0, 1);
    cab.runs(am); // lost
    let mut hasty = Cab(cab.0);
    let (ask, running) = (frame(FA, 0, 1, 2), b.state);
    assert_eq!(hasty.press(Button::Ask), Ok(Some(ask)));
    assert_eq!(b.put(&ask), Err(9));
    assert_eq!(hasty.again(), Ok(ask));
    assert_eq!(b.put(&ask), Err(9));
    assert_eq!(b.state, running);

    assert_eq!(cab.again(), Ok(am));
    assert_eq!(b.put(&am), NOTHING);
    assert_eq!(cab.press(Button::Ask), Ok(Some(ask)));
    assert_eq!(b.put(&ask), one(AFE, 0, 1, 2));
}
