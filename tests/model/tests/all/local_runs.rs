//! Runs under local responsibility (02, card 4): a track gang asks for a section, holds it and
//! gives it back. A test or more for each sentence of the card.

use crate::common::*;
use crate::tally::Tally;
use model::*;

/// What a gang says, or is told, of a section.
pub fn gang(kind: u8, section: u8) -> [u8; FRAME_BYTES] {
    frame(kind, GANG, section, section + 1)
}

/// What came of a frame: the frames sent, or the refusal.
pub type Came = Result<Vec<[u8; 4]>, u8>;

/// The section is given: one LE, and nothing else.
pub fn given(section: u8) -> Came {
    Ok(vec![[LE, GANG, section, section + 1]])
}

/// Local runs are asked for and given back at once, so many times.
pub fn come_and_go(b: &mut Box, section: u8, times: u8) {
    for _ in 0..times {
        assert_eq!(b.put(&gang(LA, section)), given(section));
        assert_eq!(b.put(&gang(LB, section)), Ok(vec![]));
    }
}

// One list on book X, right after opening.

fn list_on_x() -> Vec<([u8; FRAME_BYTES], Came)> {
    vec![
        (frame(LA, 255, 0, 1), Ok(vec![[LE, 255, 0, 1]])),
        (frame(FA, 0, 0, 1), Ok(vec![[AFE, 0, 0, 1]])),
        (frame(LA, 255, 0, 1), Err(24)),
        (frame(LB, 255, 1, 2), Err(25)),
        (frame(LB, 255, 0, 1), Ok(vec![[FE, 0, 0, 1]])),
        (frame(LA, 255, 0, 1), Err(24)), // a train
        (frame(LE, 255, 0, 1), Err(6)),
        (frame(LA, 0, 0, 1), Err(7)),
        (frame(LA, 255, 1, 0), Err(9)),
        (frame(LA, 255, 2, 3), Err(9)),
        (frame(8, 255, 0, 1), Err(5)),
        (frame(FA, 255, 0, 1), Err(7)),
    ]
}

const PRINTED: &str = "0 LA 255 0 1 0
1 LE 255 0 1 0
2 FA 0 0 1 0
3 AFE 0 0 1 0
4 LB 255 0 1 0
5 FE 0 0 1 1
end 6 9
";

#[test]
fn the_list_on_x() {
    let mut b = Box::open(&X);
    for (f, came) in list_on_x() {
        assert_eq!(b.put(&f), came, "{f:?}");
    }
    assert_eq!((b.state.possessions, b.state.given), ([false; 7], 1));
    let logged = [
        record(LA, 255, 0, 1),
        record(LE, 255, 0, 1),
        record(FA, 0, 0, 1),
        record(AFE, 0, 0, 1),
        record(LB, 255, 0, 1),
        authority(0, 0, 1, 1),
    ];
    assert_eq!(b.journal[..6], logged);
    assert!(b.journal[6..].iter().all(|r| *r == OLD));
}

#[test]
fn the_list_on_x_printed() {
    let mut input = X.to_vec();
    input.extend(list_on_x().into_iter().flat_map(|(f, _)| f));
    assert_eq!(program::run(&mut &input[..]), PRINTED);
}

// "Frames of kind 5 (LA, ask), 6 (LE, given) and 7 (LB, back) have train byte 255 and name the two
// neighbouring posts, lower first."

#[test]
fn frames_of_gangs() {
    let m = Move {
        train: 255,
        from: 3,
        to: 4,
    };
    let messages = [Message::La(m), Message::Le(m), Message::Lb(m)];
    for (message, (kind, word)) in messages.into_iter().zip([(5, "LA"), (6, "LE"), (7, "LB")]) {
        let bytes = [0, 5, 1, kind, 255, 3, 4];
        assert_eq!(read_frame(&bytes), Ok(message));
        assert_eq!(write_frame(message), bytes);
        assert_eq!(Record::of(message, 0), record(kind, 255, 3, 4));
        assert_eq!(record(kind, 255, 3, 4).word(), word);
    }
    assert_eq!(read_frame(&frame(8, 255, 3, 4)), Err(5));
    assert_eq!(record(8, 255, 3, 4).word(), "?");
}

// "LA is answered by LE exactly if no train and no gang holds the section and fewer than 20 local
// runs were given since opening."

/// Who holds a section.
#[derive(Clone, Copy, PartialEq)]
enum Holder {
    Nobody,
    Gang,
    UpTrain,
    DownTrain,
}

const HOLDERS: [Holder; 4] = [
    Holder::Nobody,
    Holder::Gang,
    Holder::UpTrain,
    Holder::DownTrain,
];

/// A line of eight posts with one section held so, and nothing else.
fn with_holder(section: u8, holder: Holder, runs: u8) -> State {
    let train = match holder {
        Holder::UpTrain => (section, section + 1, Standing::Running(1)),
        Holder::DownTrain => (section + 1, section, Standing::Running(1)),
        _ => (section, section + 1, Standing::Free),
    };
    let mut s = state(&[1; 8], &[train], 0);
    s.possessions[usize::from(section)] = holder == Holder::Gang;
    s.given = runs;
    s
}

#[test]
fn given_exactly_if_unheld_and_fewer_than_twenty() {
    for (section, holder) in (0..7).flat_map(|s| HOLDERS.map(|h| (s, h))) {
        for (asked, runs) in (0..7).flat_map(|a| (0..=20).map(move |n| (a, n))) {
            let before = with_holder(section, holder, runs);
            let mut b = boxed(before, vec![0; TABLE_BYTES]);
            let came = b.put(&gang(LA, asked));
            if asked == section && holder != Holder::Nobody {
                assert_eq!(came, Err(24));
            } else if runs == 20 {
                assert_eq!(came, Err(26));
            } else {
                assert_eq!(came, given(asked));
                let mut after = before;
                after.possessions[usize::from(asked)] = true;
                after.given = runs + 1;
                after.journal = 2;
                assert_eq!(b.state, after);
                let logged = [LA, LE].map(|kind| record(kind, 255, asked, asked + 1));
                assert_eq!(b.journal[..2], logged);
                assert_eq!(b.journal[2], Record::BLANK);
            }
        }
    }
}

/// Trains that stand at the two posts, on all their tracks and waiting or not, hold no section.
#[test]
fn standing_trains_stop_no_gang() {
    let routes = [(0, 1), (0, 1), (1, 0), (1, 0)];
    for asked in [false, true] {
        let trains: Vec<_> = (0..)
            .zip(routes)
            .map(|(n, (start, end))| match asked {
                true => (start, end, Standing::Asked(n)),
                false => (start, end, Standing::Free),
            })
            .collect();
        let mut b = boxed(state(&[2, 2], &trains, 4), vec![0; TABLE_BYTES]);
        let before = b.state;
        assert_eq!(b.put(&gang(LA, 0)), given(0));
        assert_eq!(b.state.train, before.train);
    }
}

/// A gang holds no track: a train may come to and leave the posts beside it.
#[test]
fn a_gang_holds_no_track() {
    let mut b = Box::open(&book(&[1, 1, 1, 1], &[(0, 1), (2, 3)]));
    assert_eq!(b.put(&gang(LA, 1)), given(1));
    for post in 0..4 {
        let standing = usize::from(post == 0 || post == 2);
        assert_eq!(b.state.holders_of_post(post), standing);
        assert_eq!(b.state.free_track(post, true).is_none(), standing == 1);
    }
    assert_eq!(b.put(&frame(FA, 0, 0, 1)), Ok(vec![[FE, 0, 0, 1]]));
    assert_eq!(b.put(&frame(FA, 1, 2, 3)), Ok(vec![[FE, 1, 2, 3]]));
    assert!(sound(&b.state));
}

/// An LA starts no granting, though a train could be granted by a table altered since it asked.
#[test]
fn asking_starts_no_granting() {
    let mut b = Box::open(&X);
    b.table.fill(0);
    assert_eq!(b.put(&frame(FA, 0, 0, 1)), Ok(vec![[AFE, 0, 0, 1]]));
    b.table.fill(255);
    assert_eq!(b.put(&gang(LA, 1)), given(1));
    assert_eq!(b.state.train[0].standing, Standing::Asked(0));
    assert_eq!(b.put(&gang(LB, 1)), Ok(vec![[FE, 0, 0, 1]]));
}

/// Twenty times a run on section 0 of X, each given back.
fn after_twenty() -> Box {
    let mut b = Box::open(&X);
    come_and_go(&mut b, 0, 20);
    assert_eq!((b.state.given, b.state.journal), (20, 60));
    assert_eq!(b.state.possessions, [false; 7]);
    b
}

#[test]
fn twenty_since_opening() {
    let mut b = after_twenty();
    assert_eq!(b.put(&frame(LA, 255, 0, 1)), Err(26));
    assert_eq!(b.put(&frame(LA, 255, 1, 2)), Err(26));
    assert_eq!(b.put(&frame(FA, 0, 0, 1)), Ok(vec![[FE, 0, 0, 1]]));
    // 24 before 26.
    assert_eq!(b.put(&frame(LA, 255, 0, 1)), Err(24));
    assert_eq!(b.put(&frame(LA, 255, 1, 2)), Err(26));
    assert_eq!(b.put(&frame(LB, 255, 0, 1)), Err(25));
    // A new opening counts anew.
    let journal = b.journal;
    let mut table = vec![0; TABLE_BYTES];
    let (state, _) = open(&X, &mut table, &journal);
    let mut b = boxed(state, table);
    assert_eq!(b.put(&frame(LA, 255, 0, 1)), given(0));
}

/// The twentieth is still out: no other is given, and it is taken back.
#[test]
fn the_twentieth_comes_back() {
    let mut b = Box::open(&X);
    come_and_go(&mut b, 0, 18);
    assert_eq!(b.put(&gang(LA, 0)), given(0));
    assert_eq!(b.put(&gang(LA, 1)), given(1));
    assert_eq!(b.put(&gang(LA, 0)), Err(24));
    assert_eq!(b.put(&gang(LB, 0)), Ok(vec![]));
    assert_eq!(b.put(&gang(LA, 0)), Err(26));
    assert_eq!(b.put(&gang(LA, 1)), Err(24));
    assert_eq!(b.put(&gang(LB, 1)), Ok(vec![]));
    assert_eq!(b.put(&gang(LB, 1)), Err(25));
    assert_eq!(b.state.given, 20);
}

/// What is refused counts for nothing.
#[test]
fn only_given_runs_count() {
    let mut b = Box::open(&X);
    assert_eq!(b.put(&gang(LA, 0)), given(0));
    for _ in 0..30 {
        assert_eq!(b.put(&gang(LA, 0)), Err(24));
        assert_eq!(b.put(&gang(LB, 1)), Err(25));
        assert_eq!(b.put(&gang(LE, 1)), Err(6));
    }
    assert_eq!((b.state.given, b.state.journal), (1, 2));
}

// "A section held by a gang blocks authorities."

#[test]
fn a_gang_blocks_both_ways() {
    for (from, to) in [(0, 1), (1, 0)] {
        let mut b = Box::open(&book(&[4, 4], &[(from, to)]));
        b.table.fill(255);
        assert_eq!(b.put(&gang(LA, 0)), given(0));
        assert_eq!(b.put(&frame(FA, 0, from, to)), Ok(vec![[AFE, 0, from, to]]));
        assert_eq!(b.put(&gang(LB, 0)), Ok(vec![[FE, 0, from, to]]));
        // Now the train blocks the gang, until it has arrived.
        assert_eq!(b.put(&gang(LA, 0)), Err(24));
        assert_eq!(b.put(&frame(AM, 0, from, to)), Ok(vec![]));
        assert_eq!(b.put(&gang(LA, 0)), given(0));
    }
}

/// It blocks its own section only, and every later granting too.
#[test]
fn a_gang_blocks_its_own_section() {
    let mut b = Box::open(&book(&[2; 4], &[(0, 3), (3, 0), (1, 2)]));
    b.table.fill(255);
    assert_eq!(b.put(&gang(LA, 1)), given(1));
    assert_eq!(b.put(&frame(FA, 2, 1, 2)), Ok(vec![[AFE, 2, 1, 2]]));
    assert_eq!(b.put(&frame(FA, 0, 0, 1)), Ok(vec![[FE, 0, 0, 1]]));
    assert_eq!(b.put(&frame(FA, 1, 3, 2)), Ok(vec![[FE, 1, 3, 2]]));
    assert_eq!(b.put(&frame(AM, 0, 0, 1)), Ok(vec![]));
    assert_eq!(b.put(&frame(AM, 1, 3, 2)), Ok(vec![]));
    assert_eq!(b.put(&frame(FA, 1, 2, 1)), Ok(vec![[AFE, 1, 2, 1]]));
    assert_eq!(b.put(&gang(LB, 1)), Ok(vec![[FE, 2, 1, 2]]));
}

// "LB frees it and starts the same granting as AM."

/// Of two that wait for the section the older goes, and the other with the arrival.
#[test]
fn the_oldest_goes_when_a_gang_is_back() {
    for (first, second) in [(0, 1), (1, 0)] {
        let routes = [(0, 1), (1, 0)];
        let mut b = Box::open(&book(&[2, 2], &routes));
        let by = |kind: u8, t: u8| {
            let (from, to) = routes[usize::from(t)];
            [kind, t, from, to]
        };
        let say = |kind: u8, t: u8| {
            let [kind, t, from, to] = by(kind, t);
            frame(kind, t, from, to)
        };
        assert_eq!(b.put(&gang(LA, 0)), given(0));
        assert_eq!(b.put(&say(FA, first)), Ok(vec![by(AFE, first)]));
        assert_eq!(b.put(&say(FA, second)), Ok(vec![by(AFE, second)]));
        assert_eq!(b.put(&gang(LB, 0)), Ok(vec![by(FE, first)]));
        assert_eq!(b.put(&say(AM, first)), Ok(vec![by(FE, second)]));
    }
}

/// Several go at once, again from the oldest: train 1 goes first, which sets the bit that train 0
/// lacked, then 0, then 2. No AFE is sent.
#[test]
fn several_go_when_a_gang_is_back() {
    let trains = [
        (0, 1, Standing::Asked(4)),
        (2, 3, Standing::Asked(6)),
        (4, 5, Standing::Asked(8)),
    ];
    let mut s = state(&[1; 8], &trains, 9);
    s.possessions[2] = true;
    let mut b = boxed(s, bits(&[8, 9, 8 + 64, 9 + 64]));
    let sent = vec![[FE, 1, 2, 3], [FE, 0, 0, 1], [FE, 2, 4, 5]];
    assert_eq!(b.put(&gang(LB, 2)), Ok(sent));
    let logged = [
        record(LB, 255, 2, 3),
        authority(1, 2, 3, 1),
        authority(0, 0, 1, 1),
        authority(2, 4, 5, 1),
    ];
    assert_eq!(b.journal[9..13], logged);
    assert_eq!(b.journal[13], Record::BLANK);
    assert_eq!((b.state.journal, b.state.given), (13, 0));
    assert_eq!(b.state.possessions, [false; 7]);
}

/// An LB and an AM on a section that nobody waits for start the same granting.
#[test]
fn the_same_granting_as_after_an_arrival() {
    let trains = [
        (0, 1, Standing::Asked(2)),
        (2, 1, Standing::Asked(1)),
        (3, 4, Standing::Asked(0)),
        (6, 7, Standing::Running(1)),
    ];
    let mut rng = Rng(0x1B);
    let mut granted = [0; 4];
    for _ in 0..200 {
        let mut arrival = boxed(state(&[1; 8], &trains, 3), rng.bytes(TABLE_BYTES));
        // The same without train 3, whose digit of the code is 1 above.
        let mut back = boxed(arrival.state, arrival.table[64..].to_vec());
        back.table.resize(TABLE_BYTES, 0);
        back.state.trains = 3;
        back.state.possessions[6] = true;
        let sent = back.put(&gang(LB, 6)).unwrap();
        granted[sent.len()] += 1;
        assert_eq!(arrival.put(&frame(AM, 3, 6, 7)), Ok(sent));
        assert_eq!(back.state.train[..3], arrival.state.train[..3]);
        assert_eq!(back.journal[4..], arrival.journal[4..]);
    }
    assert!(granted[..3].iter().all(|n| *n > 20), "{granted:?}");
}

/// Six that wait all go: 42 bytes, and the last seven of 236 records. Then the state is strange.
#[test]
fn six_go_when_a_gang_is_back() {
    let trains: Vec<_> = (0..6)
        .map(|t| (t, t + 1, Standing::Asked(200 - t)))
        .collect();
    for section in 0..7 {
        let mut s = state(&[4; 8], &trains, 229);
        s.possessions[usize::from(section)] = true;
        s.given = 20;
        let mut b = boxed(s, vec![255; TABLE_BYTES]);
        let sent = (0..6).rev().map(|t| [FE, t, t, t + 1]).collect();
        assert_eq!(b.put(&gang(LB, section)), Ok(sent));
        assert_eq!(b.state.journal, 236);
        assert_eq!(b.journal[229], record(LB, 255, section, section + 1));
        assert_eq!(b.journal[235], authority(0, 0, 1, 2));
        assert!(!sound(&b.state));
        assert_eq!(b.put(&frame(AM, 0, 0, 1)), Err(1));
    }
}

// "The journal grows to 236 records, and refusals 1, 2 and 13 count with that." Card 7 takes 13 away,
// and a count above 229 is 1.

/// A line of four posts with a gang on section 1 and so many records.
fn with_records(count: u8, runs: u8) -> Box {
    let mut s = state(&[2; 4], &[(0, 3, Standing::Free)], count);
    s.possessions[1] = true;
    s.given = runs;
    boxed(s, vec![255; TABLE_BYTES])
}

/// 1 from count 230 on, before all other checks; up to 229 each of them as ever.
#[test]
fn strange_for_gangs_from_230_records_on() {
    for count in 0..=255u8 {
        let strange = count > 229;
        for (f, number) in [
            (gang(LA, 0), 0),
            (gang(LB, 1), 0),
            (gang(LA, 1), 24),
            (gang(LB, 0), 25),
            (gang(LE, 0), 6),
            (frame(LA, 0, 0, 1), 7),
            (frame(LB, 0, 1, 2), 7),
            (frame(LA, 255, 1, 0), 9),
            (frame(LB, 255, 2, 1), 9),
            (frame(8, 255, 0, 1), 5),
        ] {
            let due = if strange { 1 } else { number };
            let came = with_records(count, 19).put(&f);
            assert_eq!(came.err().unwrap_or(0), due, "{f:?} at {count}");
        }
        let came = with_records(count, 20).put(&gang(LA, 0));
        assert_eq!(came, Err(if strange { 1 } else { 26 }));
    }
}

/// At the last count the LA and its LE are logged, and then nothing is taken.
#[test]
fn the_last_records() {
    let mut b = with_records(229, 19);
    assert_eq!(b.put(&gang(LA, 0)), given(0));
    assert_eq!(b.state.journal, 231);
    assert_eq!(b.journal[229], record(LA, 255, 0, 1));
    assert_eq!(b.journal[230], record(LE, 255, 0, 1));
    assert_eq!(b.put(&gang(LB, 0)), Err(1));
    assert_eq!(b.put(&frame(FA, 0, 0, 1)), Err(1));
    // One before it the LB is taken too, with its one record.
    let mut b = with_records(228, 19);
    assert_eq!(b.put(&gang(LB, 1)), Ok(vec![]));
    assert_eq!(b.put(&gang(LA, 0)), given(0));
    assert_eq!(b.state.journal, 231);
    assert_eq!(b.journal[228], record(LB, 255, 1, 2));
    assert_eq!(b.put(&gang(LB, 0)), Err(1));
}

/// 2: a journal of 235 records, an out buffer of 41 bytes, a table of 32,767. After 1, before all
/// else, at the opening too.
#[test]
fn short_stores() {
    let (b, strange) = (with_records(0, 0), with_records(0, 21));
    for (table, records, out) in [(32_767, 236, 42), (32_768, 235, 42), (32_768, 236, 41)] {
        for f in [gang(LA, 0), gang(LB, 1), gang(LE, 1), gang(8, 1)] {
            for (state, number) in [(&b.state, 2), (&strange.state, 1)] {
                let mut journal = vec![OLD; records];
                let mut out = vec![0x77; out];
                let came = answer(state, &b.table[..table], &mut journal, &f, &mut out);
                assert_eq!(came, (*state, Verdict::Refused(number)));
                assert!(journal.iter().all(|r| *r == OLD));
                assert!(out.iter().all(|byte| *byte == 0x77));
            }
        }
    }
    let mut table = vec![3; TABLE_BYTES];
    assert_eq!(open(&X, &mut table, &[OLD; 235]), (State::EMPTY, 2));
    assert!(table.iter().all(|byte| *byte == 3));
    assert_eq!(open(&X, &mut table, &[OLD; 236]).1, 0);
}

// "LE at the dispatcher is 6."

#[test]
fn given_at_the_dispatcher_is_6() {
    for mut b in [Box::open(&X), with_records(229, 20), after_twenty()] {
        for train in [0, 1, 6, 254, 255] {
            for (from, to) in [(0, 1), (1, 2), (1, 0), (0, 0), (7, 8), (255, 0), (9, 9)] {
                assert_eq!(b.put(&frame(LE, train, from, to)), Err(6));
            }
        }
    }
}

// "Kinds 5, 6 and 7 are known now, and heard by a unit change nothing."

/// In every state, with every train byte, also its own, and any posts, also its own move.
#[test]
fn units_hear_of_gangs() {
    for state in STATES {
        let unit = Unit {
            train: 3,
            start: 1,
            end: 6,
            at: 4,
            state,
        };
        for train in 0..=255 {
            for (from, to) in [(4, 5), (5, 4), (0, 1), (4, 4), (255, 255)] {
                for kind in [LA, LE, LB] {
                    let f = frame(kind, train, from, to);
                    assert_eq!(unit::hear(&unit, &f), (unit, 0), "{f:?}");
                }
            }
        }
        let off = Unit { at: 0, ..unit };
        assert_eq!(unit::hear(&off, &gang(LE, 0)), (off, 1));
        assert_eq!(unit::hear(&unit, &gang(8, 0)), (unit, 5));
        assert_eq!(unit::hear(&unit, &[0, 5, 2, LE, 255, 0, 1]), (unit, 4));
        assert_eq!(unit::hear(&unit, &gang(LE, 0)[..6]), (unit, 3));
    }
    let (home, _) = unit::make(3, 4, 4);
    for kind in [LA, LE, LB] {
        assert_eq!(unit::hear(&home, &frame(kind, 3, 4, 5)), (home, 0));
    }
}

// "The standstill clause is for lists after which no gang holds a section; in the section clause a
// gang is a holder, from its LE written to its LB accepted."

/// Puts a frame and tells the tally of it: refusal and answers are as it says.
fn told(b: &mut Box, tally: &mut Tally, f: [u8; FRAME_BYTES]) -> Came {
    let first = usize::from(b.state.journal) + 1;
    let number = tally.refusal(&f, OUT_BYTES);
    let came = b.put(&f);
    if number != 0 {
        assert_eq!(came, Err(number));
        return came;
    }
    assert_eq!(tally.repeat_due(&f), None);
    tally.take(&f);
    let due = tally.answers_due(&f, &b.table, &b.journal[first..]);
    let sent = due.iter().map(|r| [r.kind, r.train, r.from, r.to]);
    assert_eq!(came, Ok(sent.collect()));
    tally.check_holding();
    tally.check_standstill();
    came
}

/// With gangs on both sections of X both trains wait, and may: when these are back they do not.
#[test]
fn standstill_while_gangs_are_out() {
    let mut b = Box::open(&X);
    let mut tally = Tally::new(&[1, 2, 1], 0, &[(0, 2), (2, 0)]);
    let mut put = |f| (told(&mut b, &mut tally, f), tally.standstill());
    assert_eq!(put(gang(LA, 0)), (given(0), false));
    assert_eq!(put(gang(LA, 1)), (given(1), false));
    let declined = |t, from| Ok(vec![[AFE, t, from, 1]]);
    let granted = |t, from| Ok(vec![[FE, t, from, 1]]);
    assert_eq!(put(frame(FA, 0, 0, 1)), (declined(0, 0), false));
    assert_eq!(put(frame(FA, 1, 2, 1)), (declined(1, 2), true));
    assert_eq!(put(gang(LA, 1)), (Err(24), true));
    assert_eq!(put(gang(LB, 1)), (granted(1, 2), false));
    assert_eq!(put(frame(AM, 1, 2, 1)), (Ok(vec![]), false));
    assert_eq!(
        put(frame(FA, 1, 1, 0)),
        (Ok(vec![[AFE, 1, 1, 0]]), true),
        "one gang is still out"
    );
    assert_eq!(put(gang(LB, 0)), (granted(0, 0), false));
}

/// A gang is a holder from its LE to its LB, and no frame that is refused changes that.
#[test]
fn a_gang_is_a_holder() {
    let mut b = Box::open(&X);
    let mut tally = Tally::new(&[1, 2, 1], 0, &[(0, 2), (2, 0)]);
    let steps = [
        (gang(LB, 0), [0, 0]),
        (gang(LA, 0), [1, 0]),
        (gang(LA, 0), [1, 0]),
        (gang(LB, 1), [1, 0]),
        (gang(LE, 1), [1, 0]),
        (frame(FA, 0, 0, 1), [1, 0]),
        (frame(FA, 1, 2, 1), [1, 1]),
        (gang(LA, 1), [1, 1]),
        (gang(LB, 0), [1, 1]), // train 0 goes in its place
        (frame(AM, 0, 0, 1), [0, 1]),
        (gang(LA, 0), [1, 1]),
        (frame(AM, 1, 2, 1), [1, 0]),
        (gang(LB, 0), [0, 0]),
    ];
    for (f, holders) in steps {
        let _ = told(&mut b, &mut tally, f);
        let by_tally = [0, 1].map(|section| tally.section_holders(section));
        assert_eq!(by_tally, holders, "{f:?}");
        let by_state = [0, 1].map(|section| b.state.holders_of_section(section));
        assert_eq!(by_state, holders, "{f:?}");
    }
    assert_eq!((tally.given, b.state.given), (2, 2));
}

/// The tally would see a section given twice, or to a gang and a train.
#[test]
fn the_tally_counts_every_gang() {
    let mut tally = Tally::new(&[1, 2, 1], 0, &[(0, 2), (2, 0)]);
    for count in 1..=2 {
        tally.take(&gang(LA, 0));
        tally.answers_due(&gang(LA, 0), &[], &[]);
        assert_eq!(
            (tally.section_holders(0), tally.given),
            (count, count as u8)
        );
    }
    tally.hear(&authority(0, 0, 1, 1), 1);
    assert_eq!(tally.section_holders(0), 3);
    assert_eq!(tally.section_holders(1), 0);
    tally.take(&gang(LB, 0));
    assert_eq!((tally.section_holders(0), tally.given), (2, 2));
    assert!(tally.gang_is_out());
}

// "Checks: for kinds 5 and 7, after 6, a train byte not 255 is 7 and posts not so named are 9; then
// for LA 24, section taken, and 26, twenty already given; for LB 25, no local run there; then 13."
// Card 7 takes 13 away.

/// The refusal of a frame put to a state, or 0.
fn number_of(state: &State, f: &[u8]) -> u8 {
    let mut journal = [OLD; JOURNAL_RECORDS];
    let table = [255; TABLE_BYTES];
    match answer(state, &table, &mut journal, f, &mut [0; OUT_BYTES]).1 {
        Verdict::Refused(number) => number,
        Verdict::Sent(_) => 0,
    }
}

/// Any posts on lines of all lengths, with a gang on section 0 and twenty given or not: 7, then 9,
/// then 24, 26 and 25.
#[test]
fn checks_of_a_gangs_frame() {
    let bytes: Vec<u8> = (0..=9).chain([254, 255]).collect();
    let pairs = bytes.iter().flat_map(|f| bytes.iter().map(|t| (*f, *t)));
    let pairs: Vec<(u8, u8)> = pairs.collect();
    for (posts, runs) in (2..=8).flat_map(|p| [(p, 19), (p, 20)]) {
        let tracks = vec![1; usize::from(posts)];
        let mut s = state(&tracks, &[(0, 1, Standing::Free)], 0);
        s.possessions[0] = true;
        s.given = runs;
        for (from, to) in &pairs {
            let named = *to < posts && usize::from(*to) == usize::from(*from) + 1;
            let (asked, back) = match (named, from) {
                (false, _) => (9, 9),
                (true, 0) => (24, 0),
                (true, _) => (if runs == 20 { 26 } else { 0 }, 25),
            };
            for (kind, due) in [(LA, asked), (LB, back)] {
                let came = |train| number_of(&s, &frame(kind, train, *from, *to));
                assert_eq!(came(255), due, "{kind} {from} {to} of {posts}");
                assert_eq!([0, 1, 254].map(came), [7; 3]);
            }
        }
    }
}

/// 8 is for trains: at a line whose trains are all home a gang is given its section.
#[test]
fn no_8_for_gangs() {
    let mut b = Box::open(&book(&[1, 1], &[(0, 0), (1, 1)]));
    assert_eq!(b.put(&gang(LA, 0)), given(0));
    assert_eq!(b.put(&gang(LB, 0)), Ok(vec![]));
}

/// The train byte 255 is no train's: an FA or AM with it is 7 as before, whoever is out.
#[test]
fn a_train_is_not_255() {
    let mut b = Box::open(&X);
    for _ in 0..2 {
        for kind in [FA, AM] {
            assert_eq!(b.put(&frame(kind, 255, 0, 1)), Err(7));
            assert_eq!(b.put(&frame(kind, 255, 9, 9)), Err(7));
        }
        let _ = b.put(&gang(LA, 0));
    }
}

// The state.

#[test]
fn no_gang_is_out_at_the_opening() {
    for b in [&X[..], &Y] {
        let state = Box::open(b).state;
        assert_eq!((state.possessions, state.given), ([false; 7], 0));
    }
    assert_eq!(State::EMPTY.possessions, [false; 7]);
    assert_eq!(State::EMPTY.given, 0);
}

type Change = fn(&mut State);

/// Whether the opened X with train 0 Running is still sound with this change.
const CHANGES: [(bool, Change); 13] = [
    (true, |_| ()),
    (false, |s| s.possessions[0] = true), // train 0 is there
    (true, |s| s.possessions[1] = true),
    (false, |s| s.possessions = [true; 7]),
    (true, |s| s.possessions[2..].fill(true)), // not read
    (true, |s| {
        s.train[0].standing = Standing::Free;
        s.possessions = [true; 7];
    }),
    (true, |s| s.given = 20),
    (false, |s| s.given = 21),
    (false, |s| s.given = 255),
    // One that waits holds no section, one that runs down does.
    (true, |s| {
        s.train[1].standing = Standing::Asked(0);
        s.possessions[1] = true;
    }),
    (true, |s| s.train[1].standing = Standing::Running(2)),
    (false, |s| {
        s.train[1].standing = Standing::Running(2);
        s.possessions[1] = true;
    }),
    (true, |s| {
        s.train[1].standing = Standing::Running(2);
        s.possessions[2] = true;
    }),
];

#[test]
fn sound_states_with_gangs() {
    for (number, (expected, change)) in CHANGES.iter().enumerate() {
        let mut b = Box::open(&X);
        b.put(&frame(FA, 0, 0, 1)).unwrap();
        change(&mut b.state);
        assert_eq!(sound(&b.state), *expected, "change {number}: {:?}", b.state);
        let strange = b.put(&gang(LE, 0)) == Err(1);
        assert_eq!(strange, !expected);
    }
}

/// Any sections held and any number given, up to twenty, go together.
#[test]
fn held_and_given_are_apart() {
    for (set, runs) in (0..128u8).flat_map(|set| [(set, 0), (set, 7), (set, 20)]) {
        let mut s = state(&[1; 8], &[(0, 1, Standing::Free)], 0);
        s.possessions = std::array::from_fn(|section| set >> section & 1 == 1);
        s.given = runs;
        assert!(sound(&s));
        for section in 0..7 {
            let out = set >> section & 1 == 1;
            assert_eq!(s.gang_holds(section), out);
            let due = if out { 0 } else { 25 };
            assert_eq!(number_of(&s, &gang(LB, section)), due);
        }
    }
}

/// Places of sections from P - 1 on neither change an answer nor are changed.
#[test]
fn unread_sections() {
    for posts in 2..=8 {
        let line = book(&vec![2; usize::from(posts)], &[(0, posts - 1)]);
        let mut clean = Box::open(&line);
        let mut odd = Box::open(&line);
        let (read, unread) = odd.state.possessions.split_at_mut(usize::from(posts) - 1);
        assert_eq!(read, &clean.state.possessions[..read.len()]);
        unread.fill(true);
        assert!(sound(&odd.state));
        let gangs = (0..8).flat_map(|s| [LA, LB, LA, LB].map(|kind| gang(kind, s)));
        let moves = (0..posts - 1).flat_map(|p| [FA, AM].map(|kind| frame(kind, 0, p, p + 1)));
        for f in gangs.chain(moves) {
            assert_eq!(clean.put(&f), odd.put(&f), "{f:?}");
            assert_eq!(clean.journal, odd.journal);
            let mut expected = clean.state;
            expected.possessions[usize::from(posts) - 1..].fill(true);
            assert_eq!(odd.state, expected);
        }
        for section in posts - 1..=255 {
            assert!(!odd.state.gang_holds(section));
        }
        assert_eq!(odd.state.given, 2 * (posts - 1));
    }
}
