//! What the journal's count brought about: frames answered near the most that a sound state counts, what they left,
//! states that are strange for their count alone, and how far the count goes in a run.

use crate::cases::{shown, CountCase};
use crate::pair::Reply;
use crate::repeats::repeats;
use inputs::encoding::state_of;
use inputs::frames::{AFE, KIND_AT};
use inputs::sizes::{FRAME_BYTES, JOURNAL_RECORDS, LOCAL_RUNS, MOST_COUNTED, OUT_BYTES};
use inputs::sizes::{RECORDS_A_FRAME, RECORD_BYTES, TABLE_BYTES};
use model::{Message, Record, Standing, State, Train, Verdict};

/// The most that a sound state counts.
pub const MOST: u8 = MOST_COUNTED as u8;

/// The least from which one frame may leave more than that.
pub const NEAR: u8 = MOST + 1 - RECORDS_A_FRAME as u8;

/// Records of a run from an opened book at the most: four for each of 42 moves, three for each local run.
pub const MOST_OF_RUN: u8 = 4 * 42 + 3 * LOCAL_RUNS;

/// A frame put to the box: the state before it, and all that is lent with it.
pub struct Put<'a> {
    pub state: &'a [u8],
    pub table: &'a [u8],
    pub journal: &'a [u8],
    pub frame: &'a [u8],
    pub out: &'a [u8],
}

impl<'a> Put<'a> {
    /// Lent with the state are the table, the journal, the frame and the out buffer.
    pub fn new(state: &'a [u8], lent: [&'a [u8]; 4]) -> Put<'a> {
        let [table, journal, frame, out] = lent;
        Put {
            state,
            table,
            journal,
            frame,
            out,
        }
    }

    /// The stores that are too short: the table, the journal, the out buffer.
    pub fn short(&self) -> [bool; 3] {
        [
            self.table.len() < TABLE_BYTES,
            self.records() < JOURNAL_RECORDS,
            self.out.len() < OUT_BYTES,
        ]
    }

    pub fn records(&self) -> usize {
        self.journal.len() / RECORD_BYTES
    }
}

/// Of a frame, with the state after it, as it fared.
pub fn of_frame(put: &Put, after: &[u8], reply: Reply) -> Vec<CountCase> {
    let (Some(before), Some(after)) = (state_of(put.state), state_of(after)) else {
        return vec![];
    };
    match (reply.refusal, model::read_frame(put.frame)) {
        (0, Ok(message)) => of_answered(
            &before,
            message,
            &after,
            &put.out[..FRAME_BYTES * reply.sent],
        ),
        (1, _) => of_strange(&before, put),
        (2, _) => {
            let by_one_record = put.records() == JOURNAL_RECORDS - 1;
            let alone = put.short() == [false, true, false];
            let case = CountCase::ShortAtMost;
            shown([(before.journal == MOST && by_one_record && alone, case)])
        }
        _ => vec![],
    }
}

/// Of a frame that was answered by these.
fn of_answered(before: &State, message: Message, after: &State, sent: &[u8]) -> Vec<CountCase> {
    let last = sent.chunks_exact(FRAME_BYTES).last();
    let declined = last.is_some_and(|last| last[KIND_AT] == AFE);
    let again = repeats(before, message);
    let [at_most, near] = by_kind(message, declined, again);
    let mut cases = shown([
        (before.journal == MOST, at_most),
        ((NEAR..MOST).contains(&before.journal), near),
    ]);
    if !again {
        cases.extend(of_left(message, declined, after.journal));
    }
    cases
}

/// The cases of an answered frame at the most and near it.
fn by_kind(message: Message, declined: bool, again: bool) -> [CountCase; 2] {
    use CountCase::*;
    match (message, declined, again) {
        (Message::Fa(_), false, false) => [GrantedAtMost, GrantedNear],
        (Message::Fa(_), true, false) => [DeclinedAtMost, DeclinedNear],
        (Message::Fa(_), true, true) => [DeclinedAgainAtMost, DeclinedAgainNear],
        (Message::Fa(_), false, true) => [GrantedAgainAtMost, GrantedAgainNear],
        (Message::La(_), _, _) => [GivenAtMost, GivenNear],
        (Message::Lb(_), _, _) => [BackAtMost, BackNear],
        (_, _, false) => [ArrivedAtMost, ArrivedNear],
        (_, _, true) => [ArrivedAgainAtMost, ArrivedAgainNear],
    }
}

/// Of a new frame, by the count that it left.
fn of_left(message: Message, declined: bool, count: u8) -> Option<CountCase> {
    match (count.checked_sub(MOST)?, message) {
        (0, _) => Some(CountCase::LeavesMost),
        (1, _) => Some(CountCase::LeavesOneMore),
        (7, Message::Fa(_)) if declined => Some(CountCase::LeavesAllAndDeclines),
        (7, Message::Fa(_)) => Some(CountCase::LeavesAllToRequest),
        (7, _) => Some(CountCase::LeavesAllToGang),
        _ => Some(CountCase::LeavesMore),
    }
}

/// Of a state that was refused by 1, and what else would have been.
fn of_strange(state: &State, put: &Put) -> Vec<CountCase> {
    let Some(lower) = lowered(state) else {
        return vec![];
    };
    let mut cases = vec![match state.journal - MOST {
        1 => CountCase::OneAbove,
        2..=7 => CountCase::AFrameAbove,
        _ => CountCase::FarAbove,
    }];
    match fate(&lower, put) {
        Verdict::Sent(_) if is_repeat(&lower, put.frame) => cases.push(CountCase::AboveRepeat),
        Verdict::Sent(_) => cases.push(CountCase::AboveNew),
        Verdict::Refused(2) => {
            let [table, journal, out] = put.short();
            cases.extend(shown([
                (table, CountCase::AboveShortTable),
                (journal, CountCase::AboveShortJournal),
                (out, CountCase::AboveShortOut),
            ]));
        }
        Verdict::Refused(3) => cases.push(CountCase::AboveTorn),
        Verdict::Refused(_) => cases.push(CountCase::AboveWrong),
    }
    cases
}

/// The state with the most that is in range for its count, and its requests in the same order; none where it is strange
/// for something else, or not for its count.
pub fn lowered(state: &State) -> Option<State> {
    let numbers = numbers_in(state);
    let distinct = numbers.windows(2).all(|two| two[0] < two[1]);
    let below = numbers.iter().all(|number| *number < state.journal);
    let lower = State {
        journal: MOST,
        ..renumbered(state)
    };
    (state.journal > MOST && distinct && below && model::sound(&lower)).then_some(lower)
}

/// The state with its requests numbered from 0 in the same order.
pub fn renumbered(state: &State) -> State {
    let numbers = numbers_in(state);
    let mut lower = *state;
    for train in &mut lower.train {
        if let Some(number) = number_of(train) {
            let earlier = numbers.iter().filter(|other| **other < number).count();
            train.standing = Standing::Asked(earlier as u8);
        }
    }
    lower
}

/// The numbers of the requests, the lowest first.
fn numbers_in(state: &State) -> Vec<u8> {
    let mut numbers: Vec<u8> = state.present().iter().filter_map(number_of).collect();
    numbers.sort();
    numbers
}

/// The number of the FA of a train that waits.
fn number_of(train: &Train) -> Option<u8> {
    match train.standing {
        Standing::Asked(number) => Some(number),
        Standing::Free | Standing::Running(_) => None,
    }
}

/// What would come of the frame in this state.
pub fn fate(state: &State, put: &Put) -> Verdict {
    let mut journal = vec![Record::BLANK; put.records()];
    let mut out = vec![0; put.out.len()];
    model::answer(state, put.table, &mut journal, put.frame, &mut out).1
}

pub fn is_repeat(state: &State, frame: &[u8]) -> bool {
    model::read_frame(frame).is_ok_and(|message| repeats(state, message))
}

/// Whether an accepted frame left more than the most. It is wrong where the state is strange for something else.
pub fn leaves_more(after: &[u8]) -> Result<bool, String> {
    let state = state_of(after).ok_or("a frame left no state\n")?;
    match (model::sound(&state), lowered(&state)) {
        (true, _) => Ok(false),
        (false, Some(_)) => Ok(true),
        (false, None) => Err(format!("a frame left a strange state: {state:?}\n")),
    }
}

/// Of a frame after one that left more than the most, which is refused by 1.
pub fn of_next(put: &Put) -> Option<CountCase> {
    let lower = lowered(&state_of(put.state)?)?;
    match (fate(&lower, put), model::read_frame(put.frame)) {
        (Verdict::Refused(3), _) => Some(CountCase::LeftThenTorn),
        (Verdict::Refused(_), _) => None,
        (_, Ok(Message::La(_) | Message::Lb(_))) => Some(CountCase::LeftThenGang),
        _ if is_repeat(&lower, put.frame) => Some(CountCase::LeftThenRepeat),
        _ => Some(CountCase::LeftThenTrain),
    }
}

/// Records that a train has logged at the most: four for each post travelled, and of the move that it is about two
/// while it is Asked, three while it is Running.
fn most_of_train(train: &Train) -> usize {
    let of_this_move = match train.standing {
        Standing::Free => 0,
        Standing::Asked(_) => 2,
        Standing::Running(_) => 3,
    };
    4 * usize::from(train.start.abs_diff(train.at)) + of_this_move
}

/// Records that trains and gangs have logged at the most in a run from an opened book, and the gangs that are out, each
/// of which has one to come.
pub fn most_in_a_run(state: &State) -> (usize, usize) {
    let of_trains: usize = state.present().iter().map(most_of_train).sum();
    let out = (0..7).filter(|section| state.gang_holds(*section)).count();
    (of_trains + 3 * usize::from(state.given), out)
}

/// Of a frame in a run from an opened book, with the state after it. It is wrong where it was refused by 1, or where
/// more is counted than trains and gangs can have logged.
pub fn in_a_run(put: &Put, after: &[u8], reply: Reply) -> Result<Vec<CountCase>, String> {
    let state = state_of(after).ok_or("no state in a run from an opened book\n")?;
    let (most, out) = most_in_a_run(&state);
    let count = usize::from(state.journal) + out;
    if count > most || most > usize::from(MOST_OF_RUN) {
        return Err(format!(
            "{count} records in a run, at most {most}: {state:?}\n"
        ));
    }
    if reply.refusal == 1 {
        return Err(format!("1 in a run from an opened book: {state:?}\n"));
    }
    let accepted = reply.refusal == 0;
    let changed = put.state != after;
    let ended = state.journal == MOST_OF_RUN;
    Ok(shown([
        (ended && changed, CountCase::RunToTheEnd),
        (changed && out > 0 && count == most, CountCase::RunAtItsMost),
        (ended && accepted && !changed, CountCase::RunRepeat),
        (ended && reply.refusal > 2, CountCase::RunRefused),
    ]))
}

#[cfg(test)]
mod tests {
    use super::*;
    use crate::state_moves::bring;
    use crate::tests::reply_of;
    use inputs::books::book;
    use inputs::crews;
    use inputs::encoding::state_bytes;
    use inputs::frames::{frame, local_run, AM, FA, LA, LB};
    use inputs::sizes::JOURNAL_BYTES;
    use std::sync::LazyLock;
    use CountCase::*;

    type Change = fn(&mut State);
    type Frame = [u8; FRAME_BYTES];

    /// Eight posts with four tracks each and six trains, each before a section of its own.
    static LINE: LazyLock<State> = LazyLock::new(|| {
        let routes = [[0, 7], [1, 7], [2, 7], [3, 6], [4, 6], [5, 7]];
        crews::open(&book(&[4; 8], &routes)).unwrap().state
    });

    fn line_with(count: u8, change: Change) -> State {
        let mut state = *LINE;
        state.journal = count;
        change(&mut state);
        state
    }

    /// The bytes of the table, the journal and the out buffer.
    const ENOUGH: [usize; 3] = [TABLE_BYTES, JOURNAL_BYTES, OUT_BYTES];

    /// The cases of a frame that is put to a state, with a table of ones and so many bytes lent.
    fn fared(state: &State, frame: &[u8], lent: [usize; 3]) -> Vec<CountCase> {
        let [table, journal, mut out] = lent.map(|bytes| vec![255; bytes]);
        let mut records = vec![Record::BLANK; journal.len() / RECORD_BYTES];
        let (after, verdict) = model::answer(state, &table, &mut records, frame, &mut out);
        let [before, after] = [state, &after].map(state_bytes);
        let put = Put::new(&before, [&table, &journal, frame, &out]);
        of_frame(&put, &after, reply_of(verdict))
    }

    fn told(count: u8, change: Change, frame: Frame) -> Vec<CountCase> {
        fared(&line_with(count, change), &frame, ENOUGH)
    }

    const ASK: Frame = frame(FA, 5, 5, 6);
    const ARRIVED: Frame = frame(AM, 5, 5, 6);
    const LA_6: Frame = local_run(LA, 6);
    const LB_6: Frame = local_run(LB, 6);

    fn asked(s: &mut State) {
        s.train[5].standing = Standing::Asked(0);
    }

    fn runs(s: &mut State) {
        s.train[5].standing = Standing::Running(1);
    }

    fn gang(s: &mut State) {
        s.possessions[6] = true;
    }

    /// Train 5 is declined for a gang.
    fn shut(s: &mut State) {
        s.possessions[5] = true;
    }

    fn moved(s: &mut State) {
        bring(&mut s.train[5], 6);
    }

    /// Five wait, each for its own section.
    fn five_wait(s: &mut State) {
        for (t, train) in s.train[..5].iter_mut().enumerate() {
            train.standing = Standing::Asked(100 + t as u8);
        }
    }

    #[test]
    fn frames_answered_near_the_most_are_told() {
        let cases: [(Change, Frame, u8, [CountCase; 2]); 8] = [
            (|_| (), ASK, 2, [GrantedAtMost, GrantedNear]),
            (shut, ASK, 2, [DeclinedAtMost, DeclinedNear]),
            (runs, ARRIVED, 1, [ArrivedAtMost, ArrivedNear]),
            (|_| (), LA_6, 2, [GivenAtMost, GivenNear]),
            (gang, LB_6, 1, [BackAtMost, BackNear]),
            (asked, ASK, 0, [DeclinedAgainAtMost, DeclinedAgainNear]),
            (runs, ASK, 0, [GrantedAgainAtMost, GrantedAgainNear]),
            (moved, ARRIVED, 0, [ArrivedAgainAtMost, ArrivedAgainNear]),
        ];
        for (change, frame, records, [at_most, near]) in cases {
            let left = [&[][..], &[LeavesOneMore], &[LeavesMore]][usize::from(records)];
            assert_eq!(told(229, change, frame), [&[at_most], left].concat());
            for count in 223..=228 - records {
                assert_eq!(told(count, change, frame), [near]);
            }
            assert_eq!(told(222, change, frame), []);
            if records > 0 {
                assert_eq!(told(229 - records, change, frame), [near, LeavesMost]);
            }
        }
    }

    #[test]
    fn what_seven_records_leave_is_told() {
        let declines: Change = |s| {
            five_wait(s);
            shut(s);
        };
        let comes_back: Change = |s| {
            five_wait(s);
            asked(s);
            gang(s);
        };
        for (change, frame, at_most, left) in [
            (five_wait as Change, ASK, GrantedAtMost, LeavesAllToRequest),
            (declines, ASK, DeclinedAtMost, LeavesAllAndDeclines),
            (comes_back, LB_6, BackAtMost, LeavesAllToGang),
        ] {
            assert_eq!(told(229, change, frame), [at_most, left]);
            assert_eq!(told(228, change, frame)[1], LeavesMore);
            assert_eq!(told(223, change, frame)[1], LeavesOneMore);
            assert_eq!(told(222, change, frame), [LeavesMost]);
        }
        let arrives: Change = |s| {
            five_wait(s);
            runs(s);
        };
        assert_eq!(told(229, arrives, ARRIVED), [ArrivedAtMost, LeavesMore]);
    }

    #[test]
    fn what_is_strange_for_its_count_alone_is_told() {
        for (count, above) in [
            (230, OneAbove),
            (231, AFrameAbove),
            (236, AFrameAbove),
            (237, FarAbove),
            (255, FarAbove),
        ] {
            assert_eq!(told(count, |_| (), ASK), [above, AboveNew]);
            assert_eq!(told(count, |_| (), LA_6), [above, AboveNew]);
            assert_eq!(told(count, asked, ASK), [above, AboveRepeat]);
            assert_eq!(told(count, moved, ARRIVED), [above, AboveRepeat]);
            assert_eq!(told(count, |_| (), ARRIVED), [above, AboveWrong]);
            let late: Change = |s| s.train[5].standing = Standing::Asked(229);
            assert_eq!(told(count, late, ASK), [above, AboveRepeat]);
            let torn = fared(&line_with(count, |_| ()), &ASK[..6], ENOUGH);
            assert_eq!(torn, [above, AboveTorn]);
            // Strange for another thing as well.
            assert_eq!(told(count, |s| s.given = 21, ASK), []);
            let numbered: Change = |s| s.train[5].standing = Standing::Asked(s.journal);
            assert_eq!(told(count, numbered, ASK), []);
            let alike: Change = |s| {
                let two = s.train[4..].iter_mut();
                two.for_each(|train| train.standing = Standing::Asked(7));
            };
            assert_eq!(told(count, alike, ASK), []);
        }
    }

    #[test]
    fn short_stores_are_told() {
        let [table, journal, out] = ENOUGH;
        let fared = |count, lent| fared(&line_with(count, |_| ()), &ASK, lent);
        let by_a_record = [table, journal - RECORD_BYTES, out];
        assert_eq!(fared(229, by_a_record), [ShortAtMost]);
        assert_eq!(fared(229, [table, journal - 1, out]), [ShortAtMost]);
        assert_eq!(fared(228, by_a_record), []);
        assert_eq!(fared(229, [table, journal - 2 * RECORD_BYTES, out]), []);
        assert_eq!(fared(229, [table, journal - 1, out - 1]), []);
        assert_eq!(fared(230, by_a_record), [OneAbove, AboveShortJournal]);
        let others = [table - 1, journal, out - 1];
        assert_eq!(
            fared(231, others),
            [AFrameAbove, AboveShortTable, AboveShortOut]
        );
    }

    #[test]
    fn the_frame_after_more_than_the_most_is_told() {
        let [table, journal, out] = ENOUGH.map(|bytes| vec![255; bytes]);
        let next = |count, change: Change, frame: &[u8]| {
            let state = state_bytes(&line_with(count, change));
            of_next(&Put::new(&state, [&table, &journal, frame, &out]))
        };
        let none: Change = |_| ();
        assert_eq!(next(230, none, &ASK), Some(LeftThenTrain));
        assert_eq!(next(236, runs, &ARRIVED), Some(LeftThenTrain));
        assert_eq!(next(231, none, &LA_6), Some(LeftThenGang));
        assert_eq!(next(231, gang, &LB_6), Some(LeftThenGang));
        assert_eq!(next(231, runs, &ASK), Some(LeftThenRepeat));
        assert_eq!(next(231, moved, &ARRIVED), Some(LeftThenRepeat));
        assert_eq!(next(230, none, &ASK[1..]), Some(LeftThenTorn));
        assert_eq!(next(230, none, &ARRIVED), None);
        assert_eq!(next(229, none, &ASK), None);
    }

    #[test]
    fn what_is_strange_for_more_than_its_count_is_not_left() {
        let left = |count, change: Change| leaves_more(&state_bytes(&line_with(count, change)));
        assert_eq!(left(229, asked), Ok(false));
        assert_eq!(left(230, asked), Ok(true));
        assert_eq!(left(255, runs), Ok(true));
        for count in [229, 230] {
            assert!(left(count, |s| s.given = 21).is_err());
            assert!(left(count, |s| s.train[5].track = 0).is_err());
        }
        assert!(leaves_more(&[]).is_err());
    }

    /// In a run a frame leaves this state, and fares so.
    fn run(state: &State, changed: bool, refusal: u8) -> Result<Vec<CountCase>, String> {
        let after = state_bytes(state);
        let before = if changed { vec![] } else { after.to_vec() };
        let put = Put::new(&before, [&[], &[], &ASK, &[]]);
        in_a_run(&put, &after, Reply { refusal, sent: 0 })
    }

    #[test]
    fn how_far_the_count_goes_in_a_run_is_told() {
        let with = |count, change: Change| line_with(count, change);
        let opened = with(0, |_| ());
        assert_eq!(run(&opened, true, 0), Ok(vec![]));
        assert!(run(&opened, false, 1).is_err());
        assert!(run(&with(1, |_| ()), true, 0).is_err());
        for (change, most) in [(asked as Change, 2), (runs, 3), (moved, 4)] {
            assert!(run(&with(most, change), true, 0).is_ok());
            assert!(run(&with(most + 1, change), true, 0).is_err());
        }
        let given: Change = |s| (s.possessions[6], s.given) = (true, 1);
        assert_eq!(run(&with(2, given), true, 0), Ok(vec![RunAtItsMost]));
        assert_eq!(run(&with(1, given), true, 0), Ok(vec![]));
        assert!(run(&with(3, given), true, 0).is_err());
        let given_21: Change = |s| s.given = 21;
        assert!(run(&with(63, given_21), true, 0).is_ok());
    }

    #[test]
    fn what_comes_at_the_end_of_the_longest_run_is_told() {
        let all_the_way = [[0, 7], [7, 0], [0, 7], [7, 0], [0, 7], [7, 0]];
        let mut home = crews::open(&book(&[4; 8], &all_the_way)).unwrap().state;
        for train in &mut home.train {
            bring(train, train.end);
        }
        (home.given, home.journal) = (20, 228);
        assert_eq!(run(&home, true, 0), Ok(vec![RunToTheEnd]));
        assert_eq!(run(&home, false, 0), Ok(vec![RunRepeat]));
        assert_eq!(run(&home, false, 8), Ok(vec![RunRefused]));
        assert_eq!(run(&home, false, 2), Ok(vec![]));
        home.journal = 229;
        assert!(run(&home, true, 0).is_err());
        // More than any run logs.
        (home.given, home.journal) = (21, 228);
        assert!(run(&home, true, 0).is_err());
    }
}
