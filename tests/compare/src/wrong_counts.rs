//! Boxes that are wrong with the journal's count: with the counts that are strange, with what comes before that, and
//! with frames near the most that a sound state counts.

use crate::journal_counts::{fate, is_repeat, lowered, Put, MOST, NEAR};
use crate::repeats::repeats;
use crate::wrong_boxes::{both_with, every_is_found, messages_in, Fault, Replied, ENOUGH};
use crate::{all, tables};
use inputs::encoding::{state_bytes, state_of};
use inputs::frames::{AM, FA, LA, LB};
use inputs::sizes::{JOURNAL_RECORDS, OUT_BYTES, RECORDS_A_FRAME};
use model::{Message, Record, Standing, State, Train, Verdict};
use std::ops::RangeInclusive;

// ---- states that are taken for others

/// A state that is strange for such a count alone is taken for one that counts the most.
fn overlooked(state: State, counts: RangeInclusive<u8>) -> State {
    match lowered(&state) {
        Some(lower) if counts.contains(&state.journal) => lower,
        _ => state,
    }
}

/// A state with such a count is taken for a strange one.
fn strange_from(state: State, count: u8) -> State {
    match state.journal {
        journal if journal >= count => State::EMPTY,
        _ => state,
    }
}

/// Where a state is strange for its count alone and the frame is so, by the count, it is taken for one that counts the
/// most.
fn answered_where(bytes: &mut [u8], frame: &[u8], is_so: fn(&State, Message, u8) -> bool) {
    let (Some(state), Ok(message)) = (state_of(bytes), model::read_frame(frame)) else {
        return;
    };
    if let Some(lower) = lowered(&state).filter(|lower| is_so(lower, message, state.journal)) {
        bytes.copy_from_slice(&state_bytes(&lower));
    }
}

fn waits(train: &Train) -> bool {
    matches!(train.standing, Standing::Asked(_))
}

const OF_STATES: [(&str, Fault); 17] = [
    (
        "strange from 229 on",
        Fault::TakenFor(|s| strange_from(s, MOST)),
    ),
    (
        "strange from 228 on",
        Fault::TakenFor(|s| strange_from(s, MOST - 1)),
    ),
    (
        "strange from 223 on",
        Fault::TakenFor(|s| strange_from(s, NEAR)),
    ),
    (
        "strange from 231 on",
        Fault::TakenFor(|s| overlooked(s, 230..=230)),
    ),
    (
        "strange from 236 on",
        Fault::TakenFor(|s| overlooked(s, 230..=235)),
    ),
    (
        "strange from 237 on",
        Fault::TakenFor(|s| overlooked(s, 230..=236)),
    ),
    (
        "no count is strange",
        Fault::TakenFor(|s| overlooked(s, 230..=255)),
    ),
    (
        "counts past the journal are not strange",
        Fault::TakenFor(|s| overlooked(s, 237..=255)),
    ),
    (
        "255 is not strange",
        Fault::TakenFor(|s| overlooked(s, 255..=255)),
    ),
    (
        "a count is strange only while a train waits",
        Fault::TakenFor(|s| match s.present().iter().any(waits) {
            true => s,
            false => overlooked(s, 230..=255),
        }),
    ),
    (
        "a count is strange only while no gang is out",
        Fault::TakenFor(|s| match (0..7).any(|section| s.gang_holds(section)) {
            true => overlooked(s, 230..=255),
            false => s,
        }),
    ),
    (
        "a repeat is answered at 230",
        Fault::Reads(|s, f| answered_where(s, f, |s, m, count| count == 230 && repeats(s, m))),
    ),
    (
        "a repeated FA is answered above 229",
        Fault::Reads(|s, f| answered_where(s, f, |s, m, _| m.kind() == FA && repeats(s, m))),
    ),
    (
        "a repeated AM is taken above 229",
        Fault::Reads(|s, f| answered_where(s, f, |s, m, _| m.kind() == AM && repeats(s, m))),
    ),
    (
        "an AM is answered up to 235",
        Fault::Reads(|s, f| answered_where(s, f, |_, m, count| m.kind() == AM && count < 236)),
    ),
    (
        "an LA is answered up to 234",
        Fault::Reads(|s, f| answered_where(s, f, |_, m, count| m.kind() == LA && count < 235)),
    ),
    (
        "an LB is answered up to 235",
        Fault::Reads(|s, f| answered_where(s, f, |_, m, count| m.kind() == LB && count < 236)),
    ),
];

// ---- the number that refuses a frame

/// What would come of a frame if its state, which is strange for its count alone, counted the most.
fn at_the_most(put: &Put) -> Option<Verdict> {
    let lower = lowered(&state_of(put.state)?)?;
    Some(fate(&lower, put))
}

/// Another number for a frame that is refused for its count alone, where it would have been refused by 2 and these
/// stores are short.
fn after_2(put: &Put, number: u8, short: [bool; 3]) -> u8 {
    match at_the_most(put) {
        Some(Verdict::Refused(2)) if put.short() == short => 2,
        _ => number,
    }
}

/// 13 for a frame that is refused for its count alone and would be answered at the most, where it is so by its count
/// and by whether it is a repeat.
fn full_where(put: &Put, number: u8, is_so: fn(u8, bool) -> bool) -> u8 {
    let Some(state) = state_of(put.state) else {
        return number;
    };
    let so = is_so(state.journal, is_repeat(&state, put.frame));
    match at_the_most(put) {
        Some(Verdict::Sent(_)) if so => 13,
        _ => number,
    }
}

/// The journal is short by one record, and the state counts the most.
fn short_by_one(put: &Put) -> bool {
    let count = state_of(put.state).map(|state| state.journal);
    put.records() == JOURNAL_RECORDS - 1 && count == Some(MOST)
}

const OF_ORDER: [(&str, Fault); 16] = [
    (
        "2 before 1 for a count",
        Fault::Refuses(|put, number| match at_the_most(put) {
            Some(Verdict::Refused(2)) => 2,
            _ => number,
        }),
    ),
    (
        "2 for the table before 1 for a count",
        Fault::Refuses(|put, number| after_2(put, number, [true, false, false])),
    ),
    (
        "2 for the journal before 1 for a count",
        Fault::Refuses(|put, number| after_2(put, number, [false, true, false])),
    ),
    (
        "2 for the out buffer before 1 for a count",
        Fault::Refuses(|put, number| after_2(put, number, [false, false, true])),
    ),
    (
        "3 before 1 for a count",
        Fault::Refuses(|put, number| match at_the_most(put) {
            Some(Verdict::Refused(3)) => 3,
            _ => number,
        }),
    ),
    (
        "a count is looked at where 13 was",
        Fault::Refuses(|put, number| match at_the_most(put) {
            Some(Verdict::Refused(earlier)) => earlier,
            _ => number,
        }),
    ),
    (
        "13 above 229",
        Fault::Refuses(|put, number| full_where(put, number, |_, _| true)),
    ),
    (
        "13 above 229 for a new frame",
        Fault::Refuses(|put, number| full_where(put, number, |_, again| !again)),
    ),
    (
        "13 above 229 for a repeat",
        Fault::Refuses(|put, number| full_where(put, number, |_, again| again)),
    ),
    (
        "13 from 230 to 236",
        Fault::Refuses(|put, number| full_where(put, number, |count, _| count <= 236)),
    ),
    (
        "13 at 230",
        Fault::Refuses(|put, number| full_where(put, number, |count, _| count == 230)),
    ),
    (
        "13 at 236",
        Fault::Refuses(|put, number| full_where(put, number, |count, _| count == 236)),
    ),
    (
        "1 at 229 for a journal of 235 records",
        Fault::Refuses(|put, number| match number {
            2 if short_by_one(put) => 1,
            _ => number,
        }),
    ),
    (
        "13 at 229 for a journal of 235 records",
        Fault::Refuses(|put, number| match number {
            2 if short_by_one(put) => 13,
            _ => number,
        }),
    ),
    (
        "a journal of 235 records is long enough",
        Fault::Stretches(|put| put.records() == JOURNAL_RECORDS - 1),
    ),
    (
        "a journal with room for a frame is long enough",
        Fault::Stretches(|put| {
            let count = state_of(put.state).map_or(MOST, |state| state.journal);
            put.records() >= usize::from(count) + RECORDS_A_FRAME
        }),
    ),
];

// ---- frames that are answered

/// Refuses by this number an accepted frame of this kind at the most, where it repeats none.
fn refused_at_most(r: &mut Replied, kind: u8, number: u8) {
    let new = !repeats(r.before, r.message);
    if r.number == 0 && r.message.kind() == kind && new && r.before.journal == MOST {
        r.number = number;
    }
}

/// Refuses by this number an accepted frame that leaves a count of these.
fn refused_for_what_is_left(r: &mut Replied, number: u8, counts: RangeInclusive<u8>) {
    let new = !repeats(r.before, r.message);
    if r.number == 0 && new && counts.contains(&r.after.journal) {
        r.number = number;
    }
}

/// Refuses by this number a repeat at these counts.
fn repeat_refused(r: &mut Replied, number: u8, counts: RangeInclusive<u8>) {
    if repeats(r.before, r.message) && counts.contains(&r.before.journal) {
        r.number = number;
    }
}

/// At 229 a new request, or a new arrival, is refused by 13.
const FA_IS_13: Fault = Fault::Replies(|r| refused_at_most(r, FA, 13));
const AM_IS_13: Fault = Fault::Replies(|r| refused_at_most(r, AM, 13));

const OF_ANSWERS: [(&str, Fault); 16] = [
    (
        "a new FA is 1 at 229",
        Fault::Replies(|r| refused_at_most(r, FA, 1)),
    ),
    (
        "a new AM is 1 at 229",
        Fault::Replies(|r| refused_at_most(r, AM, 1)),
    ),
    (
        "an LA is 1 at 229",
        Fault::Replies(|r| refused_at_most(r, LA, 1)),
    ),
    (
        "an LB is 1 at 229",
        Fault::Replies(|r| refused_at_most(r, LB, 1)),
    ),
    ("a new FA is 13 at 229", FA_IS_13),
    ("a new AM is 13 at 229", AM_IS_13),
    (
        "a repeat is 1 at 229",
        Fault::Replies(|r| repeat_refused(r, 1, MOST..=MOST)),
    ),
    (
        "a repeat is 1 from 223 on",
        Fault::Replies(|r| repeat_refused(r, 1, NEAR..=MOST)),
    ),
    (
        "a repeat is 13 from 223 on",
        Fault::Replies(|r| repeat_refused(r, 13, NEAR..=MOST)),
    ),
    (
        "13 from 223 on for what is new",
        Fault::Replies(|r| {
            if r.before.journal >= NEAR {
                refused_for_what_is_left(r, 13, 0..=255);
            }
        }),
    ),
    (
        "13 where more than 229 would be left",
        Fault::Replies(|r| refused_for_what_is_left(r, 13, 230..=236)),
    ),
    (
        "1 where more than 229 would be left",
        Fault::Replies(|r| refused_for_what_is_left(r, 1, 230..=236)),
    ),
    (
        "1 where 229 would be left",
        Fault::Replies(|r| refused_for_what_is_left(r, 1, 229..=229)),
    ),
    (
        "1 where 230 would be left",
        Fault::Replies(|r| refused_for_what_is_left(r, 1, 230..=230)),
    ),
    (
        "1 where 236 would be left",
        Fault::Replies(|r| refused_for_what_is_left(r, 1, 236..=236)),
    ),
    (
        "13 where 236 would be left",
        Fault::Replies(|r| refused_for_what_is_left(r, 13, 236..=236)),
    ),
];

/// The records of these places are not written.
fn unwritten(r: &mut Replied, places: RangeInclusive<u8>) {
    let logged = r.before.journal..r.after.journal;
    for place in places.filter(|place| r.number == 0 && logged.contains(place)) {
        r.records[usize::from(place)] = Record::BLANK;
    }
}

/// More than 229 records were left by a frame.
fn left_more(r: &Replied) -> bool {
    r.number == 0 && r.after.journal > MOST
}

/// Nobody is granted at the frame, as if the table were empty.
fn grant_nobody(r: &mut Replied) {
    let mut out = [0; OUT_BYTES];
    let none = tables::ones().iter().map(|byte| !byte).collect::<Vec<u8>>();
    let frame = model::write_frame(r.message);
    let (after, verdict) = model::answer(r.before, &none, &mut r.records, &frame, &mut out);
    if let Verdict::Sent(frames) = verdict {
        (r.after, r.sent) = (after, messages_in(&out, frames));
    }
}

const OF_RECORDS: [(&str, Fault); 17] = [
    (
        "the last record is lost at place 235",
        Fault::Replies(|r| unwritten(r, 235..=235)),
    ),
    (
        "the records from 230 on are lost",
        Fault::Replies(|r| unwritten(r, 230..=235)),
    ),
    (
        "the records from 229 on are lost",
        Fault::Replies(|r| unwritten(r, 229..=235)),
    ),
    (
        "the count stays at 229",
        Fault::Answered(|a| a.after.journal = a.after.journal.min(229)),
    ),
    (
        "the count stays at 230",
        Fault::Answered(|a| a.after.journal = a.after.journal.min(230)),
    ),
    (
        "the count stays at 235",
        Fault::Answered(|a| a.after.journal = a.after.journal.min(235)),
    ),
    (
        "the count begins again after 229",
        Fault::Answered(|a| {
            if a.after.journal > MOST {
                a.after.journal -= MOST;
            }
        }),
    ),
    (
        "one more is counted at 229",
        Fault::Answered(|a| a.after.journal += u8::from(a.after.journal == MOST)),
    ),
    (
        "a state that counts more than 229 is not kept",
        Fault::Replies(|r| {
            if left_more(r) {
                r.after = *r.before;
            }
        }),
    ),
    (
        "a state that counts more than 229 is emptied",
        Fault::Replies(|r| {
            if left_more(r) {
                r.after = State::EMPTY;
            }
        }),
    ),
    (
        "a state that counts more than 229 has no gangs",
        Fault::Replies(|r| {
            if left_more(r) {
                r.after.possessions = [false; 7];
            }
        }),
    ),
    (
        "nobody is granted where more than 229 would be left",
        Fault::Replies(|r| {
            if left_more(r) {
                grant_nobody(r);
            }
        }),
    ),
    (
        "nobody is granted at 229",
        Fault::Replies(|r| {
            if left_more(r) && r.before.journal == MOST {
                grant_nobody(r);
            }
        }),
    ),
    (
        "the frame of the record at 235 is not sent",
        Fault::Replies(|r| {
            if left_more(r) && r.after.journal == 236 {
                r.sent.pop();
            }
        }),
    ),
    (
        "no frame is sent where more than 229 are left",
        Fault::Replies(|r| {
            if left_more(r) {
                r.sent.clear();
            }
        }),
    ),
    (
        "a request at 229 has the number before",
        Fault::Answered(|a| {
            for train in &mut a.after.train[..usize::from(a.before.trains)] {
                if train.standing == Standing::Asked(MOST) {
                    train.standing = Standing::Asked(MOST - 1);
                }
            }
        }),
    ),
    (
        "records are counted from one",
        Fault::Opened(|s| s.journal = 1),
    ),
];

#[test]
fn every_box_wrong_with_strange_counts_is_found() {
    every_is_found(&OF_STATES);
}

#[test]
fn every_box_that_gives_a_strange_count_another_number_is_found() {
    every_is_found(&OF_ORDER);
}

#[test]
fn every_box_that_refuses_near_the_most_is_found() {
    every_is_found(&OF_ANSWERS);
}

#[test]
fn every_box_wrong_with_records_near_the_most_is_found() {
    every_is_found(&OF_RECORDS);
}

/// Runs show it where both sides go wrong alike: more records from an opened book on than trains and gangs log, or 1,
/// or a state that is strange for more than its count.
#[test]
fn runs_that_go_wrong_are_found_where_both_sides_agree() {
    let counted_twice = Fault::Answered(|a| {
        let logged = a.after.journal - a.before.journal;
        a.after.journal = a.after.journal.saturating_add(logged);
    });
    let once_more = Fault::Answered(|a| {
        let home = a.before.present().iter().all(|train| train.at == train.end);
        a.after.journal += u8::from(home && a.after.journal == 228);
    });
    let strange_else = Fault::Answered(|a| {
        if a.after.journal > MOST {
            a.after.given = 21;
        }
    });
    for (fault, said) in [
        (strange_else, "a frame left a strange state"),
        (Fault::Opened(|s| s.journal = 1), "records in a run"),
        (counted_twice, "records in a run"),
        (once_more, "229 records in a run"),
        (Fault::TakenFor(|s| strange_from(s, 228)), "1 in a run"),
    ] {
        let found = all(&mut both_with(fault), &ENOUGH).unwrap_err().0;
        assert!(found.contains(said), "{found}");
    }
}

/// Where both sides give 13 there is no difference, and the run fails all the same.
#[test]
fn thirteen_fails_where_both_sides_agree() {
    for fault in [FA_IS_13, AM_IS_13] {
        let mut pair = both_with(fault);
        assert!(all(&mut pair, &ENOUGH).is_ok());
        let failings = pair.counts.failings();
        assert!(failings.contains(&"answer answered 13".to_string()));
    }
}
