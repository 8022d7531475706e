//! Boxes that are wrong with repeated requests and arrivals.

use crate::journal_counts::MOST;
use crate::local_runs::could_go;
use crate::repeats::{is_earlier, is_last, repeats};
use crate::wrong_boxes::{every_is_found, messages_in, Fault, Replied};
use inputs::sizes::{JOURNAL_RECORDS, OUT_BYTES};
use model::{Message, Move, Record, Standing, State, Train, Verdict};

// ---- what a frame is to the state

/// The move of an FA that the model takes for a repeat, and the train's standing.
pub fn requested(r: &Replied) -> Option<(Move, Standing)> {
    match r.message {
        Message::Fa(m) if repeats(r.before, r.message) => Some((m, train_of(r, m).standing)),
        _ => None,
    }
}

/// The move of an AM that the model takes for a repeat, and the train.
pub fn arrived<'a>(r: &Replied<'a>) -> Option<(Move, &'a Train)> {
    match r.message {
        Message::Am(m) if repeats(r.before, r.message) => Some((m, train_of(r, m))),
        _ => None,
    }
}

/// The move of an AM that the model refuses by 8, 9 or 12, and the train.
pub fn not_arrived<'a>(r: &Replied<'a>) -> Option<(Move, &'a Train)> {
    match (r.message, r.number) {
        (Message::Am(m), 8 | 9 | 12) => Some((m, train_of(r, m))),
        _ => None,
    }
}

pub fn train_of<'a>(r: &Replied<'a>, m: Move) -> &'a Train {
    &r.before.train[usize::from(m.train)]
}

fn is_asked(standing: Standing) -> bool {
    matches!(standing, Standing::Asked(_))
}

// ---- what a wrong box does

/// Accepts the frame, answers it so, and changes nothing.
pub fn answer(r: &mut Replied, sent: &[Message]) {
    r.number = 0;
    r.after = *r.before;
    r.sent = sent.to_vec();
}

/// Logs these where there is room.
fn log(r: &mut Replied, messages: &[Message]) {
    for message in messages {
        let count = usize::from(r.after.journal);
        if count < JOURNAL_RECORDS {
            r.records[count] = Record::of(*message, 0);
            r.after.journal += 1;
        }
    }
}

/// Does as the model does with this frame in this state.
pub fn do_as(r: &mut Replied, state: &State, message: Message) {
    let mut out = [0; OUT_BYTES];
    let frame = model::write_frame(message);
    let (after, verdict) = model::answer(state, r.table, &mut r.records, &frame, &mut out);
    match verdict {
        Verdict::Refused(number) => r.number = number,
        Verdict::Sent(frames) => {
            r.sent = messages_in(&out, frames);
            (r.number, r.after) = (0, after);
        }
    }
}

/// Lets this train go if it can, with its FE.
fn grant(r: &mut Replied, t: usize) {
    let train = r.after.train[t];
    let Some(to) = train.next().filter(|_| could_go(&r.after, r.table, t)) else {
        return;
    };
    let track = r.after.free_track(to, train.is_up()).unwrap_or(0);
    r.after.train[t].standing = Standing::Running(track);
    let (train, from) = (t as u8, train.at);
    r.sent.push(Message::Fe(Move { train, from, to }));
}

fn grant_all(r: &mut Replied) {
    for t in 0..usize::from(r.before.trains) {
        grant(r, t);
    }
}

/// The train stands as if it had not asked.
fn freed(r: &Replied, m: Move) -> State {
    let mut state = *r.before;
    state.train[usize::from(m.train)].standing = Standing::Free;
    state
}

const OF_REQUESTS: [(&str, Fault); 20] = [
    (
        "a repeated FA is logged",
        Fault::Replies(|r| {
            if requested(r).is_some() {
                log(r, &[r.message]);
            }
        }),
    ),
    (
        "a repeated FA and its answer are logged",
        Fault::Replies(|r| {
            if requested(r).is_some() {
                log(r, &[r.message, r.sent[0]]);
            }
        }),
    ),
    (
        "the answer to a repeated FA is logged",
        Fault::Replies(|r| {
            if requested(r).is_some() {
                log(r, &[r.sent[0]]);
            }
        }),
    ),
    (
        "an FA of an Asked train is a new one",
        Fault::Replies(|r| {
            if let Some((m, Standing::Asked(_))) = requested(r) {
                do_as(r, &freed(r, m), r.message);
            }
        }),
    ),
    (
        "an FA of a Running train is a new one",
        Fault::Replies(|r| {
            if let Some((m, Standing::Running(_))) = requested(r) {
                do_as(r, &freed(r, m), r.message);
            }
        }),
    ),
    (
        "an Asked train that could go is granted by its FA",
        Fault::Replies(|r| {
            if let Some((m, Standing::Asked(_))) = requested(r) {
                if could_go(r.before, r.table, m.train.into()) {
                    r.sent.clear();
                    grant(r, m.train.into());
                }
            }
        }),
    ),
    (
        "an Asked train that could go gets an FE and waits",
        Fault::Replies(|r| match requested(r) {
            Some((m, _)) if could_go(r.before, r.table, m.train.into()) => {
                answer(r, &[Message::Fe(m)]);
            }
            _ => {}
        }),
    ),
    (
        "a repeated FA starts the granting",
        Fault::Replies(|r| {
            if requested(r).is_some() {
                grant_all(r);
            }
        }),
    ),
    (
        "an FE for an Asked train",
        Fault::Replies(|r| {
            if let Some((m, _)) = requested(r) {
                answer(r, &[Message::Fe(m)]);
            }
        }),
    ),
    (
        "an AFE for a Running train",
        Fault::Replies(|r| {
            if let Some((m, _)) = requested(r) {
                answer(r, &[Message::Afe(m)]);
            }
        }),
    ),
    (
        "an AFE for a Running train that the table stops now",
        Fault::Replies(|r| {
            if let Some((m, Standing::Running(_))) = requested(r) {
                let mut waiting = *r.before;
                waiting.train[usize::from(m.train)].standing = Standing::Asked(0);
                if !could_go(&waiting, r.table, m.train.into()) {
                    answer(r, &[Message::Afe(m)]);
                }
            }
        }),
    ),
    (
        "a repeated FA gets no answer",
        Fault::Replies(|r| {
            if requested(r).is_some() {
                answer(r, &[]);
            }
        }),
    ),
    (
        "a repeated FA makes its train Free",
        Fault::Replies(|r| {
            if let Some((m, Standing::Asked(_))) = requested(r) {
                r.after = freed(r, m);
            }
        }),
    ),
    (
        "an FA of an Asked train is 10",
        Fault::Replies(|r| {
            if requested(r).is_some_and(|(_, standing)| is_asked(standing)) {
                r.number = 10;
            }
        }),
    ),
    (
        "an FA of a Running train is 11",
        Fault::Replies(|r| {
            if requested(r).is_some_and(|(_, standing)| !is_asked(standing)) {
                r.number = 11;
            }
        }),
    ),
    (
        "a repeated FA is 13 at 229",
        Fault::Replies(|r| {
            if requested(r).is_some() && r.before.journal == MOST {
                r.number = 13;
            }
        }),
    ),
    (
        "an FA of a Free train is declined and not logged at 229",
        Fault::Replies(|r| match (r.message, r.number) {
            (Message::Fa(m), 0) if r.before.journal == MOST && requested(r).is_none() => {
                answer(r, &[Message::Afe(m)]);
            }
            _ => {}
        }),
    ),
    (
        "whatever an FA names, it repeats that of its train",
        Fault::Replies(|r| match (r.message, r.number) {
            (Message::Fa(m), 9) if is_asked(train_of(r, m).standing) => {
                let Train { at, .. } = *train_of(r, m);
                let to = train_of(r, m).next().unwrap_or(at);
                answer(r, &[Message::Afe(Move { from: at, to, ..m })]);
            }
            _ => {}
        }),
    ),
    (
        "an FA of the finished move is taken",
        Fault::Replies(|r| match (r.message, r.number) {
            (Message::Fa(m), 9) if is_last(train_of(r, m), m) => answer(r, &[]),
            _ => {}
        }),
    ),
    (
        "an FA of the finished move gets its FE at the end",
        Fault::Replies(|r| match (r.message, r.number) {
            (Message::Fa(m), 8) if is_last(train_of(r, m), m) => answer(r, &[Message::Fe(m)]),
            _ => {}
        }),
    ),
];

/// Takes an AM that the model refuses by 8, 9 or 12, where the train and its move are so.
fn take_where(r: &mut Replied, is_so: fn(&Train, Move) -> bool) {
    if not_arrived(r).is_some_and(|(m, train)| is_so(train, m)) {
        answer(r, &[]);
    }
}

/// Refuses a repeated AM by this number, where the train is so.
fn refuse_where(r: &mut Replied, number: u8, is_so: fn(&Train) -> bool) {
    if arrived(r).is_some_and(|(_, train)| is_so(train)) {
        r.number = number;
    }
}

fn is_home(train: &Train) -> bool {
    train.at == train.end
}

const OF_ARRIVALS: [(&str, Fault); 21] = [
    (
        "a repeated AM is logged",
        Fault::Replies(|r| {
            if arrived(r).is_some() {
                log(r, &[r.message]);
            }
        }),
    ),
    (
        "a repeated AM is answered by a frame",
        Fault::Replies(|r| {
            if let Some((m, _)) = arrived(r) {
                answer(r, &[Message::Am(m)]);
            }
        }),
    ),
    (
        "a repeated AM gets the train's AFE",
        Fault::Replies(|r| {
            if let Some((m, train)) = arrived(r).filter(|(_, train)| is_asked(train.standing)) {
                let (from, to) = (train.at, train.next().unwrap_or(train.at));
                answer(r, &[Message::Afe(Move { from, to, ..m })]);
            }
        }),
    ),
    (
        "a repeated AM starts the granting",
        Fault::Replies(|r| {
            if arrived(r).is_some() {
                grant_all(r);
            }
        }),
    ),
    (
        "a repeated AM makes its train Free",
        Fault::Replies(|r| {
            if let Some((m, _)) = arrived(r) {
                r.after = freed(r, m);
            }
        }),
    ),
    (
        "a repeated AM of a Running train is its arrival",
        Fault::Replies(|r| {
            if let Some((m, train)) = arrived(r) {
                if let (Standing::Running(_), Some(to)) = (train.standing, train.next()) {
                    let from = train.at;
                    do_as(r, r.before, Message::Am(Move { from, to, ..m }));
                }
            }
        }),
    ),
    (
        "8 before the finished move",
        Fault::Replies(|r| refuse_where(r, 8, is_home)),
    ),
    (
        "9 before the finished move",
        Fault::Replies(|r| refuse_where(r, 9, |train| !is_home(train))),
    ),
    (
        "a finished move is taken of a Free train alone",
        Fault::Replies(|r| refuse_where(r, 9, |train| train.standing != Standing::Free)),
    ),
    (
        "12 for the finished move of a train that waits",
        Fault::Replies(|r| refuse_where(r, 12, |train| is_asked(train.standing))),
    ),
    (
        "a repeated AM is 13 at 229",
        Fault::Replies(|r| {
            if arrived(r).is_some() && r.before.journal == MOST {
                r.number = 13;
            }
        }),
    ),
    (
        "an AM of a Running train is taken and not logged at 229",
        Fault::Replies(|r| match (r.message, r.number) {
            (Message::Am(_), 0) if r.before.journal == MOST => answer(r, &[]),
            _ => {}
        }),
    ),
    (
        "a finished move is told by its from post alone",
        Fault::Replies(|r| {
            take_where(r, |train, m| {
                train.last.is_some_and(|(from, _)| from == m.from)
            });
        }),
    ),
    (
        "a finished move is told by its to post alone",
        Fault::Replies(|r| take_where(r, |train, m| train.last.is_some_and(|(_, to)| to == m.to))),
    ),
    (
        "a finished move is taken backwards",
        Fault::Replies(|r| take_where(r, |train, m| train.last == Some((m.to, m.from)))),
    ),
    (
        "any earlier move is taken",
        Fault::Replies(|r| take_where(r, is_earlier)),
    ),
    (
        "an earlier move is taken at the end",
        Fault::Replies(|r| take_where(r, |train, m| is_home(train) && is_earlier(train, m))),
    ),
    (
        "the finished move of any train is taken",
        Fault::Replies(|r| {
            let of_any =
                |(m, _): &(Move, &Train)| r.before.present().iter().any(|t| is_last(t, *m));
            if not_arrived(r).filter(of_any).is_some() {
                answer(r, &[]);
            }
        }),
    ),
    (
        "the finished move of a train that is not there is taken",
        Fault::Replies(|r| match (r.message, r.number) {
            (Message::Am(m), 7) if m.train < 6 && is_last(train_of(r, m), m) => answer(r, &[]),
            _ => {}
        }),
    ),
    (
        "an AM before the first move is taken",
        Fault::Replies(|r| {
            if r.number == 12 {
                take_where(r, |train, _| train.last.is_none());
            }
        }),
    ),
    (
        "an AM of the next move is taken of a train that waits",
        Fault::Replies(|r| {
            if r.number == 12 {
                take_where(r, |train, _| is_asked(train.standing));
            }
        }),
    ),
];

#[test]
fn every_box_wrong_with_repeated_requests_is_found() {
    every_is_found(&OF_REQUESTS);
}

#[test]
fn every_box_wrong_with_repeated_arrivals_is_found() {
    every_is_found(&OF_ARRIVALS);
}
