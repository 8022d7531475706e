//! What came of frames that repeat an earlier one, by the model's state, and of frames that nearly do and are refused.

use crate::cases::{shown, RepeatCase};
use crate::local_runs::{could_go, waits_for_gang};
use crate::pair::Reply;
use inputs::encoding::state_of;
use model::{Message, Move, Standing, State, Train};

/// Of an FA or AM that was put to a sound state, with its table, as it fared.
pub fn of_frame(state: &[u8], table: &[u8], frame: &[u8], reply: Reply) -> Vec<RepeatCase> {
    let (Some(state), Ok(message)) = (state_of(state), model::read_frame(frame)) else {
        return vec![];
    };
    match (message, reply.refusal) {
        (_, 0) if repeats(&state, message) => of_repeat(&state, table, message),
        (_, 2) if repeats(&state, message) => vec![RepeatCase::ShortStore],
        (Message::Am(m), 7) => shown([(is_unread(&state, m), RepeatCase::UnreadPlace)]),
        (Message::Fa(m), 8 | 9) => of_wrong_request(&state, m, reply.refusal),
        (Message::Am(m), 8 | 9 | 12) => of_wrong_arrival(&state, m, reply.refusal),
        _ => vec![],
    }
}

/// An FA for the move of a train that waits or runs, or an AM of a train's last move.
pub fn repeats(state: &State, message: Message) -> bool {
    let m = message.movement();
    let Some(train) = state.present().get(usize::from(m.train)) else {
        return false;
    };
    match message {
        Message::Fa(_) => train.standing != Standing::Free && is_ahead(train, m),
        Message::Am(_) => is_last(train, m),
        _ => false,
    }
}

/// It is the train's next move.
fn is_ahead(train: &Train, m: Move) -> bool {
    m.from == train.at && Some(m.to) == train.next()
}

/// It is the train's last finished move.
pub fn is_last(train: &Train, m: Move) -> bool {
    train.last == Some((m.from, m.to))
}

fn of_repeat(state: &State, table: &[u8], message: Message) -> Vec<RepeatCase> {
    let t = usize::from(message.movement().train);
    let mut cases = match message {
        Message::Fa(m) => of_request(state, table, m),
        _ => of_arrival(state, &state.train[t]),
    };
    let others = (0..usize::from(state.trains)).filter(|other| *other != t);
    if others.into_iter().any(|t| could_go(state, table, t)) {
        cases.push(RepeatCase::AnotherCouldGo);
    }
    cases
}

/// Of an FA that is answered by its AFE or FE again.
fn of_request(state: &State, table: &[u8], m: Move) -> Vec<RepeatCase> {
    let t = usize::from(m.train);
    if let Standing::Asked(_) = state.train[t].standing {
        return shown([
            (true, RepeatCase::Declined),
            (could_go(state, table, t), RepeatCase::CouldGo),
            (waits_for_gang(state, table, m), RepeatCase::WaitsForGang),
        ]);
    }
    // The train as it was when it had asked.
    let mut waiting = *state;
    waiting.train[t].standing = Standing::Asked(0);
    shown([
        (true, RepeatCase::Granted),
        (!could_go(&waiting, table, t), RepeatCase::WouldBeDeclined),
    ])
}

/// Of an AM that is taken and not answered.
fn of_arrival(state: &State, train: &Train) -> Vec<RepeatCase> {
    let home = train.at == train.end;
    let put_away = train.is_put_away(state.sidings);
    let runs = matches!(train.standing, Standing::Running(_));
    let waits = matches!(train.standing, Standing::Asked(_));
    shown([
        (!home && !runs && !waits, RepeatCase::ArrivedFree),
        (waits, RepeatCase::ArrivedAsked),
        (runs, RepeatCase::ArrivedRunning),
        (home, RepeatCase::ArrivedHome),
        (put_away, RepeatCase::ArrivedPutAway),
    ])
}

/// A train that is not there has the move as its last.
fn is_unread(state: &State, m: Move) -> bool {
    let place = state.train.get(usize::from(m.train));
    place.is_some_and(|train| is_last(train, m))
}

/// Of an FA that was refused by 8 or 9.
fn of_wrong_request(state: &State, m: Move, number: u8) -> Vec<RepeatCase> {
    let train = &state.train[usize::from(m.train)];
    let runs = matches!(train.standing, Standing::Running(_));
    let last = is_last(train, m);
    shown([
        (last && number == 9, RepeatCase::RequestOfLast),
        (last && number == 8, RepeatCase::RequestOfLastHome),
        (
            runs && train.next() == Some(m.from),
            RepeatCase::NotReported,
        ),
    ])
}

/// Of an AM that was refused by 8, 9 or 12.
fn of_wrong_arrival(state: &State, m: Move, number: u8) -> Vec<RepeatCase> {
    let t = usize::from(m.train);
    let train = &state.train[t];
    let (from, to) = train.last.unzip();
    let past = train.last.is_some();
    let of_another = |(other, of): (usize, &Train)| other != t && is_last(of, m);
    let another = state.present().iter().enumerate().any(of_another);
    let backwards = (Some(m.to), Some(m.from)) == (from, to);
    shown([
        (is_earlier(train, m) && number == 9, RepeatCase::Earlier),
        (is_earlier(train, m) && number == 8, RepeatCase::EarlierHome),
        (number == 12 && !past, RepeatCase::BeforeTheFirst),
        (number == 12 && past, RepeatCase::NotYet),
        (from == Some(m.from), RepeatCase::FromAlone),
        (to == Some(m.to), RepeatCase::ToAlone),
        (backwards, RepeatCase::Backwards),
        (another, RepeatCase::Anothers),
    ])
}

/// It is a move that the train finished before its last.
pub fn is_earlier(train: &Train, m: Move) -> bool {
    let Train { start, at, .. } = *train;
    let up = start <= m.from && m.from < m.to && m.to < at;
    let down = start >= m.from && m.from > m.to && m.to > at;
    (up || down) && m.from.abs_diff(m.to) == 1
}

#[cfg(test)]
mod tests {
    use super::*;
    use crate::state_moves::bring;
    use crate::tests::reply_of;
    use inputs::books::book_2;
    use inputs::crews;
    use inputs::encoding::state_bytes;
    use inputs::frames::{frame, AFE, AM, FA};
    use inputs::sizes::{FRAME_BYTES, JOURNAL_RECORDS, OUT_BYTES, TABLE_BYTES};
    use model::Record;
    use RepeatCase::*;

    type Change = fn(&mut State);

    /// Four posts with two tracks each, a siding at the last, a train up and one down, and a last move in a place that
    /// is not read.
    fn line_with(change: Change) -> State {
        let line = book_2(&[2; 4], 8, &[[0, 3], [3, 0]]);
        let mut state = crews::open(&line).unwrap().state;
        state.journal = 9;
        state.train[2].last = Some((1, 2));
        change(&mut state);
        assert!(model::sound(&state), "{state:?}");
        state
    }

    /// The cases of a frame that is put to that line, changed, with a table of this byte and an out buffer of this
    /// length.
    fn fared(change: Change, frame: [u8; FRAME_BYTES], table: u8, out: usize) -> Vec<RepeatCase> {
        let state = line_with(change);
        let table = vec![table; TABLE_BYTES];
        let mut journal = [Record::BLANK; JOURNAL_RECORDS];
        let mut out = vec![0; out];
        let (_, verdict) = model::answer(&state, &table, &mut journal, &frame, &mut out);
        of_frame(&state_bytes(&state), &table, &frame, reply_of(verdict))
    }

    fn told(change: Change, frame: [u8; FRAME_BYTES]) -> Vec<RepeatCase> {
        fared(change, frame, 255, OUT_BYTES)
    }

    const ASK: [u8; FRAME_BYTES] = frame(FA, 0, 0, 1);

    fn asked(state: &mut State) {
        state.train[0].standing = Standing::Asked(0);
    }

    fn runs(state: &mut State) {
        state.train[0].standing = Standing::Running(1);
    }

    /// Train 0 has made its first two moves.
    fn at_post_2(state: &mut State) {
        bring(&mut state.train[0], 2);
    }

    /// Train 0 is put away.
    fn home(state: &mut State) {
        bring(&mut state.train[0], 3);
        state.train[0].track = 0;
    }

    #[test]
    fn what_comes_of_a_repeated_request_is_told() {
        assert_eq!(fared(asked, ASK, 0, OUT_BYTES), [Declined]);
        assert_eq!(told(asked, ASK), [Declined, CouldGo]);
        assert_eq!(told(runs, ASK), [Granted]);
        assert_eq!(fared(runs, ASK, 0, OUT_BYTES), [Granted, WouldBeDeclined]);
        assert_eq!(fared(runs, ASK, 255, OUT_BYTES - 1), [ShortStore]);
        let gang: Change = |s| {
            asked(s);
            s.possessions[0] = true;
        };
        assert_eq!(told(gang, ASK), [Declined, WaitsForGang]);
        let other: Change = |s| {
            runs(s);
            s.train[1].standing = Standing::Asked(3);
        };
        assert_eq!(told(other, ASK), [Granted, AnotherCouldGo]);
        assert_eq!(told(|_| (), ASK), []);
    }

    #[test]
    fn what_comes_of_a_repeated_arrival_is_told() {
        let arrived = frame(AM, 0, 1, 2);
        assert_eq!(told(at_post_2, arrived), [ArrivedFree]);
        let waits: Change = |s| {
            at_post_2(s);
            asked(s);
        };
        assert_eq!(told(waits, arrived), [ArrivedAsked]);
        let under_way: Change = |s| {
            at_post_2(s);
            runs(s);
        };
        assert_eq!(told(under_way, arrived), [ArrivedRunning]);
        assert_eq!(
            told(home, frame(AM, 0, 2, 3)),
            [ArrivedHome, ArrivedPutAway]
        );
        let at_the_end: Change = |s| bring(&mut s.train[1], 0);
        assert_eq!(told(at_the_end, frame(AM, 1, 1, 0)), [ArrivedHome]);
    }

    #[test]
    fn requests_that_repeat_none_are_told() {
        assert_eq!(told(at_post_2, frame(FA, 0, 1, 2)), [RequestOfLast]);
        assert_eq!(told(home, frame(FA, 0, 2, 3)), [RequestOfLastHome]);
        assert_eq!(told(runs, frame(FA, 0, 1, 2)), [NotReported]);
        assert_eq!(told(at_post_2, frame(FA, 0, 0, 1)), []);
        assert_eq!(told(asked, frame(AFE, 0, 0, 1)), []);
    }

    #[test]
    fn arrivals_that_repeat_none_are_told() {
        let down: Change = |s| bring(&mut s.train[1], 1);
        let both: Change = |s| {
            at_post_2(s);
            bring(&mut s.train[1], 2);
        };
        let cases: [(Change, [u8; 3], &[RepeatCase]); 12] = [
            (at_post_2, [0, 0, 1], &[Earlier]),
            (home, [0, 0, 1], &[EarlierHome]),
            (home, [0, 1, 2], &[EarlierHome]),
            (down, [1, 3, 2], &[Earlier]),
            (|_| (), [0, 0, 1], &[BeforeTheFirst]),
            (at_post_2, [0, 2, 3], &[NotYet]),
            (at_post_2, [0, 1, 3], &[FromAlone]),
            (at_post_2, [0, 3, 2], &[ToAlone]),
            (at_post_2, [0, 2, 1], &[Backwards]),
            (both, [0, 3, 2], &[ToAlone, Anothers]),
            (|_| (), [2, 1, 2], &[UnreadPlace]),
            (|_| (), [2, 1, 1], &[]),
        ];
        for (number, (change, [train, from, to], expected)) in cases.into_iter().enumerate() {
            let told = told(change, frame(AM, train, from, to));
            assert_eq!(told, expected, "case {number}");
        }
    }
}
