//! What local runs brought about, by the model's state: how the frames of gangs fared, who waited for a gang, and what
//! is wrong in a state that is strange for one.

use crate::cases::LocalRunCase;
use crate::codes;
use crate::pair::Reply;
use inputs::encoding::state_of;
use inputs::frames::{AFE, FE, FROM_AT, KIND_AT, LA, LB, LE, TO_AT};
use inputs::sizes::{FRAME_BYTES, GIVEN_AT, LOCAL_RUNS, SECTIONS_AT, STATE_BYTES};
use model::{Move, Standing, State, Train};

/// Of a frame that was read, as it fared in a state.
pub fn of_frame(state: &[u8], frame: &[u8], reply: Reply) -> Vec<LocalRunCase> {
    let (Some(state), 0 | 6..) = (state_of(state), reply.refusal) else {
        return vec![];
    };
    let section = frame[FROM_AT];
    match (frame[KIND_AT], reply.refusal) {
        (LE, 6) => vec![LocalRunCase::LeAtTheBox],
        (LA, 0) => of_given(&state, section),
        (LB, 0) => vec![of_back(reply.sent)],
        (LA, 7) => vec![LocalRunCase::LaOfTrain],
        (LB, 7) => vec![LocalRunCase::LbOfTrain],
        (LA, 9) => of_misnamed(&state, frame, LocalRunCase::LaMisnamed),
        (LB, 9) => of_misnamed(&state, frame, LocalRunCase::LbMisnamed),
        (LA, 24) => of_taken(&state, section),
        (LB, 25) if state.holders_of_section(section) > 0 => vec![LocalRunCase::TrainThere],
        (LB, 25) => vec![LocalRunCase::NobodyThere],
        (LA, 26) => vec![LocalRunCase::TwentyGiven],
        _ => vec![],
    }
}

/// Of an LA that was answered in a state.
fn of_given(before: &State, section: u8) -> Vec<LocalRunCase> {
    let mut cases = vec![LocalRunCase::Given];
    if before.given + 1 == LOCAL_RUNS {
        cases.push(LocalRunCase::Twentieth);
    }
    if [section, section + 1].map(|post| stands_at(before, post)) == [true; 2] {
        cases.push(LocalRunCase::BetweenTrains);
    }
    cases
}

/// Some train is at the post and not under way.
pub fn stands_at(state: &State, post: u8) -> bool {
    let stands = |train: &Train| !matches!(train.standing, Standing::Running(_));
    let mut trains = state.present().iter();
    trains.any(|train| train.at == post && stands(train))
}

/// Of an LB that was answered with so many authorities.
fn of_back(authorities: usize) -> LocalRunCase {
    match authorities {
        0 => LocalRunCase::BackForNobody,
        1 => LocalRunCase::BackForOne,
        _ => LocalRunCase::BackForSeveral,
    }
}

/// Of an LA or LB that was refused by 9.
fn of_misnamed(state: &State, frame: &[u8], case: LocalRunCase) -> Vec<LocalRunCase> {
    let [from, to] = [frame[FROM_AT], frame[TO_AT]].map(u16::from);
    let posts = u16::from(state.posts);
    let mut cases = vec![case];
    if from == to + 1 && from < posts {
        cases.push(LocalRunCase::HigherFirst);
    }
    if from + 1 == to && to == posts {
        cases.push(LocalRunCase::OffTheLine);
    }
    cases
}

/// Of an LA that was refused by 24.
fn of_taken(state: &State, section: u8) -> Vec<LocalRunCase> {
    let mut cases = vec![if state.gang_holds(section) {
        LocalRunCase::TakenByGang
    } else {
        LocalRunCase::TakenByTrain
    }];
    if state.given == LOCAL_RUNS {
        cases.push(LocalRunCase::TakenAfterTwenty);
    }
    cases
}

/// Of an accepted frame: the state after it, the table, and the frames sent.
pub fn of_answer(state: &[u8], table: &[u8], sent: &[u8]) -> Vec<LocalRunCase> {
    let Some(state) = state_of(state) else {
        return vec![];
    };
    let mut cases = vec![];
    let last = sent.chunks_exact(FRAME_BYTES).last();
    let kind = last.map_or(0, |last| last[KIND_AT]);
    let trains = 0..usize::from(state.trains);
    let declined = last.and_then(|last| model::read_frame(last).ok());
    if declined.is_some_and(|afe| kind == AFE && waits_for_gang(&state, table, afe.movement())) {
        cases.push(LocalRunCase::WaitsForGang);
    }
    if kind == LE && trains.clone().any(|t| could_go(&state, table, t)) {
        cases.push(LocalRunCase::NotGranting);
    }
    if kind == FE && (0..7).any(|section| state.gang_holds(section)) {
        cases.push(LocalRunCase::GrantedBeside);
    }
    let unread = &state.possessions[usize::from(state.posts) - 1..];
    if unread.contains(&true) {
        cases.push(LocalRunCase::Unread);
    }
    cases
}

/// The train that asked for this move would have gone but for the gang on its section.
pub fn waits_for_gang(state: &State, table: &[u8], m: Move) -> bool {
    let section = m.from.min(m.to);
    let mut without = *state;
    without.possessions[usize::from(section)] = false;
    state.gang_holds(section) && could_go(&without, table, usize::from(m.train))
}

/// The train has asked, and section, tracks and table let it go.
pub fn could_go(state: &State, table: &[u8], t: usize) -> bool {
    let train = state.train[t];
    let (Standing::Asked(_), Some(to)) = (train.standing, train.next()) else {
        return false;
    };
    state.holders_of_section(train.at.min(to)) == 0
        && state.free_track(to, train.is_up()).is_some()
        && model::table::bit(table, codes::ahead(state, Some(t)))
}

/// Of bytes that were refused by 1: they are those of a sound state but for gangs or the number given.
pub fn of_strange(bytes: &[u8]) -> Option<LocalRunCase> {
    let Some(state) = state_of(bytes) else {
        return of_other_byte(bytes);
    };
    let without = State {
        possessions: [false; 7],
        ..state
    };
    let fewer = State {
        given: LOCAL_RUNS,
        ..state
    };
    if model::sound(&without) {
        Some(LocalRunCase::TrainAndGang)
    } else if state.given > LOCAL_RUNS && model::sound(&fewer) {
        Some(LocalRunCase::PastTwenty)
    } else {
        None
    }
}

/// Of bytes that encode no state.
fn of_other_byte(bytes: &[u8]) -> Option<LocalRunCase> {
    if bytes.len() != STATE_BYTES {
        return None;
    }
    let mut without = bytes.to_vec();
    let sections = &mut without[SECTIONS_AT..GIVEN_AT];
    sections.fill(0);
    let state = state_of(&without).filter(model::sound)?;
    let on_the_line = &bytes[SECTIONS_AT..][..usize::from(state.posts) - 1];
    if on_the_line.iter().any(|byte| *byte > 1) {
        Some(LocalRunCase::OtherByte)
    } else {
        Some(LocalRunCase::OtherByteUnread)
    }
}

#[cfg(test)]
mod tests {
    use super::*;
    use crate::state_moves::bring;
    use crate::tests::reply_of;
    use inputs::books::X;
    use inputs::crews;
    use inputs::encoding::state_bytes;
    use inputs::frames::{frame, local_run, FA};
    use inputs::sizes::{JOURNAL_RECORDS, OUT_BYTES};
    use model::Record;
    use LocalRunCase::*;

    type Change = fn(&mut State);

    fn x_with(change: Change) -> State {
        let mut state = crews::open(&X).unwrap().state;
        change(&mut state);
        state
    }

    /// The cases of a frame that is put to X, changed.
    fn told(change: Change, frame: &[u8; FRAME_BYTES]) -> Vec<LocalRunCase> {
        let state = x_with(change);
        let table = crews::open(&X).unwrap().table;
        let mut journal = [Record::BLANK; JOURNAL_RECORDS];
        let mut out = [0; OUT_BYTES];
        let (after, verdict) = model::answer(&state, &table, &mut journal, frame, &mut out);
        let reply = reply_of(verdict);
        let mut cases = of_frame(&state_bytes(&state), frame, reply);
        if reply.refusal == 0 {
            let sent = &out[..FRAME_BYTES * reply.sent];
            cases.extend(of_answer(&state_bytes(&after), &table, sent));
        }
        cases
    }

    /// Train 0 has asked.
    fn asked(state: &mut State) {
        state.train[0].standing = Standing::Asked(0);
        state.journal = 1;
    }

    fn runs(state: &mut State) {
        state.train[0].standing = Standing::Running(1);
    }

    const LA_0: [u8; FRAME_BYTES] = local_run(LA, 0);
    const LB_0: [u8; FRAME_BYTES] = local_run(LB, 0);
    const ASK: [u8; FRAME_BYTES] = frame(FA, 0, 0, 1);

    #[test]
    fn what_comes_of_an_la_is_told() {
        let cases: [(Change, &[LocalRunCase]); 8] = [
            (|_| (), &[Given]),
            (|s| bring(&mut s.train[1], 1), &[Given, BetweenTrains]),
            (|s| s.given = 18, &[Given]),
            (|s| s.given = 19, &[Given, Twentieth]),
            (|s| s.given = 20, &[TwentyGiven]),
            (|s| s.possessions[0] = true, &[TakenByGang]),
            (runs, &[TakenByTrain]),
            (
                |s| (s.given, s.possessions[0]) = (20, true),
                &[TakenByGang, TakenAfterTwenty],
            ),
        ];
        for (change, expected) in cases {
            assert_eq!(told(change, &LA_0), expected);
        }
        assert_eq!(told(asked, &local_run(LA, 1)), [Given, NotGranting]);
    }

    #[test]
    fn what_comes_of_an_lb_is_told() {
        let cases: [(Change, LocalRunCase); 5] = [
            (|_| (), NobodyThere),
            (runs, TrainThere),
            (|s| s.possessions[0] = true, BackForNobody),
            (
                |s| {
                    s.possessions[0] = true;
                    asked(s);
                },
                BackForOne,
            ),
            (
                |s| {
                    s.possessions[0] = true;
                    asked(s);
                    s.train[1].standing = Standing::Asked(1);
                    s.journal = 2;
                },
                BackForSeveral,
            ),
        ];
        for (change, expected) in cases {
            assert_eq!(told(change, &LB_0), [expected]);
        }
    }

    #[test]
    fn wrong_names_are_told() {
        for (kind, train, posts, expected) in [
            (LE, 255, [0, 1], &[LeAtTheBox][..]),
            (LA, 0, [0, 1], &[LaOfTrain]),
            (LB, 254, [9, 9], &[LbOfTrain]),
            (LA, 255, [1, 0], &[LaMisnamed, HigherFirst]),
            (LB, 255, [2, 1], &[LbMisnamed, HigherFirst]),
            (LB, 255, [3, 2], &[LbMisnamed]),
            (LA, 255, [2, 3], &[LaMisnamed, OffTheLine]),
            (LB, 255, [3, 4], &[LbMisnamed]),
            (LA, 255, [255, 0], &[LaMisnamed]),
        ] {
            let [from, to] = posts;
            assert_eq!(told(|_| (), &frame(kind, train, from, to)), expected);
        }
    }

    #[test]
    fn what_gangs_mean_for_trains_is_told() {
        assert_eq!(told(|s| s.possessions[0] = true, &ASK), [WaitsForGang]);
        assert_eq!(told(|s| s.possessions[1] = true, &ASK), [GrantedBeside]);
        assert_eq!(told(|s| s.possessions[2] = true, &ASK), [Unread]);
        // The one track of post 0 is what train 1 lacks as well.
        let beside = |s: &mut State| {
            bring(&mut s.train[1], 1);
            s.possessions[0] = true;
        };
        assert_eq!(told(beside, &frame(FA, 1, 1, 0)), []);
    }

    #[test]
    fn what_is_strange_for_a_gang_alone_is_told() {
        let strange = |change| of_strange(&state_bytes(&x_with(change)));
        let doubled = |s: &mut State| {
            runs(s);
            s.possessions[0] = true;
        };
        assert_eq!(strange(doubled), Some(TrainAndGang));
        assert_eq!(strange(|s| s.given = 21), Some(PastTwenty));
        assert_eq!(strange(|s| (s.given, s.journal) = (21, 230)), None);
        let mut bytes = state_bytes(&x_with(|_| ()));
        bytes[SECTIONS_AT + 2] = 2;
        assert_eq!(of_strange(&bytes), Some(OtherByteUnread));
        bytes[SECTIONS_AT + 1] = 2;
        assert_eq!(of_strange(&bytes), Some(OtherByte));
        bytes[0] = 9;
        assert_eq!(of_strange(&bytes), None);
    }
}
