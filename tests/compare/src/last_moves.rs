//! What the last moves of a state show: what is wrong in one that is strange for such a move alone, and in bytes that
//! encode none.

use crate::cases::LastMoveCase;
use crate::state_moves::give;
use inputs::encoding::{state_of, train_at};
use inputs::sizes::{FLEET_AT, SECTIONS_AT, STATE_BYTES, TRAIN_BYTES};
use model::{Standing, Train};

/// Of an accepted frame: the state after it.
pub fn of_answer(state: &[u8]) -> Option<LastMoveCase> {
    let state = state_of(state)?;
    let unread = &state.train[usize::from(state.trains)..];
    let is_strange = |place: &Train| place.last != place.reached_by();
    unread
        .iter()
        .any(is_strange)
        .then_some(LastMoveCase::Unread)
}

/// Of bytes that were refused by 1: they are those of a sound state but for one last move.
pub fn of_strange(bytes: &[u8]) -> Option<LastMoveCase> {
    let Some(state) = state_of(bytes) else {
        return of_no_state(bytes);
    };
    let mut right = state;
    give(&mut right);
    let is_wrong = |train: &&Train| train.last != train.reached_by();
    let wrong: Vec<&Train> = state.present().iter().filter(is_wrong).collect();
    match wrong[..] {
        [train] if model::sound(&right) => Some(fault(train, state.posts)),
        _ => None,
    }
}

/// What is wrong with the last move of a train that is right but for it.
fn fault(train: &Train, posts: u8) -> LastMoveCase {
    let Some((from, to)) = train.last else {
        return LastMoveCase::NonePast;
    };
    let Some((right_from, right_to)) = train.reached_by() else {
        return match train.start == train.end {
            true => LastMoveCase::Parked,
            false => LastMoveCase::AtStart,
        };
    };
    let ahead = from == train.at && Some(to) == train.next();
    let runs = matches!(train.standing, Standing::Running(_));
    if from.max(to) >= posts {
        LastMoveCase::OffTheLine
    } else if (from, to) == (right_to, right_from) {
        LastMoveCase::Backwards
    } else if ahead && runs {
        LastMoveCase::AheadRunning
    } else if ahead {
        LastMoveCase::Ahead
    } else if to == right_from && from.abs_diff(train.at) == 2 {
        LastMoveCase::Earlier
    } else if to == right_to {
        LastMoveCase::OtherFrom
    } else if from == right_from {
        LastMoveCase::OtherTo
    } else {
        LastMoveCase::Other
    }
}

/// Of bytes that encode no state, for the last move of one train alone.
fn of_no_state(bytes: &[u8]) -> Option<LastMoveCase> {
    if bytes.len() != STATE_BYTES {
        return None;
    }
    let encodes_none = |train: &[u8]| {
        let last = &train[train_at::LAST..];
        last[0] > 1 || last[0] == 0 && last != [0, 0, 0]
    };
    let fleet = bytes[FLEET_AT..SECTIONS_AT].chunks_exact(TRAIN_BYTES);
    let wrong: Vec<usize> = fleet
        .enumerate()
        .filter(|(_, train)| encodes_none(train))
        .map(|(t, _)| t)
        .collect();
    let [t] = wrong[..] else {
        return None;
    };
    let at = FLEET_AT + TRAIN_BYTES * t + train_at::LAST;
    let mut without = bytes.to_vec();
    without[at..at + 3].fill(0);
    let mut state = state_of(&without)?;
    give(&mut state);
    let read = t < usize::from(state.trains);
    let case = match (bytes[at] > 1, read) {
        (true, true) => LastMoveCase::OtherByte,
        (true, false) => LastMoveCase::OtherByteUnread,
        (false, true) => LastMoveCase::PostOfNone,
        (false, false) => LastMoveCase::PostOfNoneUnread,
    };
    model::sound(&state).then_some(case)
}

#[cfg(test)]
mod tests {
    use super::*;
    use crate::state_moves::bring;
    use inputs::books::book;
    use inputs::crews;
    use inputs::encoding::state_bytes;
    use model::State;
    use LastMoveCase::*;

    /// Five posts, with a train that has made two moves of four, one that runs from its start, and a parked one.
    fn line() -> State {
        let line = book(&[3; 5], &[[0, 4], [4, 0], [1, 1]]);
        let mut state = crews::open(&line).unwrap().state;
        bring(&mut state.train[0], 2);
        state.train[1].standing = Standing::Running(3);
        state
    }

    #[test]
    fn what_is_strange_for_a_last_move_alone_is_told() {
        for (t, last, case) in [
            (0, Some((1, 2)), None),
            (0, None, Some(NonePast)),
            (1, Some((4, 4)), Some(AtStart)),
            (2, Some((0, 1)), Some(Parked)),
            (0, Some((2, 1)), Some(Backwards)),
            (0, Some((2, 3)), Some(Ahead)),
            (0, Some((0, 1)), Some(Earlier)),
            (0, Some((3, 2)), Some(OtherFrom)),
            (0, Some((1, 1)), Some(OtherTo)),
            (0, Some((5, 2)), Some(OffTheLine)),
            (0, Some((1, 255)), Some(OffTheLine)),
            (0, Some((4, 3)), Some(Other)),
            // It is not read.
            (3, Some((4, 3)), None),
        ] {
            let mut state = line();
            state.train[t].last = last;
            assert_eq!(of_strange(&state_bytes(&state)), case, "{t} {last:?}");
            assert_eq!(model::sound(&state), case.is_none());
        }
    }

    #[test]
    fn the_move_under_way_two_faults_and_another_one_are_told() {
        let mut state = line();
        state.train[0].standing = Standing::Running(1);
        state.train[0].last = Some((2, 3));
        assert_eq!(of_strange(&state_bytes(&state)), Some(AheadRunning));
        state.journal = 237;
        assert_eq!(of_strange(&state_bytes(&state)), None);
        state.journal = 0;
        state.train[1].last = Some((4, 4));
        assert_eq!(of_strange(&state_bytes(&state)), None);
    }

    #[test]
    fn bytes_that_encode_none_for_a_last_move_are_told() {
        let told = |t: usize, last: [u8; 3], count| {
            let mut bytes = state_bytes(&line());
            let at = FLEET_AT + TRAIN_BYTES * t + train_at::LAST;
            bytes[at..at + 3].copy_from_slice(&last);
            *bytes.last_mut().unwrap() = count;
            of_strange(&bytes)
        };
        assert_eq!(told(0, [2, 1, 2], 0), Some(OtherByte));
        assert_eq!(told(5, [255, 0, 0], 0), Some(OtherByteUnread));
        assert_eq!(told(0, [0, 1, 2], 0), Some(PostOfNone));
        assert_eq!(told(3, [0, 0, 1], 0), Some(PostOfNoneUnread));
        assert_eq!(told(3, [0, 0, 1], 237), None);
        assert_eq!(of_strange(&[0; STATE_BYTES]), None);
        assert_eq!(of_strange(&[2; STATE_BYTES - 1]), None);
    }

    #[test]
    fn strange_last_moves_that_are_not_read_are_told() {
        let mut state = line();
        assert_eq!(of_answer(&state_bytes(&state)), None);
        state.train[3].last = Some((0, 0));
        assert_eq!(of_answer(&state_bytes(&state)), Some(Unread));
    }
}
