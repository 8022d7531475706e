//! Boxes and units that are wrong with track gangs.

use crate::cases::LocalRunCase;
use crate::journal_counts::MOST;
use crate::local_runs::{could_go, of_strange, stands_at};
use crate::wrong_boxes::{every_is_found, Answered, Fault};
use inputs::encoding::state_bytes;
use inputs::frames::{FROM_AT, GANG, KIND_AT, LA, LB, LE, TO_AT, TRAIN_AT};
use inputs::sizes::{FRAME_BYTES, STATE_BYTES, TRAINS_AT};
use inputs::sizes::{GIVEN_AT, LOCAL_RUNS, SECTIONS_AT};
use model::{Message, Move, Standing, State, Train, UnitState};

// ---- what a frame says

/// The kind and the content of an LA or LB that can be read.
fn of_gang(frame: &[u8]) -> Option<(u8, Move)> {
    match model::read_frame(frame) {
        Ok(Message::La(m)) => Some((LA, m)),
        Ok(Message::Lb(m)) => Some((LB, m)),
        _ => None,
    }
}

/// The section that a frame of this kind names, if there can be such a one.
fn named(frame: &[u8], kind: u8) -> Option<usize> {
    let (_, m) = of_gang(frame).filter(|(of, _)| *of == kind)?;
    (m.from < 7).then_some(usize::from(m.from))
}

/// An LA that the model answers.
fn is_given(frame: &[u8], number: u8) -> Option<usize> {
    named(frame, LA).filter(|_| number == 0)
}

/// The posts are no section with the lower one first, wherever the line ends.
fn is_misnamed(m: Move) -> bool {
    m.from >= 7 || m.to != m.from + 1
}

// ---- states that are taken for others

/// All gangs are overlooked, but for one that asks for a section or gives one back.
fn without_gangs(mut state: State, frame: &[u8]) -> State {
    let back = named(frame, LB);
    if named(frame, LA).is_none() {
        for (section, held) in state.possessions.iter_mut().enumerate() {
            *held &= back == Some(section);
        }
    }
    state
}

/// A gang blocks the free sections beside its own as well.
fn with_neighbours(state: State, frame: &[u8]) -> State {
    let mut wider = state;
    for section in 0..state.posts - 1 {
        let beside = state.gang_holds(section + 1) || section > 0 && state.gang_holds(section - 1);
        if beside && state.holders_of_section(section) == 0 && of_gang(frame).is_none() {
            wider.possessions[usize::from(section)] = true;
        }
    }
    wider
}

/// The gangs are those before the frame, but for its own.
fn with_gangs_again(a: Answered) {
    let mut held = a.before.possessions;
    if let Some(own) = a.records.first().filter(|r| matches!(r.kind, LA | LB)) {
        held[usize::from(own.from)] = own.kind == LA;
    }
    a.after.possessions = held;
}

/// At an LB these trains are overlooked, by its section and theirs.
fn without_askers(mut state: State, frame: &[u8], overlooked: fn(usize, usize) -> bool) -> State {
    let Some(own) = named(frame, LB) else {
        return state;
    };
    for train in &mut state.train {
        if let (Standing::Asked(_), Some(to)) = (train.standing, train.next()) {
            if overlooked(own, usize::from(train.at.min(to))) {
                train.standing = Standing::Free;
            }
        }
    }
    state
}

/// Who was overlooked still waits.
fn with_askers_again(a: Answered) {
    for (train, before) in a.after.train.iter_mut().zip(&a.before.train) {
        if let (Standing::Free, Standing::Asked(_)) = (train.standing, before.standing) {
            train.standing = before.standing;
        }
    }
}

/// At an LA the trains under way are overlooked.
fn without_runs(mut state: State, frame: &[u8]) -> State {
    if named(frame, LA).is_some() {
        for train in &mut state.train {
            if let Standing::Running(_) = train.standing {
                train.standing = Standing::Free;
            }
        }
    }
    state
}

fn with_trains_again(a: Answered) {
    if a.kind() == LA {
        a.after.train = a.before.train;
    }
}

/// The places of sections that are not on the line.
fn unread(state: &State) -> std::ops::Range<usize> {
    usize::from(state.posts).clamp(1, 8) - 1..7
}

/// The bytes of a state's sections, where it has its length.
fn sections(state: &mut [u8]) -> &mut [u8] {
    match state.len() {
        STATE_BYTES => &mut state[SECTIONS_AT..GIVEN_AT],
        _ => &mut [],
    }
}

/// The bytes are those of an LA or LB.
fn is_of_gang(frame: &[u8]) -> bool {
    frame.len() == FRAME_BYTES && matches!(frame[KIND_AT], LA | LB)
}

const OF_TRAINS: [(&str, Fault); 9] = [
    (
        "a gang blocks no authority",
        Fault::AsIf(without_gangs, with_gangs_again),
    ),
    (
        "a gang blocks the sections beside its own",
        Fault::AsIf(with_neighbours, with_gangs_again),
    ),
    (
        "an LB starts no granting",
        Fault::AsIf(|s, f| without_askers(s, f, |_, _| true), with_askers_again),
    ),
    (
        "an LB grants for its own section alone",
        Fault::AsIf(
            |s, f| without_askers(s, f, |own, other| own != other),
            with_askers_again,
        ),
    ),
    (
        "an LB frees its section after the granting",
        Fault::AsIf(
            |s, f| without_askers(s, f, |own, other| own == other),
            with_askers_again,
        ),
    ),
    (
        "an LA lets trains go",
        Fault::Answered(|a| {
            let trains = 0..usize::from(a.before.trains);
            let is_la = a.kind() == LA;
            for t in trains {
                if is_la && could_go(a.after, a.table, t) {
                    a.after.train[t].standing = Standing::Running(1);
                }
            }
        }),
    ),
    (
        "a section is given beside a train",
        Fault::AsIf(without_runs, with_trains_again),
    ),
    (
        "a section between trains that stand is taken",
        Fault::Numbers(|s, f, number| match is_given(f, number) {
            Some(section) => {
                let posts = [section as u8, section as u8 + 1];
                24 * u8::from(posts.map(|post| stands_at(s, post)) == [true; 2])
            }
            None => number,
        }),
    ),
    (
        "a section beside a gang's is taken",
        Fault::Numbers(|s, f, number| match is_given(f, number) {
            Some(section) => 24 * u8::from(s.gang_holds(section as u8 + 1)),
            None => number,
        }),
    ),
];

const OF_GANGS: [(&str, Fault); 14] = [
    (
        "a section is given to a second gang",
        Fault::AsIf(
            |mut s, f| {
                if let Some(section) = named(f, LA) {
                    s.possessions[section] = false;
                }
                s
            },
            |_| (),
        ),
    ),
    (
        "a section stays taken after its LB",
        Fault::Answered(|a| {
            if a.kind() == LB {
                a.after.possessions = a.before.possessions;
            }
        }),
    ),
    (
        "an LB frees all sections",
        Fault::Answered(|a| {
            if a.kind() == LB {
                a.after.possessions[..unread(a.before).start].fill(false);
            }
        }),
    ),
    (
        "a section is not taken by its LE",
        Fault::Answered(|a| {
            if a.kind() == LA {
                a.after.possessions = a.before.possessions;
            }
        }),
    ),
    (
        "the local runs given are not counted",
        Fault::Answered(|a| a.after.given = a.before.given),
    ),
    (
        "only gangs that are out are counted",
        Fault::Answered(|a| a.after.given -= u8::from(a.kind() == LB && a.after.given > 0)),
    ),
    (
        "local runs are counted as they come back",
        Fault::Answered(|a| {
            let back = a.kind() == LB && a.before.given < LOCAL_RUNS;
            a.after.given = a.before.given + u8::from(back);
        }),
    ),
    (
        "local runs are counted from one",
        Fault::Opened(|s| s.given = 1),
    ),
    (
        "a twenty-first is given",
        Fault::AsIf(
            |mut s, f| {
                if named(f, LA).is_some() {
                    s.given = s.given.min(LOCAL_RUNS - 1);
                }
                s
            },
            |a| a.after.given = a.before.given + u8::from(a.kind() == LA),
        ),
    ),
    (
        "the twentieth is not given",
        Fault::Numbers(|s, f, number| match is_given(f, number) {
            Some(_) if s.given == LOCAL_RUNS - 1 => 26,
            _ => number,
        }),
    ),
    (
        "an LA has a train's number in the journal",
        Fault::Answered(|a| {
            if a.kind() == LA {
                a.records[0].train = 0;
            }
        }),
    ),
    (
        "an LE has a track in the journal",
        Fault::Answered(|a| {
            for le in a.records.iter_mut().filter(|r| r.kind == LE) {
                le.track = 1;
            }
        }),
    ),
    (
        "an LB is logged as an LA",
        Fault::Answered(|a| {
            if a.kind() == LB {
                a.records[0].kind = LA;
            }
        }),
    ),
    (
        "an LA is the train's that stands there",
        Fault::Answered(|a| {
            for la in a.records.iter_mut().filter(|r| r.kind == LA) {
                let stands = |train: &Train| train.at == la.from;
                if let Some(t) = a.before.present().iter().position(stands) {
                    la.train = t as u8;
                }
            }
        }),
    ),
];

const OF_NUMBERS: [(&str, Fault); 10] = [
    (
        "26 before 24",
        Fault::Numbers(|s, _, number| match number {
            24 if s.given == LOCAL_RUNS => 26,
            _ => number,
        }),
    ),
    (
        "9 before 7 for a gang",
        Fault::Numbers(|_, f, number| match of_gang(f) {
            Some((_, m)) if number == 7 && is_misnamed(m) => 9,
            _ => number,
        }),
    ),
    (
        "24 and 25 before 9",
        Fault::Numbers(|s, f, number| match of_gang(f) {
            Some((LA, m)) if number == 9 && s.holders_of_section(m.from) > 0 => 24,
            Some((LB, m)) if number == 9 && !s.gang_holds(m.from) => 25,
            _ => number,
        }),
    ),
    (
        "13 at 229 before 24, 25 and 26",
        Fault::Numbers(|s, _, number| match number {
            24..=26 if s.journal == MOST => 13,
            _ => number,
        }),
    ),
    (
        "13 at 229 before 7 and 9 for a gang",
        Fault::Numbers(|s, f, number| match number {
            7 | 9 if s.journal == MOST && of_gang(f).is_some() => 13,
            _ => number,
        }),
    ),
    (
        "an LA needs room for eight records",
        Fault::Numbers(|s, f, number| match is_given(f, number) {
            Some(_) if s.journal == MOST => 13,
            _ => number,
        }),
    ),
    (
        "an LB needs room for eight records",
        Fault::Numbers(|s, f, number| match named(f, LB) {
            Some(_) if number == 0 && s.journal == MOST => 13,
            _ => number,
        }),
    ),
    (
        "an LE at the box is unknown",
        Fault::Numbers(|_, f, number| match model::read_frame(f) {
            Ok(Message::Le(_)) => 5,
            _ => number,
        }),
    ),
    (
        "an LE at the box is of no train",
        Fault::Numbers(|_, f, number| match model::read_frame(f) {
            Ok(Message::Le(m)) if m.train == GANG => 7,
            _ => number,
        }),
    ),
    (
        "the kinds of gangs are unknown",
        Fault::Numbers(|_, f, number| match of_gang(f) {
            Some(_) => 5,
            None => number,
        }),
    ),
];

const OF_BYTES: [(&str, Fault); 10] = [
    (
        "gangs in places not read are strange",
        Fault::TakenFor(|s| match s.possessions[unread(&s)].contains(&true) {
            true => State::EMPTY,
            false => s,
        }),
    ),
    (
        "gangs in places not read are cleared",
        Fault::Answered(|a| a.after.possessions[unread(a.before)].fill(false)),
    ),
    (
        "gangs in places not read are asked about",
        Fault::Numbers(|s, f, number| match of_gang(f) {
            Some((kind, m)) if number == 9 && m.from == s.posts - 1 && m.to == s.posts => {
                match (kind, s.possessions.get(usize::from(m.from))) {
                    (LA, Some(true)) => 24,
                    (LB, Some(false)) => 25,
                    _ => number,
                }
            }
            _ => number,
        }),
    ),
    (
        "a gang and a train on one section are not seen",
        Fault::TakenFor(|s| match of_strange(&state_bytes(&s)) {
            Some(LocalRunCase::TrainAndGang) => State {
                possessions: [false; 7],
                ..s
            },
            _ => s,
        }),
    ),
    (
        "twenty-one given are not seen",
        Fault::TakenFor(|s| match s.given.checked_sub(1) {
            Some(LOCAL_RUNS) => State {
                given: LOCAL_RUNS,
                ..s
            },
            _ => s,
        }),
    ),
    (
        "a byte above 1 is a gang",
        Fault::Reads(|s, _| {
            for byte in sections(s) {
                *byte = 1.min(*byte);
            }
        }),
    ),
    (
        "a byte above 1 is not seen off the line",
        Fault::Reads(|s, _| {
            let on_the_line = s
                .first()
                .map_or(0, |posts| usize::from(posts.saturating_sub(1)));
            for byte in sections(s).iter_mut().skip(on_the_line) {
                *byte = 1.min(*byte);
            }
        }),
    ),
    (
        "the train byte of a gang is not read",
        Fault::Reads(|_, f| {
            if is_of_gang(f) {
                f[TRAIN_AT] = GANG;
            }
        }),
    ),
    (
        "any number that is no train's is a gang's",
        Fault::Reads(|s, f| {
            if is_of_gang(f)
                && s.get(TRAINS_AT)
                    .is_some_and(|trains| *trains <= f[TRAIN_AT])
            {
                f[TRAIN_AT] = GANG;
            }
        }),
    ),
    (
        "a section may be named by its higher post first",
        Fault::Reads(|_, f| {
            if is_of_gang(f) && f[FROM_AT].checked_sub(1) == Some(f[TO_AT]) {
                f.swap(FROM_AT, TO_AT);
            }
        }),
    ),
];

const UNITS: [(&str, Fault); 7] = [
    (
        "a unit does not know the kinds of gangs",
        Fault::Heard(|_, kind| 5 * u8::from(kind >= LA)),
    ),
    (
        "an LA at a unit is at the wrong end",
        Fault::Heard(|_, kind| 6 * u8::from(kind == LA)),
    ),
    (
        "an LB at a unit is at the wrong end",
        Fault::Heard(|_, kind| 6 * u8::from(kind == LB)),
    ),
    (
        "an LE that a unit under way hears is not awaited",
        Fault::Heard(|u, kind| 22 * u8::from(kind == LE && u.state == UnitState::UnderWay)),
    ),
    (
        "a unit takes an LE for its FE",
        Fault::Heard(|u, kind| {
            if kind == LE && u.state == UnitState::Declined {
                u.state = UnitState::Granted;
            }
            0
        }),
    ),
    (
        "a unit takes an LA for its AFE",
        Fault::Heard(|u, kind| {
            if kind == LA && u.state == UnitState::Asked {
                u.state = UnitState::Declined;
            }
            0
        }),
    ),
    (
        "a unit with an authority loses it by an LA",
        Fault::Heard(|u, kind| {
            if kind == LA && u.state == UnitState::Granted {
                u.state = UnitState::Asked;
            }
            0
        }),
    ),
];

#[test]
fn every_box_wrong_with_trains_and_gangs_is_found() {
    every_is_found(&OF_TRAINS);
}

#[test]
fn every_box_wrong_with_gangs_is_found() {
    every_is_found(&OF_GANGS);
}

#[test]
fn every_box_that_gives_a_gang_another_number_is_found() {
    every_is_found(&OF_NUMBERS);
}

#[test]
fn every_box_that_reads_other_gangs_is_found() {
    every_is_found(&OF_BYTES);
}

#[test]
fn every_unit_wrong_with_gangs_is_found() {
    every_is_found(&UNITS);
}
