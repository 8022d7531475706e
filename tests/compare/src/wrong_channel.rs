//! Boxes and units that are wrong in what holds of the two together. The comparison finds each of them where the other
//! side is right, and what is claimed of a run over a channel finds each of them where both sides are wrong alike.

use crate::journal_counts::{most_in_a_run, renumbered};
use crate::repeats::is_last;
use crate::state_moves::bring;
use crate::wrong_again::{again_where, around, arrival, stands, stands_past, waits};
use crate::wrong_boxes::{both_with, every_is_found, Fault, Hearing, Pressed, Replied, ENOUGH};
use crate::wrong_repeats::{answer, arrived, do_as, not_arrived, requested, train_of};
use crate::{all, channel_alone};
use inputs::crews::is_under_way;
use inputs::encoding::AGAIN;
use model::{Message, Move, Standing, State, Train, Unit, UnitState};

/// What a wrong end is called, what is wrong with it, and what is said of it, one of these, where both sides are wrong
/// alike.
type Wrong = (&'static str, Fault, &'static [&'static str]);

const NOT_COVERED: &[&str] = &["NotCovered"];
const ELSEWHERE: &[&str] = &["Elsewhere"];
const TWELVE: &[&str] = &["12 over a channel"];
/// The AM comes before the authority, and else, where it is taken, the train is ahead of its unit.
const TOO_EARLY: &[&str] = &["12 over a channel", "Elsewhere"];

/// Of a unit that goes on where it may not: the post may be full.
const GOES_ON: &[&str] = &["Elsewhere", "Overfull"];

/// Of a train that the box takes for Free or arrived too early: its unit has the authority, has not heard of it yet, or
/// is a post ahead.
const NOT_RUNNING: &[&str] = &["NotCovered", "Elsewhere"];

/// What is said of a state that is strange after a frame, and of 1, in all runs from an opened book.
const STRANGE: &[&str] = &["a frame left a strange state"];
const ONE: &[&str] = &["1 in a run from an opened book"];

/// The numbers of the buttons.
const ASK: u8 = 0;
const DEPART: u8 = 1;
const REACHED: u8 = 2;
const REPORT: u8 = 3;

/// The frame is taken for the FE that is awaited, where this is so.
fn granted_where(h: &mut Hearing, is_so: fn(&Unit, Message) -> bool) {
    if is_so(h.before, h.message) {
        (h.number, h.after.state) = (0, UnitState::Granted);
    }
}

/// The posts of the unit's own move.
fn is_own(unit: &Unit, m: Move) -> bool {
    [m.from, m.to] == [unit.at, around(unit)[1]]
}

const UNITS_THAT_HEAR: [Wrong; 8] = [
    (
        "any FE of its train is taken by a unit that waits",
        Fault::Hears(|h| {
            granted_where(h, |unit, message| match message {
                Message::Fe(m) => m.train == unit.train && waits(unit),
                _ => false,
            });
        }),
        NOT_COVERED,
    ),
    (
        "any FE of its train is taken by a unit that stands",
        Fault::Hears(|h| {
            granted_where(h, |unit, message| match message {
                Message::Fe(m) => m.train == unit.train && stands(unit) && unit.at != unit.end,
                _ => false,
            });
        }),
        NOT_COVERED,
    ),
    (
        "an FE of any train is taken",
        Fault::Hears(|h| {
            granted_where(h, |unit, message| {
                matches!(message, Message::Fe(_)) && waits(unit)
            });
        }),
        NOT_COVERED,
    ),
    (
        "an FE is told by its posts alone",
        Fault::Hears(|h| {
            granted_where(h, |unit, message| match message {
                Message::Fe(m) => is_own(unit, m) && waits(unit),
                _ => false,
            });
        }),
        NOT_COVERED,
    ),
    (
        "an AFE is taken for the FE",
        Fault::Hears(|h| {
            granted_where(h, |unit, message| match message {
                Message::Afe(m) => m.train == unit.train && is_own(unit, m) && waits(unit),
                _ => false,
            });
        }),
        NOT_COVERED,
    ),
    (
        "an LE for its section is taken for the FE",
        Fault::Hears(|h| {
            granted_where(h, |unit, message| match message {
                Message::Le(m) => m.from == unit.at.min(around(unit)[1]) && waits(unit),
                _ => false,
            });
        }),
        NOT_COVERED,
    ),
    (
        "an LB for its section is taken for the FE",
        Fault::Hears(|h| {
            granted_where(h, |unit, message| match message {
                Message::Lb(m) => m.from == unit.at.min(around(unit)[1]) && waits(unit),
                _ => false,
            });
        }),
        NOT_COVERED,
    ),
    (
        "its own FA is taken for the FE",
        Fault::Hears(|h| {
            granted_where(h, |unit, message| match message {
                Message::Fa(m) => m.train == unit.train && is_own(unit, m) && waits(unit),
                _ => false,
            });
        }),
        NOT_COVERED,
    ),
];

/// The AM of the move that the unit is about.
fn own_arrival(unit: &Unit) -> Result<Option<Message>, u8> {
    arrival(unit, unit.at, around(unit)[1])
}

/// The button was pressed, and something comes of it.
fn is_done(p: &Pressed, button: u8) -> bool {
    p.button == button && p.given.is_ok()
}

/// Departs where it should not.
fn departs_where(p: &mut Pressed, is_so: fn(&Unit) -> bool) {
    if p.button == DEPART && p.given == Err(21) && is_so(p.before) {
        (p.after.state, p.given) = (UnitState::UnderWay, Ok(None));
    }
}

const UNITS_THAT_PRESS: [Wrong; 17] = [
    (
        "Depart gives the AM",
        Fault::Presses(|p| {
            if is_done(p, DEPART) {
                p.given = own_arrival(p.before);
            }
        }),
        NOT_COVERED,
    ),
    (
        "Reached gives the AM",
        Fault::Presses(|p| {
            if is_done(p, REACHED) {
                p.given = own_arrival(p.before);
            }
        }),
        NOT_COVERED,
    ),
    (
        "Again gives the AM in Granted",
        Fault::Presses(|p| again_where(p, |u| u.state == UnitState::Granted, own_arrival)),
        NOT_COVERED,
    ),
    (
        "Again gives the AM under way",
        Fault::Presses(|p| again_where(p, |u| u.state == UnitState::UnderWay, own_arrival)),
        NOT_COVERED,
    ),
    (
        "Again gives the AM in Arrived",
        Fault::Presses(|p| again_where(p, |u| u.state == UnitState::Arrived, own_arrival)),
        NOT_COVERED,
    ),
    (
        "Again gives the AM of the move that was asked for",
        Fault::Presses(|p| again_where(p, waits, own_arrival)),
        TOO_EARLY,
    ),
    (
        "Again gives the AM of the next move",
        Fault::Presses(|p| again_where(p, |u| stands(u) && u.at != u.end, own_arrival)),
        TOO_EARLY,
    ),
    (
        "Report names the train before it",
        Fault::Presses(|p| {
            if let (REPORT, Ok(Some(Message::Am(m)))) = (p.button, &mut p.given) {
                m.train = m.train.saturating_sub(1);
            }
        }),
        TWELVE,
    ),
    (
        "Report stays at the post",
        Fault::Presses(|p| {
            if is_done(p, REPORT) {
                p.after.at = p.before.at;
            }
        }),
        ELSEWHERE,
    ),
    (
        "Report stays in Arrived",
        Fault::Presses(|p| {
            if is_done(p, REPORT) {
                p.after = *p.before;
            }
        }),
        NOT_COVERED,
    ),
    (
        "Report goes on two posts",
        Fault::Presses(|p| {
            if is_done(p, REPORT) {
                p.after.at = around(&p.after)[1];
            }
        }),
        GOES_ON,
    ),
    (
        "Reached goes on to the next post",
        Fault::Presses(|p| {
            if is_done(p, REACHED) {
                p.after.at = around(p.before)[1];
            }
        }),
        NOT_COVERED,
    ),
    (
        "Ask goes on to the next post",
        Fault::Presses(|p| {
            if is_done(p, ASK) {
                p.after.at = around(p.before)[1];
            }
        }),
        GOES_ON,
    ),
    (
        "Again goes on to the next post",
        Fault::Presses(|p| {
            if is_done(p, AGAIN) && stands_past(p.before) {
                p.after.at = around(p.before)[1];
            }
        }),
        GOES_ON,
    ),
    (
        "Depart before there is an answer",
        Fault::Presses(|p| departs_where(p, |u| u.state == UnitState::Asked)),
        NOT_COVERED,
    ),
    (
        "Depart after the AFE",
        Fault::Presses(|p| departs_where(p, |u| u.state == UnitState::Declined)),
        NOT_COVERED,
    ),
    (
        "Depart without a request",
        Fault::Presses(|p| departs_where(p, |u| stands(u) && u.at != u.end)),
        NOT_COVERED,
    ),
];

/// The move of a train that is under way so.
fn under_way_where(state: &State, is_so: impl Fn(u8, u8) -> bool) -> Option<Move> {
    let mut trains = (0..).zip(state.present());
    trains.find_map(|(train, record)| about(train, record).filter(|m| is_so(m.from, m.to)))
}

fn under_way_in(state: &State, section: u8) -> Option<Move> {
    under_way_where(state, |from, to| from.min(to) == section)
}

fn a_train_has(state: &State, section: u8) -> bool {
    under_way_in(state, section).is_some()
}

/// The move of a Running train.
fn about(number: u8, train: &Train) -> Option<Move> {
    let to = train.next().filter(|_| is_under_way(train))?;
    let from = train.at;
    Some(Move {
        train: number,
        from,
        to,
    })
}

/// The move that was declined, where its section is so.
fn declined_where(r: &Replied, is_so: fn(&State, u8) -> bool) -> Option<Move> {
    match r.sent.last() {
        Some(Message::Afe(m)) if is_so(&r.after, m.from.min(m.to)) => Some(*m),
        _ => None,
    }
}

/// An FE in the place of an AFE, where the section is so. The train waits.
fn granted_in_words(r: &mut Replied, is_so: fn(&State, u8) -> bool) {
    if let Some(m) = declined_where(r, is_so) {
        r.sent.pop();
        r.sent.push(Message::Fe(m));
    }
}

/// The same where there is a track, and the train is Running.
fn granted_indeed(r: &mut Replied, is_so: fn(&State, u8) -> bool) {
    let Some(m) = declined_where(r, is_so) else {
        return;
    };
    let t = usize::from(m.train);
    let up = r.after.train[t].is_up();
    if let Some(track) = r.after.free_track(m.to, up) {
        r.after.train[t].standing = Standing::Running(track);
        granted_in_words(r, is_so);
    }
}

/// The train is Free, and the journal's count does not show that it was anything else.
fn free(r: &mut Replied, m: Move) {
    r.after.train[usize::from(m.train)].standing = Standing::Free;
    let (most, gangs) = most_in_a_run(&r.after);
    let most = most.saturating_sub(gangs) as u8;
    if r.after.journal > most {
        r.after = renumbered(&r.after);
        r.after.journal = most;
    }
}

/// The trains that are Running after the frame are Free, where they were so before it.
fn free_where(r: &mut Replied, is_so: fn(&Train) -> bool) {
    for (number, before) in (0..).zip(r.before.present()) {
        let under_way = about(number, &r.after.train[usize::from(number)]);
        if let Some(m) = under_way.filter(|_| is_so(before)) {
            free(r, m);
        }
    }
}

const BOXES_WITH_REQUESTS: [Wrong; 9] = [
    (
        "a train is freed when it is granted",
        Fault::Replies(|r| free_where(r, |before| !is_under_way(before))),
        NOT_RUNNING,
    ),
    (
        "an FA of a Running train frees it",
        Fault::Replies(|r| {
            if let Some((m, Standing::Running(_))) = requested(r) {
                free(r, m);
            }
        }),
        NOT_RUNNING,
    ),
    (
        "a new FA gets its FE, and the train stays Free",
        Fault::Replies(|r| match (r.message, r.number) {
            (Message::Fa(m), 0) if requested(r).is_none() => answer(r, &[Message::Fe(m)]),
            _ => {}
        }),
        NOT_COVERED,
    ),
    (
        "an FA of an Asked train gets an FE",
        Fault::Replies(|r| {
            if let Some((m, Standing::Asked(_))) = requested(r) {
                answer(r, &[Message::Fe(m)]);
            }
        }),
        NOT_COVERED,
    ),
    (
        "every FA is answered by its FE",
        Fault::Replies(|r| granted_in_words(r, |_, _| true)),
        NOT_COVERED,
    ),
    (
        "an FE though a train has the section",
        Fault::Replies(|r| granted_in_words(r, a_train_has)),
        NOT_COVERED,
    ),
    (
        "an FE though a gang has the section",
        Fault::Replies(|r| granted_in_words(r, State::gang_holds)),
        NOT_COVERED,
    ),
    (
        "a second train is granted into a section",
        Fault::Replies(|r| granted_indeed(r, a_train_has)),
        STRANGE,
    ),
    (
        "a train is granted into the section of a gang",
        Fault::Replies(|r| granted_indeed(r, State::gang_holds)),
        STRANGE,
    ),
];

/// Does as with the AM of this move.
fn arrive(r: &mut Replied, m: Move) {
    do_as(r, r.before, Message::Am(m));
}

/// The train goes on by a post more, where there is a track.
fn go_on(r: &mut Replied, t: usize) {
    let train = r.after.train[t];
    let Some(to) = train.next() else {
        return;
    };
    if let Some(track) = r.after.free_track(to, train.is_up()) {
        let train = &mut r.after.train[t];
        bring(train, to);
        train.track = if train.is_put_away(r.before.sidings) {
            0
        } else {
            track
        };
    }
}

const BOXES_WITH_ARRIVALS: [Wrong; 8] = [
    (
        "an AM of any move is the arrival",
        Fault::Replies(|r| {
            if let Some(m) = not_arrived(r).and_then(|(m, train)| about(m.train, train)) {
                arrive(r, m);
            }
        }),
        NOT_RUNNING,
    ),
    (
        "a repeated AM is the next arrival",
        Fault::Replies(|r| {
            if let Some(m) = arrived(r).and_then(|(m, train)| about(m.train, train)) {
                arrive(r, m);
            }
        }),
        NOT_RUNNING,
    ),
    (
        "a repeated AM frees its train",
        Fault::Replies(|r| {
            if let Some((m, _)) = arrived(r) {
                free(r, m);
            }
        }),
        NOT_RUNNING,
    ),
    (
        "a repeated AM is 12",
        Fault::Replies(|r| {
            if arrived(r).is_some() {
                r.number = 12;
            }
        }),
        TWELVE,
    ),
    (
        "a repeated AM is 1",
        Fault::Replies(|r| {
            if arrived(r).is_some() {
                r.number = 1;
            }
        }),
        ONE,
    ),
    (
        "an AM is told by its posts alone",
        Fault::Replies(|r| {
            let Message::Am(m) = r.message else {
                return;
            };
            let is_its = |from, to| [from, to] == [m.from, m.to];
            if let Some(other) = under_way_where(r.before, is_its) {
                arrive(r, other);
            }
        }),
        NOT_RUNNING,
    ),
    (
        "an AM frees every train",
        Fault::Replies(|r| {
            if matches!(r.message, Message::Am(_)) && r.number == 0 {
                free_where(r, is_under_way);
            }
        }),
        NOT_RUNNING,
    ),
    (
        "an AM brings its train on by two posts",
        Fault::Replies(|r| match (r.message, r.number) {
            (Message::Am(m), 0) if arrived(r).is_none() => go_on(r, m.train.into()),
            _ => {}
        }),
        ELSEWHERE,
    ),
];

/// A section that a train has is lent to a gang.
fn lend(r: &mut Replied, m: Move) {
    answer(r, &[Message::Le(m)]);
    r.after.possessions[usize::from(m.from)] = true;
    r.after.given += 1;
}

/// The move of a frame that was refused by this number, where a train is in its section.
fn about_section(r: &Replied, number: u8) -> Option<Move> {
    let m = r.message.movement();
    let in_section = under_way_in(r.before, m.from.min(m.to));
    in_section.filter(|_| r.number == number)
}

const BOXES_WITH_OTHERS: [Wrong; 5] = [
    (
        "a section is lent in which a train is",
        Fault::Replies(|r| {
            if let (Message::La(m), Some(_)) = (r.message, about_section(r, 24)) {
                lend(r, m);
            }
        }),
        STRANGE,
    ),
    (
        "a section is lent in which a train is, and that is freed",
        Fault::Replies(|r| {
            if let (Message::La(m), Some(under_way)) = (r.message, about_section(r, 24)) {
                lend(r, m);
                free(r, under_way);
            }
        }),
        NOT_RUNNING,
    ),
    (
        "an LB frees the train in its section",
        Fault::Replies(|r| {
            if let (Message::Lb(_), Some(under_way)) = (r.message, about_section(r, 25)) {
                answer(r, &[]);
                free(r, under_way);
            }
        }),
        NOT_RUNNING,
    ),
    (
        "an FE at the box is the arrival",
        Fault::Replies(|r| {
            if let (Message::Fe(_), Some(under_way)) = (r.message, about_section(r, 6)) {
                arrive(r, under_way);
            }
        }),
        NOT_RUNNING,
    ),
    (
        "an AFE at the box takes the authority back",
        Fault::Replies(|r| {
            if let (Message::Afe(_), Some(under_way)) = (r.message, about_section(r, 6)) {
                answer(r, &[]);
                free(r, under_way);
            }
        }),
        NOT_RUNNING,
    ),
];

/// Ends that are wrong and harm nobody: what is claimed holds of them.
const HARMLESS: [(&str, Fault); 4] = [
    (
        "an FE of its next move is taken by a unit that stands",
        Fault::Hears(|h| {
            granted_where(h, |unit, message| match message {
                Message::Fe(m) => m.train == unit.train && is_own(unit, m) && stands(unit),
                _ => false,
            });
        }),
    ),
    (
        "an FA after its AM gets its FE again",
        Fault::Replies(|r| match (r.message, r.number) {
            (Message::Fa(m), 8 | 9) if is_last(train_of(r, m), m) => answer(r, &[Message::Fe(m)]),
            _ => {}
        }),
    ),
    (
        "an FA of a Running train gets an AFE",
        Fault::Replies(|r| {
            if let Some((m, Standing::Running(_))) = requested(r) {
                answer(r, &[Message::Afe(m)]);
            }
        }),
    ),
    (
        "an FA of the move after is the arrival",
        Fault::Replies(|r| match (r.message, r.number) {
            (Message::Fa(m), 9) if train_of(r, m).next() == Some(m.from) => {
                if let Some(under_way) = about(m.train, train_of(r, m)) {
                    arrive(r, under_way);
                }
            }
            _ => {}
        }),
    ),
];

/// The seed, and the events over a channel within which each must be found where both sides are wrong alike.
const SEED: u64 = 3;
const ENOUGH_EVENTS: u64 = 100_000;

/// Each is found where the other side is right, and where both are wrong alike by what is claimed.
fn every_is_found_either_way(wrong: &[Wrong]) {
    for (name, fault, said) in wrong {
        every_is_found(&[(*name, *fault)]);
        let mut pair = both_with(*fault);
        let found = channel_alone(&mut pair, SEED, ENOUGH_EVENTS)
            .expect_err(name)
            .0;
        let is_said = said.iter().any(|words| found.contains(words));
        assert!(is_said, "{name}: {found}");
        println!("{name}: both, after {} events", pair.counts.events());
    }
}

#[test]
fn every_unit_that_hears_wrongly_is_found() {
    every_is_found_either_way(&UNITS_THAT_HEAR);
}

#[test]
fn every_unit_that_presses_wrongly_is_found() {
    every_is_found_either_way(&UNITS_THAT_PRESS);
}

#[test]
fn every_box_wrong_with_requests_over_a_channel_is_found() {
    every_is_found_either_way(&BOXES_WITH_REQUESTS);
}

#[test]
fn every_box_wrong_with_arrivals_over_a_channel_is_found() {
    every_is_found_either_way(&BOXES_WITH_ARRIVALS);
}

#[test]
fn every_box_wrong_with_other_frames_over_a_channel_is_found() {
    every_is_found_either_way(&BOXES_WITH_OTHERS);
}

/// Runs over a channel are among all others, and what happened is told in full.
#[test]
fn what_goes_against_the_claim_ends_the_comparison() {
    for (name, fault, _) in [UNITS_THAT_HEAR[0], BOXES_WITH_REQUESTS[0]] {
        let found = all(&mut both_with(fault), &ENOUGH).expect_err(name).0;
        for words in [
            "NotCovered",
            "Press {",
            "ToTheBox(",
            "ToUnit(",
            "sent 0: [0, 5, 1",
        ] {
            assert!(found.contains(words), "{name}: {found}");
        }
    }
}

/// It is not any difference from the model that is found there, but what goes against the claim.
#[test]
fn what_harms_nobody_is_a_difference_alone() {
    every_is_found(&HARMLESS);
    for (name, fault) in HARMLESS {
        let compared = channel_alone(&mut both_with(fault), SEED, ENOUGH_EVENTS);
        assert!(compared.is_ok(), "{name}: {:?}", compared.err());
    }
}
