//! Frames put to the box: whole runs of an opened book, with and without driver units, and short
//! runs from states handed in.

use crate::desk::Desk;
use crate::lent::Lent;
use crate::openings::Opened;
use crate::pair::{Compared, Pair};
use crate::radio::{Radio, TO_THE_BOX, TO_THE_UNITS};
use crate::{frames, state_counts, states, stores};
use inputs::encoding::{
    is_home, state_bytes, state_of, train_at, trains_in, AGAIN, ASKED, NO_BUTTON, PHASE_AT,
};
use inputs::random::Random;
use inputs::sizes::{FRAME_BYTES, UNIT_BYTES};

/// A table that no book gave, and what it is.
pub type Strange = (&'static str, Lent);

/// Frames of one whole run: enough for six trains to get home, with refused frames among them.
pub const LONGEST_RUN: usize = 400;

/// How the frames of a whole run come about.
#[derive(Clone, Copy)]
pub enum Crews {
    ByFrames,
    /// Every frame of a crew comes from its unit, gangs send among them, and every unit hears all frames of gangs and
    /// every answer, unless the radio loses it.
    WithUnits(Radio),
}

/// A run from the opening, until all trains are home or all that are not wait.
pub fn whole(
    pair: &mut Pair,
    opened: &Opened,
    strange: &Strange,
    crews: Crews,
    random: &mut Random,
) -> Compared<()> {
    let table = choose_table(pair, opened, strange, 8, random);
    let mut desk = Desk::opened(&opened.state, stores::journal(random), random);
    let mut units = match crews {
        Crews::ByFrames => vec![],
        Crews::WithUnits(_) => make_units(pair, &opened.state, random)?,
    };
    let (begun, ended) = names(crews);
    pair.counts.input(begun);
    pair.counts.input(of_edition(opened.edition));
    for _ in 0..LONGEST_RUN {
        match crews {
            Crews::ByFrames => put_any(pair, &mut desk, table, random)?,
            Crews::WithUnits(radio) => {
                step_with_units(pair, &mut desk, &mut units, table, radio, random)?;
            }
        }
        if is_over(&desk, random) {
            break;
        }
    }
    if trains_in(desk.state()).all(is_home) {
        pair.counts.input(ended);
    }
    pair.unchanged(table)
}

/// A run by its beginning and by its end.
fn names(crews: Crews) -> (&'static str, &'static str) {
    match crews {
        Crews::ByFrames => (
            "run: from an opened book",
            "run: from an opened book, all home",
        ),
        Crews::WithUnits(Radio::Good) => ("run: with units", "run: with units, all home"),
        Crews::WithUnits(Radio::Bad) => ("run: over bad radio", "run: over bad radio, all home"),
    }
}

fn of_edition(edition: u8) -> &'static str {
    match edition {
        1 => "run: of a book of edition 1",
        2 => "run: of a book of edition 2",
        _ => "run: of a book of edition 3",
    }
}

/// A short run from a state handed in, valid or not.
pub fn handed_in(
    pair: &mut Pair,
    opened: &Opened,
    strange: &Strange,
    random: &mut Random,
) -> Compared<()> {
    let table = choose_table(pair, opened, strange, 2, random);
    let journal = if random.one_in(32) {
        pair.counts.input("journal: short");
        stores::short_journal(random)
    } else {
        stores::journal(random)
    };
    let (kind, state) = states::any(&opened.state, random);
    pair.counts.input(kind);
    let mut desk = Desk::new(&state, journal, random);
    for _ in 0..1 + random.below(12) {
        put_any(pair, &mut desk, table, random)?;
        if is_over(&desk, random) {
            break;
        }
    }
    pair.unchanged(table)
}

/// A frame at which many trains go at once, near the most that a sound state counts, and some after it. The table is of
/// ones.
pub fn many_at_once(pair: &mut Pair, ones: &Lent, random: &mut Random) -> Compared<()> {
    pair.counts.input("run: many go at once near the most");
    let (state, frame) = state_counts::many_waiting(random);
    let mut desk = Desk::new(&state_bytes(&state), stores::journal(random), random);
    desk.put(pair, ones, &frame, random)?;
    for _ in 0..random.below(4) {
        put_any(pair, &mut desk, ones, random)?;
    }
    pair.unchanged(ones)
}

/// The book's own table so many times for each altered one.
fn choose_table<'a>(
    pair: &mut Pair,
    opened: &'a Opened,
    strange: &'a Strange,
    own: usize,
    random: &mut Random,
) -> &'a Lent {
    let (kind, table) = match random.below(2 + own) {
        0 => ("table: of the book, bits flipped", &opened.flipped),
        1 => (strange.0, &strange.1),
        _ => ("table: of the book", &opened.table),
    };
    pair.counts.input(kind);
    table
}

pub fn put_any(
    pair: &mut Pair,
    desk: &mut Desk,
    table: &Lent,
    random: &mut Random,
) -> Compared<()> {
    let (kind, frame) = frames::to_box(desk.state(), random);
    pair.counts.input(kind);
    desk.put(pair, table, &frame, random)?;
    Ok(())
}

/// No train can go any more: all are home, or those that are not are Asked and no gang is out. Two
/// times in three the run goes on all the same, with a frame that has to be refused or one of a gang.
fn is_over(desk: &Desk, random: &mut Random) -> bool {
    let trains = || trains_in(desk.state());
    let waits = |train: &[u8]| is_home(train) || train[train_at::STATUS] == ASKED;
    let no_train_can_go = trains().all(is_home) || trains().all(waits) && !gang_is_out(desk);
    no_train_can_go && random.one_in(3)
}

fn gang_is_out(desk: &Desk) -> bool {
    let state = state_of(desk.state());
    state.is_some_and(|state| (0..7).any(|section| state.gang_holds(section)))
}

/// A unit for each train of an opened book.
pub fn make_units(pair: &mut Pair, state: &[u8], random: &mut Random) -> Compared<Vec<Lent>> {
    let mut units = Vec::new();
    for (t, train) in trains_in(state).enumerate() {
        let mut unit = Lent::random(UNIT_BYTES, random);
        let numbers = [t as u8, train[train_at::START], train[train_at::END]];
        pair.make_unit(numbers, &mut unit)?;
        units.push(unit);
    }
    Ok(units)
}

/// One crew presses a button or a gang sends; the box answers what comes of it, and all units hear the answers, unless
/// the radio loses either. The frame of a gang, which is at the desk, is not lost.
fn step_with_units(
    pair: &mut Pair,
    desk: &mut Desk,
    units: &mut [Lent],
    table: &Lent,
    radio: Radio,
    random: &mut Random,
) -> Compared<()> {
    if random.one_in(6) {
        let frame = frames::of_gang(desk.state(), random);
        hear_all(pair, units, &frame, random)?;
        return exchange(pair, desk, units, table, &frame, radio, random);
    }
    let Some(frame) = pressed(pair, units, radio, random)? else {
        return Ok(());
    };
    for _ in 0..radio.times(TO_THE_BOX, pair, random) {
        exchange(pair, desk, units, table, &frame, radio, random)?;
    }
    Ok(())
}

/// The box answers a frame, and all units hear the answers that come through.
fn exchange(
    pair: &mut Pair,
    desk: &mut Desk,
    units: &mut [Lent],
    table: &Lent,
    frame: &[u8],
    radio: Radio,
    random: &mut Random,
) -> Compared<()> {
    let sent = desk.put(pair, table, frame, random)?.sent;
    for answer in desk.answers(sent) {
        for _ in 0..radio.times(TO_THE_UNITS, pair, random) {
            hear_all(pair, units, &answer, random)?;
        }
    }
    Ok(())
}

/// Some crew presses a button, mostly the one that is due: the frame that comes of it.
fn pressed(
    pair: &mut Pair,
    units: &mut [Lent],
    radio: Radio,
    random: &mut Random,
) -> Compared<Option<[u8; FRAME_BYTES]>> {
    let crew = random.below(units.len());
    let unit = &mut units[crew];
    let button = some_button(unit.bytes()[PHASE_AT], radio, random);
    Ok(press(pair, unit, button, random)?.1)
}

/// A button for a phase, mostly the one that is due.
pub fn some_button(phase: u8, radio: Radio, random: &mut Random) -> u8 {
    match random.below(8) {
        0 => random.between(0, NO_BUTTON),
        1..=4 if radio == Radio::Bad => button_again(phase),
        _ => button_due(phase),
    }
}

/// A button is pressed: the number, and the frame that comes of it.
pub fn press(
    pair: &mut Pair,
    unit: &mut Lent,
    button: u8,
    random: &mut Random,
) -> Compared<(u8, Option<[u8; FRAME_BYTES]>)> {
    let mut given = Lent::random(FRAME_BYTES + random.below(4), random);
    let reply = pair.press(unit, button, &mut given)?;
    let frame = given.bytes().first_chunk().filter(|_| reply.sent > 0);
    Ok((reply.refusal, frame.copied()))
}

fn hear_all(
    pair: &mut Pair,
    units: &mut [Lent],
    frame: &[u8],
    random: &mut Random,
) -> Compared<()> {
    let heard = Lent::new(frame, random);
    for unit in units {
        pair.hear(unit, &heard)?;
    }
    Ok(())
}

/// The button for each phase over bad radio: Again where a frame may have been lost.
fn button_again(phase: u8) -> u8 {
    match phase {
        0..=2 => AGAIN,
        _ => button_due(phase),
    }
}

/// The button for each phase; a crew that waits presses Ask in vain.
fn button_due(phase: u8) -> u8 {
    match phase {
        3 => 1,
        4 => 2,
        5 => 3,
        _ => 0,
    }
}
