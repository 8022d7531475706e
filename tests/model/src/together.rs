//! Cab and desk taken together (02, card 9): a dispatcher and one unit for each
//! train, opened from one book, a channel that delivers only frames sent, and
//! what is then shut out.

use crate::dispatcher::{self, answer, section, Standing, State, Train, Verdict};
use crate::frame::{read_frame, Message, FRAME_BYTES};
use crate::journal::{Record, JOURNAL_RECORDS};
use crate::line::has_siding;
use crate::table::TABLE_BYTES;
use crate::unit::{self, Button, Unit, UnitState};

/// What card 9 shuts out, in a state of the dispatcher and the units by train number.
#[derive(Debug, Clone, Copy, PartialEq, Eq)]
pub enum Fault {
    /// A unit that is Granted, Under way or Arrived has no Running train with the same move at the
    /// dispatcher.
    NotCovered(usize),
    /// Two such units have the same section.
    SameSection(usize, usize),
    /// A gang holds the section of such a unit.
    GangThere(usize),
    /// More units are at this post than it has tracks. Such a unit is at both posts of its move, and
    /// one put away is at none.
    Overfull(u8),
    /// A unit is neither at its train's present post at the box nor, while that train is Running,
    /// at its next one.
    Elsewhere(usize),
    /// State or a unit is not sound.
    Strange,
}

/// The first fault, or none: in the order of the cases above, and of one case
/// that of the lowest units or post. Where the units are and soundness come
/// last, since a sound state that covers its units leaves none of them in one
/// section, and no post overfull if each is where its train is.
pub fn fault(state: &State, units: &[Unit]) -> Option<Fault> {
    not_covered(state, units)
        .or_else(|| same_section(units))
        .or_else(|| gang_there(state, units))
        .or_else(|| overfull(state, units))
        .or_else(|| elsewhere(state, units))
        .or_else(|| strange(state, units))
}

/// The unit is Granted, Under way or Arrived.
fn is_authorised(unit: &Unit) -> bool {
    match unit.state {
        UnitState::Granted | UnitState::UnderWay | UnitState::Arrived => true,
        UnitState::Standing | UnitState::Asked | UnitState::Declined => false,
    }
}

/// The train of the unit's number, if the dispatcher has one.
fn train_of<'a>(state: &'a State, unit: &Unit) -> Option<&'a Train> {
    state.present().get(usize::from(unit.train))
}

fn is_running(train: &Train) -> bool {
    matches!(train.standing, Standing::Running(_))
}

/// "each unit that is Granted, Under way or Arrived has a Running train with
/// the same move at the dispatcher": the train of its number is Running, and
/// its present and next post are those of the unit.
fn not_covered(state: &State, units: &[Unit]) -> Option<Fault> {
    let is_covered = |unit: &Unit| match (train_of(state, unit), unit.own_move()) {
        (Some(train), Some(m)) => {
            is_running(train) && train.at == m.from && train.next() == Some(m.to)
        }
        _ => false,
    };
    let at = units
        .iter()
        .position(|unit| is_authorised(unit) && !is_covered(unit))?;
    Some(Fault::NotCovered(at))
}

/// The section between its present and its next post, of a unit that is
/// Granted, Under way or Arrived; none for any other, nor at the end.
fn section_of(unit: &Unit) -> Option<u8> {
    let m = unit.own_move().filter(|_| is_authorised(unit))?;
    Some(section(m.from, m.to))
}

/// "So no two units are under way in one section", claimed of every two that
/// are Granted, Under way or Arrived.
fn same_section(units: &[Unit]) -> Option<Fault> {
    for (first, unit) in units.iter().enumerate() {
        let Some(held) = section_of(unit) else {
            continue;
        };
        let mut later = units.iter().enumerate().skip(first + 1);
        if let Some((second, _)) = later.find(|(_, other)| section_of(other) == Some(held)) {
            return Some(Fault::SameSection(first, second));
        }
    }
    None
}

/// "So no two units are under way in one section", and no gang holds the
/// section of a unit that is Granted, Under way or Arrived.
fn gang_there(state: &State, units: &[Unit]) -> Option<Fault> {
    let with_gang = |unit: &Unit| section_of(unit).is_some_and(|held| state.gang_holds(held));
    units.iter().position(with_gang).map(Fault::GangThere)
}

/// The posts that the unit is at: both posts of its move while it is Granted,
/// Under way or Arrived, else its present post; none where it stands at its end
/// and is put away in a siding.
fn posts_of(unit: &Unit, sidings: u8) -> impl Iterator<Item = u8> {
    let next = unit.own_move().filter(|_| is_authorised(unit));
    let is_home = unit.at == unit.end && !is_authorised(unit);
    let is_put_away = is_home && has_siding(sidings, unit.at);
    let present = (!is_put_away).then_some(unit.at);
    present.into_iter().chain(next.map(|m| m.to))
}

/// The tracks of the post; none off the line.
fn tracks_of(state: &State, post: u8) -> usize {
    let place = state.tracks.get(usize::from(post));
    let tracks = place.filter(|_| post < state.posts);
    tracks.map_or(0, |count| usize::from(*count))
}

/// As of sections, so of tracks: no post has more units at it than it has of
/// them.
fn overfull(state: &State, units: &[Unit]) -> Option<Fault> {
    let at = |unit| posts_of(unit, state.sidings);
    let taken: Vec<u8> = units.iter().flat_map(at).collect();
    let is_overfull = |post: &u8| {
        let units_there = taken.iter().filter(|other| *other == post).count();
        units_there > tracks_of(state, *post)
    };
    let post = taken.iter().copied().filter(is_overfull).min()?;
    Some(Fault::Overfull(post))
}

/// Beside the card: a unit's present post is its train's present post at the
/// box, or the next one while that train is Running, its AM not being taken yet.
fn elsewhere(state: &State, units: &[Unit]) -> Option<Fault> {
    let is_near = |unit: &Unit| {
        train_of(state, unit).is_some_and(|train| {
            unit.at == train.at || (is_running(train) && train.next() == Some(unit.at))
        })
    };
    let at = units.iter().position(|unit| !is_near(unit))?;
    Some(Fault::Elsewhere(at))
}

/// Beside the card: refusal 1 comes at neither end.
fn strange(state: &State, units: &[Unit]) -> Option<Fault> {
    let all_sound = dispatcher::sound(state) && units.iter().all(unit::sound);
    (!all_sound).then_some(Fault::Strange)
}

/// A dispatcher and one unit for each train, opened from one book, and every
/// frame that was ever sent, in order. Nothing is taken out of the channel: a
/// frame that is lost is one that is not delivered, and one that was delivered
/// may come again, at either end, the sender's too. Each event says None, and
/// nothing happens, where there is no such unit or no such frame.
#[derive(Debug, Clone)]
pub struct Together {
    pub state: State,
    pub table: Vec<u8>,
    pub journal: Vec<Record>,
    pub units: Vec<Unit>,
    pub sent: Vec<[u8; FRAME_BYTES]>,
}

impl Together {
    /// Opens the book at the dispatcher, and makes a unit for each of its
    /// trains; or the refusal of the book. No frame was sent.
    pub fn open(book: &[u8]) -> Result<Together, u8> {
        let mut table = vec![0; TABLE_BYTES];
        let journal = vec![Record::BLANK; JOURNAL_RECORDS];
        let (state, refusal) = dispatcher::open(book, &mut table, &journal);
        if refusal != 0 {
            return Err(refusal);
        }
        // Making refuses no train of an opened book.
        let made = |(number, t): (u8, &Train)| unit::make(number, t.start, t.end).0;
        let units = (0..).zip(state.present()).map(made).collect();
        Ok(Together {
            state,
            table,
            journal,
            units,
            sent: Vec::new(),
        })
    }

    /// A button of a unit is pressed: the refusal or 0. The FA or AM that it
    /// hands back is sent.
    pub fn press(&mut self, unit: usize, button: Button) -> Option<u8> {
        let (after, refusal, frame) = unit::press(self.units.get(unit)?, button);
        self.units[unit] = after;
        self.sent.extend(frame);
        Some(refusal)
    }

    /// The frame of this number reaches the box, with an out buffer of any length.
    pub fn to_box(&mut self, frame: usize, out: &mut [u8]) -> Option<Verdict> {
        let frame = *self.sent.get(frame)?;
        Some(self.put(&frame, out))
    }

    /// The frame of this number reaches a unit: the refusal or 0.
    pub fn to_unit(&mut self, frame: usize, unit: usize) -> Option<u8> {
        let (after, refusal) = unit::hear(self.units.get(unit)?, self.sent.get(frame)?);
        self.units[unit] = after;
        Some(refusal)
    }

    /// Somebody puts an LA or an LB to the dispatcher, with any train byte and
    /// posts. It counts as sent, also where it is refused, and before what
    /// answers it. Other bytes are not put in this way.
    pub fn local(&mut self, frame: &[u8], out: &mut [u8]) -> Option<Verdict> {
        let Ok(Message::La(_) | Message::Lb(_)) = read_frame(frame) else {
            return None;
        };
        self.sent.push(frame.try_into().ok()?);
        Some(self.put(frame, out))
    }

    /// The dispatcher answers, and each frame that it writes is sent, in order
    /// of writing.
    fn put(&mut self, frame: &[u8], out: &mut [u8]) -> Verdict {
        let (after, verdict) = answer(&self.state, &self.table, &mut self.journal, frame, out);
        self.state = after;
        if let Verdict::Sent(count) = verdict {
            let (frames, _) = out.as_chunks::<FRAME_BYTES>();
            self.sent.extend(frames.iter().take(count));
        }
        verdict
    }

    /// The first fault, or none.
    pub fn fault(&self) -> Option<Fault> {
        fault(&self.state, &self.units)
    }
}
