//! The driver unit: made for one train, it presses and hears its way from
//! start to end (refusals 1, 3 to 6, 8, 18, 21, 22).

use crate::frame::{read_frame, write_frame, Message, Move, FRAME_BYTES};

/// The six states of a unit.
#[derive(Debug, Clone, Copy, PartialEq, Eq, Hash)]
pub enum UnitState {
    Standing,
    Asked,
    Declined,
    Granted,
    UnderWay,
    Arrived,
}

/// The five buttons.
#[derive(Debug, Clone, Copy, PartialEq, Eq)]
pub enum Button {
    Ask,
    Depart,
    Reached,
    Report,
    Again,
}

/// A unit: its train, its posts, its present post and its state.
#[derive(Debug, Clone, Copy, PartialEq, Eq, Hash)]
pub struct Unit {
    pub train: u8,
    pub start: u8,
    pub end: u8,
    pub at: u8,
    pub state: UnitState,
}

impl Unit {
    /// What a refused making returns. It is not sound.
    pub const EMPTY: Unit = Unit {
        train: 255,
        start: 0,
        end: 0,
        at: 0,
        state: UnitState::Standing,
    };

    /// The unit's own move, from its present post to the next; none at the end.
    pub fn own_move(&self) -> Option<Move> {
        let to = if self.at < self.end {
            self.at + 1
        } else if self.at > self.end {
            self.at - 1
        } else {
            return None;
        };
        Some(Move {
            train: self.train,
            from: self.at,
            to,
        })
    }

    /// The unit's last move, to its present post from the one before it, seen
    /// from the start; none at the start.
    fn last_move(&self) -> Option<Move> {
        let from = if self.at > self.start {
            self.at - 1
        } else if self.at < self.start {
            self.at + 1
        } else {
            return None;
        };
        Some(Move {
            train: self.train,
            from,
            to: self.at,
        })
    }

    /// The same unit in another state.
    fn turned(&self, state: UnitState) -> Unit {
        Unit { state, ..*self }
    }
}

/// The unit is sound, whatever numbers are handed in.
pub fn sound(unit: &Unit) -> bool {
    let in_range = unit.train <= 5 && unit.start <= 7 && unit.end <= 7 && unit.at <= 7;
    let between = unit.start.min(unit.end) <= unit.at && unit.at <= unit.start.max(unit.end);
    in_range && between && (unit.at != unit.end || unit.state == UnitState::Standing)
}

/// Makes a unit, Standing at its start, and 0; or the empty unit and 18.
pub fn make(train: u8, start: u8, end: u8) -> (Unit, u8) {
    if train > 5 || start > 7 || end > 7 {
        return (Unit::EMPTY, 18);
    }
    let unit = Unit {
        train,
        start,
        end,
        at: start,
        state: UnitState::Standing,
    };
    (unit, 0)
}

/// What Again gives in this state: "the FA in Asked or Declined, the AM of the
/// last move in Standing past the start", and else nothing.
fn repeated(unit: &Unit) -> Option<Message> {
    match unit.state {
        UnitState::Asked | UnitState::Declined => unit.own_move().map(Message::Fa),
        UnitState::Standing => unit.last_move().map(Message::Am),
        UnitState::Granted | UnitState::UnderWay | UnitState::Arrived => None,
    }
}

/// A button is pressed: the unit after it, the refusal or 0, and the frame
/// that is sent, FA at Ask, AM at Report, and at Again one of these once more.
/// Again changes no unit.
pub fn press(unit: &Unit, button: Button) -> (Unit, u8, Option<[u8; FRAME_BYTES]>) {
    if !sound(unit) {
        return (*unit, 1, None);
    }
    match (button, unit.state, unit.own_move()) {
        (Button::Ask, UnitState::Standing, Some(m)) => (
            unit.turned(UnitState::Asked),
            0,
            Some(write_frame(Message::Fa(m))),
        ),
        (Button::Ask, UnitState::Standing, None) => (*unit, 8, None),
        (Button::Depart, UnitState::Granted, _) => (unit.turned(UnitState::UnderWay), 0, None),
        (Button::Reached, UnitState::UnderWay, _) => (unit.turned(UnitState::Arrived), 0, None),
        (Button::Report, UnitState::Arrived, Some(m)) => {
            let after = Unit {
                at: m.to,
                state: UnitState::Standing,
                ..*unit
            };
            (after, 0, Some(write_frame(Message::Am(m))))
        }
        (Button::Again, _, _) => match repeated(unit) {
            Some(message) => (*unit, 0, Some(write_frame(message))),
            None => (*unit, 21, None),
        },
        _ => (*unit, 21, None),
    }
}

/// A frame is heard: the unit after it, and the refusal or 0.
pub fn hear(unit: &Unit, frame: &[u8]) -> (Unit, u8) {
    if !sound(unit) {
        return (*unit, 1);
    }
    let message = match read_frame(frame) {
        Ok(message) => message,
        Err(number) => return (*unit, number),
    };
    match message {
        Message::Fa(_) | Message::Am(_) => (*unit, 6),
        Message::La(_) | Message::Le(_) | Message::Lb(_) => (*unit, 0),
        Message::Fe(m) if m.train != unit.train => (*unit, 0),
        Message::Fe(m) => {
            let awaited = matches!(unit.state, UnitState::Asked | UnitState::Declined);
            if awaited && unit.own_move() == Some(m) {
                (unit.turned(UnitState::Granted), 0)
            } else {
                (*unit, 22)
            }
        }
        Message::Afe(m) => {
            if unit.state == UnitState::Asked && unit.own_move() == Some(m) {
                (unit.turned(UnitState::Declined), 0)
            } else {
                (*unit, 0)
            }
        }
    }
}
