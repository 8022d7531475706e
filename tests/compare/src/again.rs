//! What came of Again, by the unit that it was pressed on, and of numbers that are no button's.

use crate::cases::AgainCase;
use inputs::encoding::{unit_of, AGAIN, NO_BUTTON};
use model::{Unit, UnitState};

/// Of a button that was pressed on a unit and answered with this number.
pub fn of_press(unit: &[u8], button: u8, refusal: u8) -> Option<AgainCase> {
    let unit = unit_of(unit)?;
    match (button, refusal) {
        (AGAIN, 1) => Some(AgainCase::Strange),
        (AGAIN, 2) if gives_a_frame(&unit) => Some(AgainCase::ShortDue),
        (AGAIN, 2) => Some(AgainCase::ShortNotNow),
        (AGAIN, _) => Some(of_again(&unit)),
        (NO_BUTTON, 21) => Some(AgainCase::Button5),
        (NO_BUTTON.., 21) => Some(AgainCase::ButtonAbove),
        _ => None,
    }
}

/// "it gives the FA in Asked or Declined, the AM of the last move in Standing past the start, and else 21"
fn gives_a_frame(unit: &Unit) -> bool {
    match unit.state {
        UnitState::Asked | UnitState::Declined => true,
        UnitState::Standing => unit.at != unit.start,
        UnitState::Granted | UnitState::UnderWay | UnitState::Arrived => false,
    }
}

fn of_again(unit: &Unit) -> AgainCase {
    match unit.state {
        UnitState::Standing => of_standing(unit),
        UnitState::Asked => AgainCase::Asked,
        UnitState::Declined => AgainCase::Declined,
        UnitState::Granted => AgainCase::Granted,
        UnitState::UnderWay => AgainCase::UnderWay,
        UnitState::Arrived => AgainCase::Arrived,
    }
}

fn of_standing(unit: &Unit) -> AgainCase {
    let Unit { start, end, at, .. } = *unit;
    if start == end {
        AgainCase::Parked
    } else if at == start {
        AgainCase::AtStart
    } else if at == end {
        AgainCase::Home
    } else if start < end {
        AgainCase::PastUp
    } else {
        AgainCase::PastDown
    }
}

#[cfg(test)]
mod tests {
    use super::*;
    use inputs::encoding::unit_bytes;
    use model::unit::press;
    use model::{Button, Message};
    use AgainCase::*;

    #[test]
    fn what_comes_of_again_is_told() {
        let train = 3;
        for (start, end, at, state, case, kind) in [
            (1, 3, 1, UnitState::Standing, AtStart, None),
            (1, 1, 1, UnitState::Standing, Parked, None),
            (1, 3, 2, UnitState::Standing, PastUp, Some("AM")),
            (3, 1, 2, UnitState::Standing, PastDown, Some("AM")),
            (1, 3, 3, UnitState::Standing, Home, Some("AM")),
            (1, 3, 1, UnitState::Asked, Asked, Some("FA")),
            (3, 1, 2, UnitState::Declined, Declined, Some("FA")),
            (1, 3, 2, UnitState::Granted, Granted, None),
            (1, 3, 2, UnitState::UnderWay, UnderWay, None),
            (1, 3, 2, UnitState::Arrived, Arrived, None),
        ] {
            let unit = Unit {
                train,
                start,
                end,
                at,
                state,
            };
            let (_, refusal, frame) = press(&unit, Button::Again);
            let bytes = unit_bytes(&unit);
            assert_eq!(of_press(&bytes, AGAIN, refusal), Some(case));
            let sent = frame.and_then(|frame| model::read_frame(&frame).ok());
            let sent = sent.map(|message| match message {
                Message::Fa(_) => "FA",
                Message::Am(_) => "AM",
                _ => "another",
            });
            assert_eq!((sent, refusal), (kind, if kind.is_none() { 21 } else { 0 }));
            let short = if kind.is_none() {
                ShortNotNow
            } else {
                ShortDue
            };
            assert_eq!(of_press(&bytes, AGAIN, 2), Some(short));
            assert_eq!(of_press(&bytes, AGAIN, 1), Some(Strange));
            assert_eq!(of_press(&bytes, NO_BUTTON, 21), Some(Button5));
            assert_eq!(of_press(&bytes, 255, 21), Some(ButtonAbove));
            assert_eq!(of_press(&bytes, 0, 21), None);
        }
    }
}
