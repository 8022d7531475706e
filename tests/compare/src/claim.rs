//! Box and units taken together, as both sides have them after an event over a channel, and what is claimed of them.

use crate::lent::Lent;
use inputs::encoding::{state_of, unit_of};
use model::{State, Unit};

/// What both sides have. There is a unit for each train, by its number.
#[derive(Debug, Clone)]
pub struct Both {
    pub state: State,
    pub units: Vec<Unit>,
}

impl Both {
    /// As the bytes encode them.
    pub fn of(state: &[u8], units: &[Lent]) -> Result<Both, String> {
        let units = units.iter().map(|unit| unit_of(unit.bytes())).collect();
        match (state_of(state), units) {
            (Some(state), Some(units)) => Ok(Both { state, units }),
            _ => Err("no state or no unit".into()),
        }
    }

    /// "each unit that is Granted, Under way or Arrived has a Running train with the same move at the dispatcher", and
    /// what goes with it, by the model.
    pub fn hold(&self) -> Result<(), String> {
        match model::together::fault(&self.state, &self.units) {
            Some(fault) => Err(format!("{fault:?}")),
            None => Ok(()),
        }
    }
}

/// The numbers that the box never gives over a channel, and those that a unit never gives.
pub const NEVER_AT_THE_BOX: &[u8] = &[1, 12];
pub const NEVER_AT_A_UNIT: &[u8] = &[1];

/// It is none of these.
pub fn is_none_of(never: &[u8], refusal: u8) -> Result<(), String> {
    if never.contains(&refusal) {
        return Err(format!("{refusal} over a channel"));
    }
    Ok(())
}

#[cfg(test)]
mod tests {
    use super::*;
    use crate::state_moves::bring;
    use inputs::books::book;
    use inputs::crews;
    use inputs::encoding::{state_bytes, unit_bytes};
    use inputs::random::Random;
    use model::unit::make;
    use model::{Standing, UnitState};

    impl Both {
        /// Of a book that opens.
        pub fn opened(tracks: &[u8], routes: &[[u8; 2]]) -> Both {
            let state = crews::open(&book(tracks, routes)).unwrap().state;
            let made = |(t, [start, end]): (u8, &[u8; 2])| make(t, *start, *end).0;
            let units = (0..).zip(routes).map(made).collect();
            Both { state, units }
        }
    }

    /// Two trains go up together and one comes down, over three posts with three tracks each. Train 0 is Running, and
    /// its unit is under way.
    fn three() -> Both {
        let mut both = Both::opened(&[3; 3], &[[0, 2], [0, 2], [2, 0]]);
        both.state.train[0].standing = Standing::Running(1);
        both.units[0].state = UnitState::UnderWay;
        both
    }

    type Change = fn(&mut Both);

    fn found(change: Change) -> Option<String> {
        let mut both = three();
        change(&mut both);
        both.hold().err()
    }

    #[test]
    fn what_holds_is_found_to_hold() {
        assert_eq!(found(|_| ()), None);
        assert_eq!(found(|b| b.units[0].state = UnitState::Granted), None);
        assert_eq!(found(|b| b.units[0].state = UnitState::Arrived), None);
        assert_eq!(found(|b| b.units[0].state = UnitState::Declined), None);
        let reported = |b: &mut Both| (b.units[0].at, b.units[0].state) = (1, UnitState::Asked);
        assert_eq!(found(reported), None);
        let beside = |b: &mut Both| {
            b.state.train[2].standing = Standing::Running(3);
            b.units[2].state = UnitState::Granted;
            b.state.train[1].standing = Standing::Asked(0);
            b.state.journal = 1;
        };
        assert_eq!(found(beside), None);
    }

    #[test]
    fn what_does_not_hold_is_found() {
        let cases: [(&str, Change); 10] = [
            ("NotCovered(0)", |b| {
                b.state.train[0].standing = Standing::Free
            }),
            ("NotCovered(0)", |b| bring(&mut b.state.train[0], 1)),
            ("NotCovered(1)", |b| b.units[1].state = UnitState::Granted),
            ("SameSection(0, 1)", |b| {
                b.state.train[1].standing = Standing::Running(2);
                b.units[1].state = UnitState::Arrived;
            }),
            ("GangThere(0)", |b| b.state.possessions[0] = true),
            ("Overfull(0)", |b| b.state.tracks[0] = 1),
            ("Overfull(1)", |b| {
                b.state.tracks[1] = 1;
                b.units[1].at = 1;
            }),
            ("Elsewhere(1)", |b| b.units[1].at = 1),
            ("Elsewhere(2)", |b| bring(&mut b.state.train[2], 1)),
            ("Strange", |b| {
                b.state.train[1].standing = Standing::Running(2)
            }),
        ];
        for (fault, change) in cases {
            assert_eq!(found(change).as_deref(), Some(fault));
        }
    }

    #[test]
    fn bytes_that_encode_none_are_found() {
        let random = &mut Random::new(1);
        let Both { state, units } = three();
        let state = state_bytes(&state);
        let mut lent = units
            .iter()
            .map(|unit| Lent::new(&unit_bytes(unit), random));
        let mut units: Vec<Lent> = lent.by_ref().collect();
        assert_eq!(Both::of(&state, &units).unwrap().units.len(), 3);
        assert!(Both::of(&state[1..], &units).is_err());
        units[1].set(&[1, 0, 2, 0, 6]);
        assert!(Both::of(&state, &units).is_err());
    }

    #[test]
    fn numbers_that_never_come_are_found() {
        for number in 0..30 {
            let at_the_box = is_none_of(NEVER_AT_THE_BOX, number).is_err();
            assert_eq!(at_the_box, number == 1 || number == 12);
            assert_eq!(is_none_of(NEVER_AT_A_UNIT, number).is_err(), number == 1);
        }
    }
}
