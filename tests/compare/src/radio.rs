//! The radio between units and box: how often a frame comes through.

use crate::pair::Pair;
use inputs::random::Random;

#[derive(Clone, Copy, PartialEq, Eq)]
pub enum Radio {
    Good,
    /// "Frames get lost in cuttings", and some come twice.
    Bad,
}

/// The inputs that a frame to the box or an answer of it is counted among where it is lost, and where it comes twice.
pub type Names = [&'static str; 2];

pub const TO_THE_BOX: Names = [
    "radio: a frame to the box lost",
    "radio: a frame to the box twice",
];
pub const TO_THE_UNITS: Names = ["radio: an answer lost", "radio: an answer twice"];

impl Radio {
    /// How often a frame comes through.
    pub fn times(self, names: Names, pair: &mut Pair, random: &mut Random) -> usize {
        if self == Radio::Good {
            return 1;
        }
        let times = random.pick(&[0, 0, 1, 1, 1, 1, 1, 2]);
        let [lost, twice] = names;
        match times {
            0 => pair.counts.input(lost),
            1 => {}
            _ => pair.counts.input(twice),
        }
        times
    }
}
