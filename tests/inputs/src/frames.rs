//! Frames of any content.

use crate::sizes::FRAME_BYTES;

pub use model::GANG;

pub const FA: u8 = 1;
pub const FE: u8 = 2;
pub const AFE: u8 = 3;
pub const AM: u8 = 4;
pub const LA: u8 = 5;
pub const LE: u8 = 6;
pub const LB: u8 = 7;

/// Where a frame has its kind, its train and its two posts.
pub const KIND_AT: usize = 3;
pub const TRAIN_AT: usize = 4;
pub const FROM_AT: usize = 5;
pub const TO_AT: usize = 6;

pub const fn frame(kind: u8, train: u8, from: u8, to: u8) -> [u8; FRAME_BYTES] {
    [0, 5, 1, kind, train, from, to]
}

/// An LA, LE or LB for the section from this post to the next.
pub const fn local_run(kind: u8, section: u8) -> [u8; FRAME_BYTES] {
    frame(kind, GANG, section, section.wrapping_add(1))
}
