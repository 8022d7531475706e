//! By which codes authorities were given, told by the model's state.

use crate::cases::CodeCase;
use inputs::encoding::state_of;
use inputs::frames::{FE, KIND_AT};
use inputs::sizes::FRAME_BYTES;
use model::{Standing, State, Train};

/// Six trains have travelled seven posts each.
const LARGEST: u64 = 262_143;

/// The code of the placing in which every Running train, and this one, has reached its next post.
pub fn ahead(state: &State, mover: Option<usize>) -> u64 {
    let digit = |(t, train): (usize, &Train)| {
        let ahead = mover == Some(t) || matches!(train.standing, Standing::Running(_));
        u64::from(train.start.abs_diff(train.at) + u8::from(ahead)) << (3 * t)
    };
    state.present().iter().enumerate().map(digit).sum()
}

/// Of an accepted frame: the state after it, and the frames sent. The last FE was given by the placing in which all trains
/// that are Running now have reached their next posts.
pub fn of_answer(state: &[u8], sent: &[u8]) -> Option<CodeCase> {
    if sent.chunks_exact(FRAME_BYTES).all(|f| f[KIND_AT] != FE) {
        return None;
    }
    Some(match ahead(&state_of(state)?, None) {
        0..=65_535 => CodeCase::In16Bits,
        LARGEST => CodeCase::Largest,
        _ => CodeCase::Past16Bits,
    })
}
