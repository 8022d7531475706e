//! The lengths of lent stores: enough, more than enough, and too short.

use inputs::random::Random;
use inputs::sizes::{JOURNAL_BYTES, OUT_BYTES, RECORD_BYTES};

/// Bytes of a journal that is long enough, also with a part of a record behind the last.
pub fn journal(random: &mut Random) -> usize {
    let more = random.below(200);
    JOURNAL_BYTES + random.pick(&[0, 0, 1, 2, 3, 4, more])
}

/// Bytes of a journal that is short by a part of a record or by many records.
pub fn short_journal(random: &mut Random) -> usize {
    let any = random.below(JOURNAL_BYTES);
    random.pick(&[JOURNAL_BYTES - 1, JOURNAL_BYTES - RECORD_BYTES, 0, any])
}

pub fn out(random: &mut Random) -> usize {
    let more = random.below(60);
    OUT_BYTES + random.pick(&[0, 1, more])
}

pub fn short_out(random: &mut Random) -> usize {
    let any = random.below(OUT_BYTES);
    random.pick(&[OUT_BYTES - 1, 0, any])
}

/// The length, or now and then another one near it.
pub fn mostly(right: usize, random: &mut Random) -> usize {
    if random.one_in(8) {
        let any = random.below(2 * right);
        random.pick(&[right - 1, right + 1, 0, any])
    } else {
        right
    }
}
