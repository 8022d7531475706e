//! Tables: as filled, altered, short, longer. The answer is set by the bits handed in.

use crate::lent::Lent;
use inputs::random::Random;
use inputs::sizes::TABLE_BYTES;

/// A table that no book gave.
pub fn strange(random: &mut Random) -> (&'static str, Lent) {
    let (kind, mut bytes) = match random.below(6) {
        0 => ("table: all ones", ones()),
        1 => ("table: all zero", vec![0; TABLE_BYTES]),
        2 => ("table: random bits", random.bytes(TABLE_BYTES)),
        3 => ("table: few bits", thinned(random)),
        4 => (
            "table: most bits",
            thinned(random).iter().map(|b| !b).collect(),
        ),
        _ => return ("table: short", short(random)),
    };
    add_tail(&mut bytes, random);
    (kind, Lent::new(&bytes, random))
}

pub fn ones() -> Vec<u8> {
    vec![255; TABLE_BYTES]
}

/// The table with some of its bits flipped, from one in two to one in 256.
pub fn flipped(table: &[u8], random: &mut Random) -> Lent {
    let mut flips = vec![255; TABLE_BYTES];
    for _ in 0..1 + random.below(8) {
        and_random(&mut flips, random);
    }
    let mut bytes: Vec<u8> = table.iter().zip(flips).map(|(a, b)| a ^ b).collect();
    add_tail(&mut bytes, random);
    Lent::new(&bytes, random)
}

/// Bytes past the 32,768, for half of the tables.
pub fn add_tail(bytes: &mut Vec<u8>, random: &mut Random) {
    if random.one_in(2) {
        let tail = random.below(40);
        bytes.extend(random.bytes(tail));
    }
}

fn short(random: &mut Random) -> Lent {
    let any = random.below(TABLE_BYTES);
    let len = random.pick(&[TABLE_BYTES - 1, 0, any]);
    Lent::new(&vec![255; len], random)
}

/// One bit in four to one in 64.
fn thinned(random: &mut Random) -> Vec<u8> {
    let mut bytes = vec![255; TABLE_BYTES];
    for _ in 0..2 + random.below(5) {
        and_random(&mut bytes, random);
    }
    bytes
}

fn and_random(bytes: &mut [u8], random: &mut Random) {
    for byte in bytes {
        *byte &= random.byte();
    }
}
