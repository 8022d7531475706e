//! Driver units: every one near the ranges, and random ones with random histories.

use crate::lent::Lent;
use crate::pair::{Compared, Pair};
use crate::{frames, stores};
use inputs::encoding::NO_BUTTON;
use inputs::frames::{frame, AFE, AM, FE, GANG, LB};
use inputs::random::Random;
use inputs::sizes::{FRAME_BYTES, UNIT_BYTES};

/// Units made of every number: all three near the ranges, and each from 0 to 255 alone.
pub fn make_all(pair: &mut Pair, random: &mut Random) -> Compared<()> {
    let near = [0, 1, 2, 3, 4, 5, 6, 7, 8, 9, 127, 128, 254, 255];
    for train in near {
        for start in near {
            for end in near {
                make_one(pair, [train, start, end], random)?;
            }
        }
    }
    for number in 0..=255 {
        make_one(pair, [number, 0, 7], random)?;
        make_one(pair, [5, number, 0], random)?;
        make_one(pair, [0, 7, number], random)?;
    }
    Ok(())
}

fn make_one(pair: &mut Pair, numbers: [u8; 3], random: &mut Random) -> Compared<()> {
    pair.counts.input("unit: made of numbers near the ranges");
    let mut unit = Lent::random(stores::mostly(UNIT_BYTES, random), random);
    pair.make_unit(numbers, &mut unit)?;
    Ok(())
}

/// Every unit whose numbers are in the ranges or one above: each button, and each kind of frame
/// for its own move and for the move back. Kinds of gangs come with their train byte as well.
pub fn press_and_hear_all(pair: &mut Pair, random: &mut Random) -> Compared<()> {
    let mut unit = Lent::new(&[], random);
    let mut given = Lent::random(FRAME_BYTES, random);
    let mut heard = Lent::new(&[], random);
    for number in 0..NEAR.iter().product() {
        let bytes = digits(number);
        pair.counts.input("unit: each one near the ranges");
        for button in 0..=NO_BUTTON {
            unit.set(&bytes);
            pair.press(&mut unit, button, &mut given)?;
        }
        let [train, _, end, at, _] = bytes;
        let ahead = ahead(at, end);
        for (kind, train) in kinds_heard(train) {
            for [from, to] in [[at, ahead], [ahead, at]] {
                unit.set(&bytes);
                heard.set(&frame(kind, train, from, to));
                pair.hear(&mut unit, &heard)?;
            }
        }
    }
    Ok(())
}

/// The kinds up to the first unknown one with the unit's own train, and from that after AM on with a gang's byte.
fn kinds_heard(train: u8) -> impl Iterator<Item = (u8, u8)> {
    let own = (0..=LB + 1).map(move |kind| (kind, train));
    own.chain((AM + 1..=LB + 1).map(|kind| (kind, GANG)))
}

/// The post after this one on the way to the end. At the end, some other post.
fn ahead(at: u8, end: u8) -> u8 {
    if at < end {
        at + 1
    } else {
        at.wrapping_sub(1)
    }
}

/// Train 0 to 6, start, end and present post 0 to 8, phase 0 to 6.
const NEAR: [usize; UNIT_BYTES] = [7, 9, 9, 9, 7];

fn digits(mut number: usize) -> [u8; UNIT_BYTES] {
    NEAR.map(|base| {
        let digit = number % base;
        number /= base;
        digit as u8
    })
}

/// Histories of presses and frames, each from a random unit.
pub fn histories(pair: &mut Pair, random: &mut Random, count: usize) -> Compared<()> {
    for _ in 0..count {
        let (kind, bytes) = any(random);
        pair.counts.input(kind);
        let mut unit = Lent::new(&bytes, random);
        for _ in 0..1 + random.below(20) {
            if random.one_in(2) {
                press(pair, &mut unit, random)?;
            } else {
                hear(pair, &mut unit, random)?;
            }
        }
    }
    Ok(())
}

fn any(random: &mut Random) -> (&'static str, Vec<u8>) {
    let mut bytes = valid(random);
    match random.below(8) {
        0 => {
            let at = random.below(UNIT_BYTES);
            bytes[at] = random.altered(bytes[at]);
            ("unit: one field altered", bytes)
        }
        1 => {
            bytes.resize(stores::mostly(UNIT_BYTES, random), 0);
            ("unit: perhaps of a wrong length", bytes)
        }
        2 => ("unit: random bytes", random.bytes(UNIT_BYTES)),
        _ => ("unit: valid", bytes),
    }
}

fn valid(random: &mut Random) -> Vec<u8> {
    let (start, end) = (random.between(0, 7), random.between(0, 7));
    let at = random.between(start.min(end), start.max(end));
    let phase = if at == end { 0 } else { random.between(0, 5) };
    vec![random.between(0, 5), start, end, at, phase]
}

fn press(pair: &mut Pair, unit: &mut Lent, random: &mut Random) -> Compared<()> {
    let button = match random.below(8) {
        0 => random.byte(),
        _ => random.between(0, NO_BUTTON),
    };
    let room = match random.below(8) {
        0 => random.below(FRAME_BYTES),
        1 => FRAME_BYTES,
        _ => FRAME_BYTES + random.below(20),
    };
    let mut given = Lent::random(room, random);
    pair.counts.input("unit: press");
    pair.press(unit, button, &mut given)?;
    Ok(())
}

/// Mostly an answer for the unit's own move, sometimes damaged, so that histories go on.
fn hear(pair: &mut Pair, unit: &mut Lent, random: &mut Random) -> Compared<()> {
    let own = own_frame(unit.bytes(), random);
    let (kind, bytes) = if random.one_in(3) {
        frames::damaged(own, random)
    } else {
        ("frame: answer for a unit's own move", own.to_vec())
    };
    let heard = Lent::new(&bytes, random);
    pair.counts.input(kind);
    pair.hear(unit, &heard)?;
    Ok(())
}

fn own_frame(unit: &[u8], random: &mut Random) -> [u8; FRAME_BYTES] {
    let [train, _, end, at, _] = *unit else {
        return frame(FE, 0, 0, 1);
    };
    frame(random.pick(&[FE, AFE]), train, at, ahead(at, end))
}
