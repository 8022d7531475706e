//! Place reports: about books of all kinds, of each kind and of none, posts on the line and off it, numbers of metres
//! near every post and every middle between two, near zero, past the line and of any bits, and buffers of all lengths
//! for the answer.

use crate::asked::About;
use crate::checks::positions;
use crate::lent::Lent;
use crate::pair::{Compared, Pair};
use crate::{books, places, questions, stores};
use inputs::encoding::{METRES, MISSING, POST};
use inputs::random::Random;
use inputs::sizes::PLACE_BYTES;

/// What a report hands in: its kind, which names one of the others or none, a post, and the 32 bits of a number of
/// metres.
#[derive(Debug, Clone, Copy)]
pub struct Report {
    pub kind: u8,
    pub post: u8,
    pub bits: u32,
}

impl Report {
    pub fn metres(self) -> f32 {
        f32::from_bits(self.bits)
    }
}

/// The sign's bit, which alone is minus zero.
pub const MINUS: u32 = 1 << 31;

/// The sign and the fraction of a number: without an exponent it is zero or below the normal ones.
const BELOW_NORMAL: u32 = 0x807F_FFFF;

/// Where numbers end or change their sort: zero, the smallest normal number, infinity and the middle of the NaNs, of
/// either sign.
const EDGES: [u32; 8] = [
    0,
    MINUS,
    0x0080_0000,
    0x8080_0000,
    0x7F80_0000,
    0xFF80_0000,
    0x7FC0_0000,
    0xFFC0_0000,
];

/// Sends so many reports about one book.
pub fn send(pair: &mut Pair, random: &mut Random, many: usize) -> Compared<()> {
    let book = Lent::new(&questions::book(pair, random), random);
    let survey = Survey::of(book.bytes());
    let mut is_told = false;
    for _ in 0..many {
        let about = About::Place(survey.report(random));
        let mut place = Lent::random(stores::mostly(PLACE_BYTES, random), random);
        is_told |= pair.ask(&book, about, &mut place)?.refusal == 0;
    }
    if is_told {
        pair.counts.cases(places::of_opening(book.bytes()));
    }
    Ok(())
}

/// How many steps of the last bit a number may be away from a post or a middle to be near it.
const NEAR: i32 = 16;

/// Reports every number near each post and each middle of a line.
pub fn sweep(pair: &mut Pair, random: &mut Random) -> Compared<()> {
    let book = Lent::new(&books::with_positions(random), random);
    let mut place = Lent::random(PLACE_BYTES, random);
    for bits in Survey::of(book.bytes()).near_marks() {
        let report = Report {
            kind: METRES,
            post: 0,
            bits,
        };
        pair.ask(&book, About::Place(report), &mut place)?;
    }
    Ok(())
}

/// What reports about a book go by; the book may be any bytes.
pub struct Survey {
    posts: u8,
    last: u32,
    /// The bits of the numbers at each post and in each middle between two neighbours, and once more at the last: there
    /// is one for any bytes.
    marks: Vec<u32>,
}

impl Survey {
    pub fn of(book: &[u8]) -> Survey {
        let positions = positions(book);
        let last = positions.last().copied().unwrap_or(0);
        let at = positions.iter().map(|metres| middle(*metres, *metres));
        let between = positions.windows(2).map(|two| middle(two[0], two[1]));
        Survey {
            posts: book.get(3).copied().unwrap_or(0),
            last,
            marks: at.chain(between).chain([middle(last, last)]).collect(),
        }
    }

    fn near_marks(&self) -> impl Iterator<Item = u32> + '_ {
        let near = |mark: &u32| {
            let mark = *mark;
            (-NEAR..=NEAR).map(move |steps| mark.wrapping_add_signed(steps))
        };
        self.marks.iter().flat_map(near)
    }

    pub fn report(&self, random: &mut Random) -> Report {
        Report {
            kind: kind(random),
            post: questions::post(self.posts, random),
            bits: self.bits(random),
        }
    }

    fn bits(&self, random: &mut Random) -> u32 {
        let any = random.below(1 << 32) as u32;
        let mark = random.pick(&self.marks);
        match random.below(16) {
            0..=7 => some_steps(mark, random),
            8 | 9 => some_steps(random.pick(&EDGES), random),
            10 => random.pick(&[any, any & BELOW_NORMAL]),
            11 => MINUS | mark,
            _ => part_of(self.last, any),
        }
    }
}

/// The bits of the number in the middle of two positions. In their range none is rounded.
pub fn middle(low: u32, high: u32) -> u32 {
    (((f64::from(low) + f64::from(high)) / 2.0) as f32).to_bits()
}

/// The bits of a number from zero to the last position, for one of 32 bits.
fn part_of(last: u32, any: u32) -> u32 {
    let metres = f64::from(last) * f64::from(any) / f64::from(u32::MAX);
    (metres as f32).to_bits()
}

/// The number itself, or one that is a few steps of the last bit away from it, most often one.
fn some_steps(bits: u32, random: &mut Random) -> u32 {
    let steps = random.pick(&[-4, -3, -2, -1, -1, 0, 0, 1, 1, 2, 3, 4]);
    bits.wrapping_add_signed(steps)
}

/// Most often metres; now and then a number that is no kind.
fn kind(random: &mut Random) -> u8 {
    let above = random.between(METRES + 1, 255);
    match random.below(16) {
        0 => random.pick(&[3, 4, 255, above]),
        1 => MISSING,
        2 | 3 => POST,
        _ => METRES,
    }
}

#[cfg(test)]
mod tests {
    use super::*;
    use inputs::books::book_3;
    use inputs::sizes::METRES_MOST;
    use std::collections::HashSet;

    #[test]
    fn every_number_near_a_post_a_middle_or_an_edge_comes() {
        let random = &mut Random::new(1);
        let survey = Survey::of(&book_3(&[1; 3], 0, &[0, 5, METRES_MOST], &[[0, 1]]));
        let met: HashSet<u32> = (0..50_000).map(|_| survey.report(random).bits).collect();
        let marks = [0.0, 2.5, 5.0, 4_194_306.0, 8_388_607.0].map(f32::to_bits);
        for steps in -4..=4 {
            let near = |mark: &u32| met.contains(&mark.wrapping_add_signed(steps));
            assert!(marks.iter().chain(&EDGES).all(near), "{steps}");
        }
    }

    #[test]
    fn a_sweep_has_every_number_near_a_mark() {
        let survey = Survey::of(&book_3(&[1; 2], 0, &[0, 1000], &[[0, 1]]));
        let swept: Vec<u32> = survey.near_marks().collect();
        let marks = [0.0, 1000.0, 500.0, 1000.0].map(f32::to_bits);
        assert_eq!(swept.len(), marks.len() * 33);
        for (near, mark) in swept.chunks(33).zip(marks) {
            assert_eq!(
                [near[0], near[16], near[32]].map(|bits| bits.wrapping_sub(mark) as i32),
                [-16, 0, 16]
            );
            assert!(near.windows(2).all(|two| two[1] == two[0].wrapping_add(1)));
        }
    }

    #[test]
    fn numbers_on_the_line_are_on_it() {
        let random = &mut Random::new(2);
        assert_eq!(
            [0, u32::MAX].map(|any| part_of(7, any)),
            [0, 7f32.to_bits()]
        );
        for _ in 0..10_000 {
            let any = random.below(1 << 32) as u32;
            let metres = f32::from_bits(part_of(METRES_MOST, any));
            assert!((0.0..=METRES_MOST as f32).contains(&metres));
        }
    }

    #[test]
    fn any_bytes_can_be_reported_about() {
        let random = &mut Random::new(3);
        for bytes in [&[][..], &[0, 2, 3, 9], &[255; 60]] {
            let posts = bytes.get(3).copied().unwrap_or(0);
            let survey = Survey::of(bytes);
            let met: HashSet<u8> = (0..10_000).map(|_| survey.report(random).kind).collect();
            assert!([MISSING, POST, METRES, 3, 4, 255]
                .iter()
                .all(|kind| met.contains(kind)));
            assert_eq!(survey.posts, posts);
        }
    }
}
