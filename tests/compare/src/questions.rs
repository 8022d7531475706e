//! Questions about running times: books of all kinds, posts on the line and off it, any speeds, and buffers of all
//! lengths for the answer.

use crate::asked::About;
use crate::lent::Lent;
use crate::pair::{Compared, Pair};
use crate::{books, stores};
use inputs::random::Random;
use inputs::sizes::{SPEED_MOST, TIME_BYTES};

/// What is asked about a book: from which post to which, and at what speed in km/h.
#[derive(Debug, Clone, Copy)]
pub struct Question {
    pub from: u8,
    pub to: u8,
    pub speed: u32,
}

/// Asks one question.
pub fn ask(pair: &mut Pair, random: &mut Random) -> Compared<()> {
    let bytes = book(pair, random);
    let question = about(&bytes, random);
    let book = Lent::new(&bytes, random);
    let mut time = Lent::random(stores::mostly(TIME_BYTES, random), random);
    pair.ask(&book, About::Time(question), &mut time)?;
    Ok(())
}

/// A book to be asked about. Half of them are well formed ones of edition 3.
pub fn book(pair: &mut Pair, random: &mut Random) -> Vec<u8> {
    let (kind, bytes) = if random.one_in(2) {
        ("book: well formed", books::with_positions(random))
    } else {
        books::any(random)
    };
    pair.counts.input(kind);
    bytes
}

/// A question about a book, which may be any bytes.
pub fn about(book: &[u8], random: &mut Random) -> Question {
    let posts = book.get(3).copied().unwrap_or(0);
    Question {
        from: post(posts, random),
        to: post(posts, random),
        speed: speed(random),
    }
}

/// A post of the line, or now and then one off it, most often right behind the last.
pub fn post(posts: u8, random: &mut Random) -> u8 {
    if random.one_in(8) {
        let far = random.byte();
        random.pick(&[posts, posts, 255, far])
    } else {
        random.between(0, posts.clamp(2, 8) - 1)
    }
}

/// A speed in its range, often at an end of it, or one right beside it, far off, or right in its low byte alone.
fn speed(random: &mut Random) -> u32 {
    let right = 1 + random.below(SPEED_MOST as usize) as u32;
    let any = random.below(1 << 32) as u32;
    let cut = any << 8 | right;
    match random.below(16) {
        0 => 0,
        1 => SPEED_MOST + 1,
        2 => 256 + SPEED_MOST,
        3 => random.pick(&[u32::MAX, any, cut]),
        4 | 5 => 1,
        6 | 7 => SPEED_MOST,
        _ => right,
    }
}
