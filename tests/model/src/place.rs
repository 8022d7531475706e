//! Place reports from the wheel counter (the refusals of a book of edition 3,
//! then 9 and 29). A number of metres is taken apart into its bits and weighed
//! as a whole number; no floating point is reckoned or compared.

use crate::line::read_book_with_positions;

/// "a place report is a post number, a number of metres, or missing"
#[derive(Debug, Clone, Copy)]
pub enum Report {
    Post(u8),
    Metres(f32),
    Missing,
}

/// Where the report says the cab is.
#[derive(Debug, Clone, Copy, PartialEq, Eq)]
pub enum Place {
    /// At this post, which is the nearest to itself.
    At(u8),
    /// In the section above the post of that number, with the nearest post.
    In { section: u8, nearest: u8 },
    /// "Missing gives nothing and is accepted."
    Nothing,
}

/// The place that a report gives on the line of the book. The book is only
/// read: no train is placed.
pub fn place(book: &[u8], report: Report) -> Result<Place, u8> {
    let (line, positions) = read_book_with_positions(book)?;
    match report {
        Report::Missing => Ok(Place::Nothing),
        Report::Post(post) if post < line.posts => Ok(Place::At(post)),
        Report::Post(_) => Err(9),
        Report::Metres(metres) => {
            let posts = positions.map(|metres| steps(metres, METRE_DOUBLED));
            let reported = exact(metres.to_bits()).ok_or(29)?;
            place_among(&posts[..usize::from(line.posts)], reported)
        }
    }
}

/// The post at this place, else the section around it with the nearest of all
/// posts: 29 past the last.
fn place_among(posts: &[Steps], reported: Steps) -> Result<Place, u8> {
    if let Some(post) = posts.iter().position(|post| *post == reported) {
        return Ok(Place::At(post as u8));
    }
    let around = |pair: &[Steps]| pair[0] < reported && reported < pair[1];
    let section = posts.windows(2).position(around).ok_or(29)?;
    Ok(Place::In {
        section: section as u8,
        nearest: nearest(posts, reported),
    })
}

/// "the nearest post, the lower at equal distance": the first of the least.
fn nearest(posts: &[Steps], reported: Steps) -> u8 {
    let way = |post: &u8| apart(posts[usize::from(*post)], reported);
    (0..posts.len() as u8).min_by_key(way).unwrap_or(0)
}

/// A whole number of steps of 2^-149 metres. Every finite number of 32 bits is
/// a whole number of them, below 2^277. The high places come first, so that
/// the arrays are in the order of their numbers.
type Steps = [u32; 9];

/// A metre is one step doubled so many times.
const METRE_DOUBLED: u32 = 149;

/// A number below 2^24, doubled 253 times at the most, bit by bit.
fn steps(number: u32, doubled: u32) -> Steps {
    let mut steps = [0; 9];
    for bit in (0..24).filter(|bit| number >> bit & 1 == 1) {
        let place = bit + doubled;
        steps[8 - place as usize / 32] |= 1 << (place % 32);
    }
    steps
}

/// The exact value of the 32 bits of a number: none where it is not finite or
/// below zero. "minus zero is zero."
fn exact(bits: u32) -> Option<Steps> {
    let (signed, exponent, fraction) = (bits >> 31 == 1, bits >> 23 & 255, bits & 0x7F_FFFF);
    let value = match exponent {
        0 => steps(fraction, 0),
        255 => return None,
        _ => steps(1 << 23 | fraction, exponent - 1),
    };
    (!signed || value == [0; 9]).then_some(value)
}

/// The larger less the smaller, written out place by place from the low end.
fn apart(one: Steps, other: Steps) -> Steps {
    let (high, low) = (one.max(other), one.min(other));
    let mut rest = [0; 9];
    let mut borrowed = 0;
    for place in (0..9).rev() {
        let lent = (1 << 32) + u64::from(high[place]) - u64::from(low[place]) - borrowed;
        rest[place] = lent as u32;
        borrowed = 1 - (lent >> 32);
    }
    rest
}
