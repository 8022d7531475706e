//! The running time between two posts, with what is left over (the refusals of
//! a book of edition 3, then 9 and 28).

use crate::line::read_book_with_positions;

/// Whole seconds and the rest for the way between two posts of the book, in
/// either order, at a speed in km/h. The book is only read: no train is placed.
pub fn running_time(book: &[u8], from: u8, to: u8, speed: u32) -> Result<(u32, u32), u8> {
    let (line, positions) = read_book_with_positions(book)?;
    if from >= line.posts || to >= line.posts {
        return Err(9);
    }
    if !(1..=160).contains(&speed) {
        return Err(28);
    }
    let metres = positions[usize::from(from)].abs_diff(positions[usize::from(to)]);
    Ok(seconds_and_rest(metres, speed))
}

/// The q and r with 18 x L = 5 x v x q + r and r below 5 x v. L is at most
/// 8,388,607 and v is 1 to 160, so that no product leaves 32 bits.
fn seconds_and_rest(metres: u32, speed: u32) -> (u32, u32) {
    let way = 18 * metres;
    let a_second = 5 * speed;
    let seconds = way / a_second;
    (seconds, way - a_second * seconds)
}
