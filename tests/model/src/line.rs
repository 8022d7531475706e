//! The line and its book: posts with tracks and sidings, trains with start and
//! end, and the readers of the book's bytes (refusals 14, 4, 15, 16, 23, 27, 17,
//! 18). Positions of posts stand in books of edition 3 and are no part of a line.

use std::ops::RangeInclusive;

/// Bytes of the longest book, of edition 3, 8 posts and 6 trains.
pub const LONGEST_BOOK: usize = 6 + 5 * 8 + 2 * 6;

/// A line. Places for posts from `posts` on and trains from `trains` on are 0
/// when the line was read from a book, and are never read.
#[derive(Debug, Clone, Copy, PartialEq, Eq)]
pub struct Line {
    pub posts: u8,
    pub tracks: [u8; 8],
    /// The bit of value 2^i says that post i has a siding.
    pub sidings: u8,
    pub trains: u8,
    pub starts: [u8; 6],
    pub ends: [u8; 6],
}

impl Line {
    /// All numbers that are read lie in the ranges of the paper.
    pub fn in_range(&self) -> bool {
        if !(2..=8).contains(&self.posts) || !(1..=6).contains(&self.trains) {
            return false;
        }
        let posts = usize::from(self.posts);
        let trains = usize::from(self.trains);
        self.tracks[..posts].iter().all(|n| (1..=4).contains(n))
            && on_the_line(self.sidings, self.posts)
            && self.starts[..trains].iter().all(|p| *p < self.posts)
            && self.ends[..trains].iter().all(|p| *p < self.posts)
    }
}

/// A byte of sidings names only posts below `posts`, which is at most 8.
pub(crate) fn on_the_line(sidings: u8, posts: u8) -> bool {
    u16::from(sidings) >> posts == 0
}

/// A byte of sidings names the post, whatever number is handed in.
pub(crate) fn has_siding(sidings: u8, post: u8) -> bool {
    post < 8 && sidings & (1 << post) != 0
}

/// Reads a book alone, of edition 1, 2 or 3, without table or placing.
pub fn read_book(book: &[u8]) -> Result<Line, u8> {
    read_editions(1..=3, book).map(|(line, _)| line)
}

/// Reads a book of edition 3 alone, any other edition being refused by 4: the
/// line, and the position of each post in metres, 0 for posts from P on.
pub fn read_book_with_positions(book: &[u8]) -> Result<(Line, [u32; 8]), u8> {
    read_editions(3..=3, book)
}

/// Reads a book of one of these editions; editions 1 and 2 have all positions 0.
fn read_editions(editions: RangeInclusive<u8>, book: &[u8]) -> Result<(Line, [u32; 8]), u8> {
    let edition = read_head(editions, book)?;
    let (tracks, rest) = read_tracks(edition, &book[3..])?;
    let (sidings, rest) = read_sidings(edition, tracks.len() as u8, rest)?;
    let (positions, rest) = read_positions(edition, tracks.len(), rest)?;
    let routes = read_routes(rest)?;
    let mut line = Line {
        posts: tracks.len() as u8,
        tracks: [0; 8],
        sidings,
        trains: routes.len() as u8 / 2,
        starts: [0; 6],
        ends: [0; 6],
    };
    line.tracks[..tracks.len()].copy_from_slice(tracks);
    for (train, pair) in routes.chunks_exact(2).enumerate() {
        line.starts[train] = pair[0];
        line.ends[train] = pair[1];
    }
    // All else is checked: only a start or end can be off.
    if line.in_range() {
        Ok((line, positions))
    } else {
        Err(18)
    }
}

/// The edition. 14: under 4 bytes, or a length that is not that of the bytes
/// after it; then 4 where it is none of those asked for.
fn read_head(editions: RangeInclusive<u8>, book: &[u8]) -> Result<u8, u8> {
    if book.len() < 4 {
        return Err(14);
    }
    let named = usize::from(book[0]) * 256 + usize::from(book[1]);
    if named != book.len() - 2 {
        return Err(14);
    }
    if !editions.contains(&book[2]) {
        return Err(4);
    }
    Ok(book[2])
}

/// Bytes between the track counts and the number of trains: from edition 2 on
/// the byte of sidings, in edition 3 four for each post's position besides.
fn bytes_between(edition: u8, posts: usize) -> usize {
    match edition {
        1 => 0,
        2 => 1,
        _ => 1 + 4 * posts,
    }
}

/// The track counts, from the number of posts on, and the bytes after them:
/// 15, then 14 where the bytes end before the number of trains, then 16.
fn read_tracks(edition: u8, bytes: &[u8]) -> Result<(&[u8], &[u8]), u8> {
    if !(2..=8).contains(&bytes[0]) {
        return Err(15);
    }
    let posts = usize::from(bytes[0]);
    if bytes.len() < 1 + posts + bytes_between(edition, posts) + 1 {
        return Err(14);
    }
    let (tracks, rest) = bytes[1..].split_at(posts);
    if tracks.iter().any(|n| !(1..=4).contains(n)) {
        return Err(16);
    }
    Ok((tracks, rest))
}

/// The byte of sidings and the bytes after it: 23 where it names a post not in
/// the line. Edition 1 has no such byte, and no sidings.
fn read_sidings(edition: u8, posts: u8, bytes: &[u8]) -> Result<(u8, &[u8]), u8> {
    if edition == 1 {
        return Ok((0, bytes));
    }
    if !on_the_line(bytes[0], posts) {
        return Err(23);
    }
    Ok((bytes[0], &bytes[1..]))
}

/// The positions of the posts and the bytes after them: 27 where they are not
/// from 0, not strictly rising or above 8,388,607. Only edition 3 has them.
fn read_positions(edition: u8, posts: usize, bytes: &[u8]) -> Result<([u32; 8], &[u8]), u8> {
    let mut positions = [0; 8];
    if edition != 3 {
        return Ok((positions, bytes));
    }
    let (named, rest) = bytes.split_at(4 * posts);
    for (position, four) in positions.iter_mut().zip(named.chunks_exact(4)) {
        *position = u32::from_be_bytes([four[0], four[1], four[2], four[3]]);
    }
    let of_line = &positions[..posts];
    let from_0 = of_line[0] == 0;
    let rising = of_line.windows(2).all(|pair| pair[0] < pair[1]);
    if !from_0 || !rising || of_line.iter().any(|metres| *metres > 8_388_607) {
        return Err(27);
    }
    Ok((positions, rest))
}

/// Starts and ends, from the number of trains on: 17, then 14 where the book
/// has not this length.
fn read_routes(bytes: &[u8]) -> Result<&[u8], u8> {
    if !(1..=6).contains(&bytes[0]) {
        return Err(17);
    }
    if bytes.len() != 1 + 2 * usize::from(bytes[0]) {
        return Err(14);
    }
    Ok(&bytes[1..])
}
