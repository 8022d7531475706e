//! The lines that are measured, from the smallest to the largest.

use inputs::books::Parts;

pub struct Line {
    pub name: &'static str,
    tracks: &'static [u8],
    /// None in edition 1.
    sidings: Option<u8>,
    routes: &'static [[u8; 2]],
}

const fn line(name: &'static str, tracks: &'static [u8], routes: &'static [[u8; 2]]) -> Line {
    Line {
        name,
        tracks,
        sidings: None,
        routes,
    }
}

/// The line with a siding at each end of it.
const fn with_sidings(line: Line) -> Line {
    Line {
        sidings: Some(1 | 1 << (line.tracks.len() - 1)),
        ..line
    }
}

pub const LINES: [Line; 9] = [
    line("1-train-2-posts", &[1, 1], &[[0, 1]]),
    line("2-trains-3-posts-X", &[1, 2, 1], &[[0, 2], [2, 0]]),
    line("3-trains-3-posts-Y", &[2, 1, 2], &[[0, 2], [0, 2], [2, 0]]),
    line(
        "4-trains-5-posts",
        &[2, 2, 1, 2, 2],
        &[[0, 4], [4, 0], [0, 3], [4, 1]],
    ),
    line(
        "5-trains-6-posts",
        &[3, 2, 1, 2, 2, 3],
        &[[0, 5], [5, 0], [0, 4], [5, 1], [1, 5]],
    ),
    line(
        "6-trains-8-posts-few-tracks",
        &[3, 2, 2, 1, 1, 2, 2, 3],
        &[[0, 7], [7, 0], [0, 7], [7, 0], [1, 7], [6, 0]],
    ),
    line(
        "6-trains-8-posts-4-tracks",
        &[4; 8],
        &[[0, 7], [7, 0], [0, 7], [7, 0], [0, 7], [7, 0]],
    ),
    with_sidings(line(
        "4-trains-5-posts-sidings",
        &[1, 2, 2, 2, 1],
        &[[0, 4], [4, 0], [1, 4], [3, 0]],
    )),
    with_sidings(line(
        "6-trains-8-posts-sidings",
        &[1, 2, 2, 2, 2, 2, 2, 1],
        &[[0, 7], [7, 0], [1, 7], [6, 0], [2, 7], [5, 0]],
    )),
];

impl Line {
    pub fn book(&self) -> Vec<u8> {
        self.parts().bytes()
    }

    /// The book as one of edition 3, with the posts so many metres apart.
    pub fn book_with_positions(&self) -> Vec<u8> {
        let metres = |post| 1234 * post as u32;
        let positions: Vec<u32> = (0..self.tracks.len()).map(metres).collect();
        self.parts().with_positions(&positions).bytes()
    }

    pub fn last_post(&self) -> u8 {
        self.tracks.len() as u8 - 1
    }

    fn parts(&self) -> Parts {
        Parts::new(self.tracks, self.sidings, self.routes)
    }
}
