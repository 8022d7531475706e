//! Books, well formed and not.

/// Book X of the paper.
pub const X: [u8; 12] = [0, 10, 1, 3, 1, 2, 1, 2, 0, 2, 2, 0];

/// Book Y of the paper.
pub const Y: [u8; 14] = [0, 12, 1, 3, 2, 1, 2, 3, 0, 2, 0, 2, 2, 0];

/// A book's parts. The numbers of posts and trains are kept apart from what follows them, so
/// that they can be wrong.
#[derive(Clone)]
pub struct Parts {
    pub posts: u8,
    pub tracks: Vec<u8>,
    /// The byte of edition 2, and of edition 3, which has 0 where there is none.
    pub sidings: Option<u8>,
    /// Of edition 3 alone, in metres.
    pub positions: Option<Vec<u32>>,
    pub trains: u8,
    /// Start and end of each train.
    pub routes: Vec<[u8; 2]>,
}

impl Parts {
    pub fn new(tracks: &[u8], sidings: Option<u8>, routes: &[[u8; 2]]) -> Parts {
        Parts {
            posts: tracks.len() as u8,
            tracks: tracks.to_vec(),
            sidings,
            positions: None,
            trains: routes.len() as u8,
            routes: routes.to_vec(),
        }
    }

    pub fn with_positions(self, positions: &[u32]) -> Parts {
        Parts {
            positions: Some(positions.to_vec()),
            ..self
        }
    }

    /// The lowest edition that has what is given.
    fn edition(&self) -> u8 {
        match (self.sidings, &self.positions) {
            (None, None) => 1,
            (Some(_), None) => 2,
            (_, Some(_)) => 3,
        }
    }

    /// The book of these parts, with the length that they have.
    pub fn bytes(&self) -> Vec<u8> {
        let edition = self.edition();
        let mut bytes = vec![0, 0, edition, self.posts];
        bytes.extend(&self.tracks);
        if edition > 1 {
            bytes.push(self.sidings.unwrap_or(0));
        }
        let positions = self.positions.iter().flatten();
        bytes.extend(positions.flat_map(|metres| metres.to_be_bytes()));
        bytes.push(self.trains);
        bytes.extend(self.routes.iter().flatten());
        with_length(bytes)
    }
}

/// The book of edition 1 of these track counts and routes.
pub fn book(tracks: &[u8], routes: &[[u8; 2]]) -> Vec<u8> {
    Parts::new(tracks, None, routes).bytes()
}

/// The book of edition 2 of these track counts, sidings and routes.
pub fn book_2(tracks: &[u8], sidings: u8, routes: &[[u8; 2]]) -> Vec<u8> {
    Parts::new(tracks, Some(sidings), routes).bytes()
}

/// The book of edition 3 of these track counts, sidings, positions and routes.
pub fn book_3(tracks: &[u8], sidings: u8, positions: &[u32], routes: &[[u8; 2]]) -> Vec<u8> {
    let parts = Parts::new(tracks, Some(sidings), routes);
    parts.with_positions(positions).bytes()
}

/// The bytes with the length in their first two that they have.
pub fn with_length(mut bytes: Vec<u8>) -> Vec<u8> {
    let named = (bytes.len() - 2) as u16;
    bytes[..2].copy_from_slice(&named.to_be_bytes());
    bytes
}

#[cfg(test)]
mod tests {
    use super::*;
    use crate::sizes::{LONGEST_BOOK, METRES_MOST};

    #[test]
    fn the_papers_books_are_those_of_their_parts() {
        assert_eq!(X[..], book(&[1, 2, 1], &[[0, 2], [2, 0]]));
        assert_eq!(Y[..], book(&[2, 1, 2], &[[0, 2], [0, 2], [2, 0]]));
    }

    #[test]
    fn a_book_of_edition_2_has_a_byte_after_the_track_counts() {
        let with = [0, 11, 2, 3, 1, 2, 1, 5, 2, 0, 2, 2, 0];
        assert_eq!(with[..], book_2(&[1, 2, 1], 5, &[[0, 2], [2, 0]]));
    }

    #[test]
    fn a_book_of_edition_3_has_four_more_for_each_post_high_byte_first() {
        let head = [0, 23, 3, 3, 1, 2, 1, 5];
        let positions = [0, 0, 0, 0, 0, 1, 2, 3, 0, 127, 255, 255];
        let with = [&head[..], &positions, &[2, 0, 2, 2, 0]].concat();
        let routes = [[0, 2], [2, 0]];
        let metres = [0, 66_051, METRES_MOST];
        assert_eq!(with, book_3(&[1, 2, 1], 5, &metres, &routes));
        // Without sidings its byte is 0.
        let without = Parts::new(&[1, 2, 1], None, &routes).with_positions(&metres);
        assert_eq!(without.bytes(), book_3(&[1, 2, 1], 0, &metres, &routes));
        let longest = book_3(&[1; 8], 0, &[0, 1, 2, 3, 4, 5, 6, 7], &[[0, 7]; 6]);
        assert_eq!(longest.len(), LONGEST_BOOK);
    }
}
