//! What is asked about a book of edition 3, a running time or a place, and the bytes lent for the answer.

use crate::counts::Entry;
use crate::questions::Question;
use crate::reports::Report;
use boundary::Ends;
use inputs::sizes::{PLACE_BYTES, TIME_BYTES};

#[derive(Debug, Clone, Copy)]
pub enum About {
    Time(Question),
    Place(Report),
}

impl About {
    pub fn entry(self) -> Entry {
        match self {
            About::Time(_) => Entry::RunningTime,
            About::Place(_) => Entry::Locate,
        }
    }

    /// The length of the answer.
    pub fn bytes(self) -> usize {
        match self {
            About::Time(_) => TIME_BYTES,
            About::Place(_) => PLACE_BYTES,
        }
    }

    /// The numbers handed in, metres by their bits.
    pub fn numbers(self) -> [u32; 3] {
        match self {
            About::Time(Question { from, to, speed }) => [from.into(), to.into(), speed],
            About::Place(Report { kind, post, bits }) => [kind.into(), post.into(), bits],
        }
    }

    pub fn put(self, ends: &dyn Ends, book: &[u8], answer: &mut [u8]) -> u32 {
        match self {
            About::Time(Question { from, to, speed }) => {
                ends.running_time(book, from, to, speed, answer)
            }
            About::Place(report) => {
                ends.locate(book, report.kind, report.post, report.metres(), answer)
            }
        }
    }
}

/// It is asked with a book, and with the bytes lent.
#[derive(Clone, Copy)]
pub struct Asked<'a> {
    pub book: &'a [u8],
    pub about: About,
    pub answer: &'a [u8],
}
