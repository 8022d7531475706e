//! The program: a book and frames on its input, the journal on its output.

use std::io::Read;

use crate::dispatcher::{answer, open, Verdict, OUT_BYTES};
use crate::frame::FRAME_BYTES;
use crate::journal::{written, Record, JOURNAL_RECORDS};
use crate::line::LONGEST_BOOK;
use crate::table::TABLE_BYTES;

/// An input that stays ended once it has ended; an error is an end.
struct Input<'a> {
    reader: &'a mut dyn Read,
    ended: bool,
}

impl Input<'_> {
    /// The next `wanted` bytes, or fewer if the input ends before them.
    fn take(&mut self, wanted: usize) -> Vec<u8> {
        let mut bytes = vec![0; wanted];
        let mut have = 0;
        while have < wanted && !self.ended {
            match self.reader.read(&mut bytes[have..]) {
                Ok(0) | Err(_) => self.ended = true,
                // A reader that claims more than it was lent is not believed.
                Ok(n) => have = have.saturating_add(n).min(wanted),
            }
        }
        bytes.truncate(have);
        bytes
    }
}

/// Reads a book and frames until the input ends and gives what is printed.
pub fn run(reader: &mut dyn Read) -> String {
    let mut input = Input {
        reader,
        ended: false,
    };

    let mut book = input.take(2);
    if let [high, low] = book[..] {
        let named = usize::from(high) * 256 + usize::from(low);
        book.extend(input.take(named.min(LONGEST_BOOK - 2)));
    }

    let mut table = vec![0; TABLE_BYTES];
    let mut journal = vec![Record::BLANK; JOURNAL_RECORDS];
    let (mut state, refusal) = open(&book, &mut table, &journal);
    if refusal != 0 {
        return format!("book {refusal}\n");
    }

    let mut refused = 0u64;
    loop {
        let frame = input.take(FRAME_BYTES);
        if frame.is_empty() {
            break;
        }
        let mut out = [0; OUT_BYTES];
        let (after, verdict) = answer(&state, &table, &mut journal, &frame, &mut out);
        state = after;
        if let Verdict::Refused(_) = verdict {
            refused = refused.saturating_add(1);
        }
    }

    let records = written(&journal, state.journal);
    format!("{}end {} {refused}\n", lines(records), state.journal)
}

/// A line for each record, with its number.
fn lines(records: &[Record]) -> String {
    let mut text = String::new();
    for (number, r) in records.iter().enumerate() {
        let (word, train) = (r.word(), r.train);
        text += &format!("{number} {word} {train} {} {} {}\n", r.from, r.to, r.track);
    }
    text
}
