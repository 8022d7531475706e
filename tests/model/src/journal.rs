//! The journal: a lent run of records, of which the first `count` are
//! written. Records are only ever added at the count.

use crate::frame::Message;

/// Records a journal must have; more may be lent and stay untouched.
pub const JOURNAL_RECORDS: usize = 236;

/// Records that a frame adds at the most: its own and six answers.
pub const RECORDS_A_FRAME: usize = 7;

/// The highest count of a sound state: it leaves room for all that one frame
/// adds. After an opened book the count is 228 at the most: 42 moves of four
/// records, and 20 local runs of three.
pub const MOST_COUNTED: usize = JOURNAL_RECORDS - RECORDS_A_FRAME;

/// One record. A lent journal can hold any bytes past its count.
#[derive(Debug, Clone, Copy, PartialEq, Eq)]
pub struct Record {
    pub kind: u8,
    pub train: u8,
    pub from: u8,
    pub to: u8,
    /// Of an FE the track at the post run to, from 1; else 0.
    pub track: u8,
}

impl Record {
    /// All 0.
    pub const BLANK: Record = Record {
        kind: 0,
        train: 0,
        from: 0,
        to: 0,
        track: 0,
    };

    /// The record of a message, with the track that it has there.
    pub fn of(message: Message, track: u8) -> Record {
        let m = message.movement();
        Record {
            kind: message.kind(),
            train: m.train,
            from: m.from,
            to: m.to,
            track,
        }
    }

    /// The trade's word for the kind, as the program prints it.
    pub fn word(&self) -> &'static str {
        match self.kind {
            1 => "FA",
            2 => "FE",
            3 => "AFE",
            4 => "AM",
            5 => "LA",
            6 => "LE",
            7 => "LB",
            _ => "?",
        }
    }
}

/// Writes a record at the count and gives the new count. With no place left,
/// by the card's 236 or by the slice, nothing changes.
pub fn log(journal: &mut [Record], count: u8, record: Record) -> u8 {
    let at = usize::from(count);
    if at < JOURNAL_RECORDS && at < journal.len() {
        journal[at] = record;
        count + 1
    } else {
        count
    }
}

/// The records below the count, or as many as there are.
pub fn written(journal: &[Record], count: u8) -> &[Record] {
    &journal[..usize::from(count).min(journal.len())]
}
