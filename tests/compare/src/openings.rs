//! Books read and opened, with buffers of all lengths. An opening fills 32,768 bytes, so what
//! was opened is kept for many runs.

use crate::lent::Lent;
use crate::pair::{Compared, Pair};
use crate::{books, stores, tables};
use inputs::random::Random;
use inputs::sizes::{JOURNAL_RECORDS, LINE_BYTES, STATE_BYTES, TABLE_BYTES};
use model::Record;

/// An opened book: its edition, its first state, its table, and that table with bits flipped.
pub struct Opened {
    pub edition: u8,
    pub state: Vec<u8>,
    pub table: Lent,
    pub flipped: Lent,
}

pub fn read_books(pair: &mut Pair, random: &mut Random, count: usize) -> Compared<()> {
    for _ in 0..count {
        let (kind, bytes) = books::any(random);
        let book = Lent::new(&bytes, random);
        let mut line = Lent::random(stores::mostly(LINE_BYTES, random), random);
        pair.counts.input(kind);
        pair.read_book(&book, &mut line)?;
    }
    Ok(())
}

/// Opens books of any kind with buffers of any length.
pub fn open_odd(pair: &mut Pair, random: &mut Random, count: usize) -> Compared<()> {
    for _ in 0..count {
        let (kind, bytes) = books::any(random);
        let book = Lent::new(&bytes, random);
        let mut state = Lent::random(stores::mostly(STATE_BYTES, random), random);
        let mut table = if random.one_in(6) {
            tables::strange(random).1
        } else {
            table_to_fill(random)
        };
        let journal = if random.one_in(8) {
            stores::short_journal(random)
        } else {
            stores::journal(random)
        };
        let journal = Lent::random(journal, random);
        pair.counts.input(kind);
        pair.open(&book, &mut state, &mut table, &journal)?;
    }
    Ok(())
}

/// Opens well formed books until one is accepted.
pub fn open_one(pair: &mut Pair, random: &mut Random) -> Compared<Opened> {
    open_such(pair, random, books::well_formed)
}

/// Opens books that are made so until one is accepted.
pub fn open_such(
    pair: &mut Pair,
    random: &mut Random,
    make: fn(&mut Random) -> Vec<u8>,
) -> Compared<Opened> {
    let mut state = Lent::random(STATE_BYTES, random);
    let mut table = table_to_fill(random);
    let journal = Lent::random(stores::journal(random), random);
    let edition = loop {
        let book = Lent::new(&make(random), random);
        pair.counts.input("book: well formed");
        if pair.open(&book, &mut state, &mut table, &journal)?.refusal == 0 {
            break book.bytes()[2];
        }
    };
    Ok(Opened {
        edition,
        state: state.bytes().to_vec(),
        flipped: tables::flipped(&table.bytes()[..TABLE_BYTES], random),
        table: Lent::new(table.bytes(), random),
    })
}

/// The number that a book is opened with, by the model.
pub fn number(book: &[u8]) -> u8 {
    let mut table = vec![0; TABLE_BYTES];
    model::open(book, &mut table, &[Record::BLANK; JOURNAL_RECORDS]).1
}

fn table_to_fill(random: &mut Random) -> Lent {
    let mut bytes = random.bytes(TABLE_BYTES);
    tables::add_tail(&mut bytes, random);
    Lent::new(&bytes, random)
}
