//! The work that is measured. Each side has its own form of a state and a journal: the proved
//! code the bytes of the C interface, which it reads and writes within the call, the model its
//! structs. Tables, journals and out buffers are made once and not cleared between calls.

use crate::lines::Line;
use crate::samples::{samples, Class};
use boundary::{Ends, Proved};
use inputs::crews::{open, Turn};
use inputs::encoding::{state_bytes, METRES, MISSING, POST};
use inputs::sizes::{
    JOURNAL_BYTES, JOURNAL_RECORDS, LINE_BYTES, OUT_BYTES, PLACE_BYTES, STATE_BYTES, TABLE_BYTES,
    TIME_BYTES,
};
use model::{Record, Report};
use std::hint::black_box;

#[derive(Clone, Copy)]
pub enum Side {
    Proved,
    Model,
}

/// The opening of a book, nearly all of which is the filling of the table; answers to frames; the reading of a book
/// alone; a running time from the first post to the last, of this number; the place of a report.
pub enum Work {
    Fill { book: Vec<u8> },
    Answer { table: Vec<u8>, samples: Vec<Turn> },
    Read(Vec<u8>),
    Time(Vec<u8>, u8),
    Place(Vec<u8>, Report),
}

pub const WORKS: [&str; 15] = [
    "fill",
    "granted",
    "declined",
    "arrival",
    "given",
    "back",
    "again",
    "refused",
    "mix",
    "read",
    "time",
    "missing",
    "post",
    "at-post",
    "in-section",
];

/// The speed of the running times, in km/h.
const SPEED: u32 = 80;

impl Work {
    /// The work of this name on a line. With one train no frame is declined.
    pub fn of(line: &Line, name: &str) -> Option<Work> {
        let book = line.book();
        let with_positions = line.book_with_positions();
        let class = match name {
            "fill" => return Some(Work::Fill { book }),
            "read" => return Some(Work::Read(with_positions)),
            "time" => return Some(Work::Time(with_positions, line.last_post())),
            "missing" => return Some(Work::Place(with_positions, Report::Missing)),
            "post" => return Some(Work::Place(with_positions, Report::Post(line.last_post()))),
            "at-post" => return Some(Work::Place(with_positions, Report::Metres(0.0))),
            "in-section" => return Some(Work::Place(with_positions, Report::Metres(0.5))),
            "granted" => Some(Class::Granted),
            "declined" => Some(Class::Declined),
            "arrival" => Some(Class::Arrival),
            "given" => Some(Class::Given),
            "back" => Some(Class::Back),
            "again" => Some(Class::Again),
            "refused" => Some(Class::Refused),
            "mix" => None,
            _ => return None,
        };
        let opened = open(&book)?;
        let samples = samples(&opened, class);
        let table = opened.table;
        (!samples.is_empty()).then_some(Work::Answer { table, samples })
    }

    /// Does it so many times, the samples in turn.
    pub fn run(&self, side: Side, calls: usize) {
        match (self, side) {
            (Work::Fill { book }, Side::Proved) => fill_proved(book, calls),
            (Work::Fill { book }, Side::Model) => fill_model(book, calls),
            (Work::Answer { table, samples }, Side::Proved) => {
                answer_proved(table, samples, calls);
            }
            (Work::Answer { table, samples }, Side::Model) => answer_model(table, samples, calls),
            (Work::Read(book), Side::Proved) => read_proved(book, calls),
            (Work::Read(book), Side::Model) => read_model(book, calls),
            (Work::Time(book, last), Side::Proved) => time_proved(book, *last, calls),
            (Work::Time(book, last), Side::Model) => time_model(book, *last, calls),
            (Work::Place(book, report), Side::Proved) => place_proved(book, *report, calls),
            (Work::Place(book, report), Side::Model) => place_model(book, *report, calls),
        }
    }
}

fn fill_proved(book: &[u8], calls: usize) {
    let mut table = vec![0; TABLE_BYTES];
    let mut state = [0; STATE_BYTES];
    let journal = [0; JOURNAL_BYTES];
    for _ in 0..calls {
        let result = Proved.open(black_box(book), &mut state, &mut table, &journal);
        assert_eq!(black_box(result), 0);
    }
}

fn fill_model(book: &[u8], calls: usize) {
    let mut table = vec![0; TABLE_BYTES];
    let journal = vec![Record::BLANK; JOURNAL_RECORDS];
    for _ in 0..calls {
        let opened = model::open(black_box(book), &mut table, &journal);
        assert_eq!(black_box(opened).1, 0);
    }
}

fn answer_proved(table: &[u8], samples: &[Turn], calls: usize) {
    let inputs: Vec<_> = samples
        .iter()
        .map(|turn| (state_bytes(&turn.state), turn.frame))
        .collect();
    let mut journal = [0; JOURNAL_BYTES];
    let mut out = [0; OUT_BYTES];
    for (before, frame) in inputs.iter().cycle().take(calls) {
        let mut state = *before;
        let result = Proved.answer(&mut state, table, &mut journal, black_box(frame), &mut out);
        black_box((result, state));
    }
}

fn answer_model(table: &[u8], samples: &[Turn], calls: usize) {
    let mut journal = vec![Record::BLANK; JOURNAL_RECORDS];
    let mut out = [0; OUT_BYTES];
    for turn in samples.iter().cycle().take(calls) {
        let frame = black_box(&turn.frame);
        let answered = model::answer(&turn.state, table, &mut journal, frame, &mut out);
        black_box(answered);
    }
}

fn read_proved(book: &[u8], calls: usize) {
    let mut line = [0; LINE_BYTES];
    for _ in 0..calls {
        let result = Proved.read_book(black_box(book), &mut line);
        assert_eq!(black_box(result), 0);
    }
}

fn read_model(book: &[u8], calls: usize) {
    for _ in 0..calls {
        assert!(black_box(model::read_book(black_box(book))).is_ok());
    }
}

fn time_proved(book: &[u8], last: u8, calls: usize) {
    let mut time = [0; TIME_BYTES];
    for _ in 0..calls {
        let result = Proved.running_time(black_box(book), 0, last, black_box(SPEED), &mut time);
        assert_eq!(black_box(result), 0);
    }
}

fn time_model(book: &[u8], last: u8, calls: usize) {
    for _ in 0..calls {
        let told = model::running_time(black_box(book), 0, last, black_box(SPEED));
        assert!(black_box(told).is_ok());
    }
}

fn place_proved(book: &[u8], report: Report, calls: usize) {
    let (kind, post, metres) = match report {
        Report::Missing => (MISSING, 0, 0.0),
        Report::Post(post) => (POST, post, 0.0),
        Report::Metres(metres) => (METRES, 0, metres),
    };
    let mut place = [0; PLACE_BYTES];
    for _ in 0..calls {
        let result = Proved.locate(black_box(book), kind, post, black_box(metres), &mut place);
        assert_eq!(black_box(result), 0);
    }
}

fn place_model(book: &[u8], report: Report, calls: usize) {
    for _ in 0..calls {
        let told = model::place(black_box(book), black_box(report));
        assert!(black_box(told).is_ok());
    }
}
