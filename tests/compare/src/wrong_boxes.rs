//! Boxes and units that are wrong, each the model with one fault. The comparison finds every one.

use crate::asked::{About, Asked};
use crate::checks::{first, would_refuse, Check};
use crate::counts::Entry;
use crate::journal_counts::Put;
use crate::model_ends::{located, tell, Located, Model};
use crate::pair::Pair;
use crate::questions::Question;
use crate::reports::Report;
use crate::{all, Options};
use boundary::Ends;
use inputs::encoding::{
    place_bytes, put_records, records_of, state_bytes, state_of, time_bytes, unit_bytes, unit_of,
};
use inputs::frames::KIND_AT;
use inputs::sizes::{FRAME_BYTES, JOURNAL_BYTES, PLACE_BYTES, RECORD_BYTES, TIME_BYTES};
use model::table::bit;
use model::{write_frame, Message, Record, State, Unit};

/// An accepted frame: the state before and after it, the records of it and its answers, and the table.
pub struct Answered<'a> {
    pub before: &'a State,
    pub after: &'a mut State,
    pub records: &'a mut [Record],
    pub table: &'a [u8],
}

impl Answered<'_> {
    /// The kind of the frame by its record; 0 for a repeat, which has none.
    pub fn kind(&self) -> u8 {
        self.records.first().map_or(0, |own| own.kind)
    }
}

/// A frame put to a sound state with long enough stores, and what the model makes of it: the state before and after it,
/// all records, the messages sent, and the number, 0 where it is accepted.
pub struct Replied<'a> {
    pub message: Message,
    pub before: &'a State,
    pub after: State,
    pub records: Vec<Record>,
    pub sent: Vec<Message>,
    pub number: u8,
    pub table: &'a [u8],
}

/// A press on a sound unit: the unit before and after it, the button, the bytes lent, and what the model makes of it:
/// the message sent, or none, or the number.
pub struct Pressed<'a> {
    pub before: &'a Unit,
    pub after: Unit,
    pub button: u8,
    pub room: usize,
    pub given: Result<Option<Message>, u8>,
}

/// A frame that a sound unit hears and that is read, and what the model makes of it: the unit before and after it, and
/// the number, 0 where it is accepted.
pub struct Hearing<'a> {
    pub message: Message,
    pub before: &'a Unit,
    pub after: Unit,
    pub number: u8,
}

/// Seconds and rest, or the number of the refusal.
pub type Time = Result<(u32, u32), u8>;

/// Where a wrong box or unit goes another way than the model.
#[derive(Clone, Copy)]
pub enum Fault {
    /// With the state that an accepted book is opened with.
    Opened(fn(&mut State)),
    /// With what comes of an accepted frame.
    Answered(fn(Answered)),
    /// It takes a state for another before it looks at the frame.
    TakenFor(fn(State) -> State),
    /// It takes the bytes of the state and of the frame for others.
    Reads(fn(&mut [u8], &mut [u8])),
    /// With the code that it looks up in the table.
    LooksUp(fn(u64) -> u64),
    /// With the number that answers a frame in a sound state, 0 where it is accepted. One that the model refuses stays
    /// refused.
    Numbers(fn(&State, &[u8], u8) -> u8),
    /// With the number that refuses a frame, by all that is lent. One that the model accepts stays accepted.
    Refuses(fn(&Put, u8) -> u8),
    /// It takes a journal that is too short for one that is long enough.
    Stretches(fn(&Put) -> bool),
    /// It answers a frame in a sound state as if that were another, and mends what comes of it.
    AsIf(fn(State, &[u8]) -> State, fn(Answered)),
    /// With all that comes of a frame that is read.
    Replies(fn(&mut Replied)),
    /// With all that comes of a press.
    Presses(fn(&mut Pressed)),
    /// With a unit that accepted a frame of this kind: how it is then, and the number.
    Heard(fn(&mut Unit, u8) -> u8),
    /// With all that comes of a frame that a unit hears and reads.
    Hears(fn(&mut Hearing)),
    /// At this call it takes the bytes of a book for others.
    ReadsBook(Entry, fn(&mut [u8])),
    /// With the running time, or the number, that answers a question about a book.
    Times(fn(&[u8], Question) -> Time),
    /// With the bytes lent for a running time, and the answer.
    Tells(fn(&[u8], Question, &mut [u8]) -> u32),
    /// With the place, or the number, that answers a report.
    Places(fn(&[u8], Report) -> Located),
    /// With the bytes lent for a place, and the answer.
    TellsPlace(fn(&[u8], Report, &mut [u8]) -> u32),
    /// At this call one check comes before another that should be before it, and all between them.
    Earlier(Entry, Check, Check),
}

struct Wrong(Fault);

impl Ends for Wrong {
    fn read_book(&self, book: &[u8], line: &mut [u8]) -> u32 {
        Model.read_book(&self.book_at(Entry::ReadBook, book), line)
    }

    fn open(&self, book: &[u8], state: &mut [u8], table: &mut [u8], journal: &[u8]) -> u32 {
        let book = self.book_at(Entry::Open, book);
        let result = Model.open(&book, state, table, journal);
        if let (0, Fault::Opened(fault), Some(mut opened)) = (result, self.0, state_of(state)) {
            fault(&mut opened);
            state.copy_from_slice(&state_bytes(&opened));
        }
        result
    }

    fn answer(
        &self,
        state: &mut [u8],
        table: &[u8],
        journal: &mut [u8],
        frame: &[u8],
        out: &mut [u8],
    ) -> u32 {
        let (mut bytes, mut frame) = (state.to_vec(), frame.to_vec());
        match self.0 {
            Fault::Replies(fault) => return replies(fault, [state, journal, out], table, &frame),
            Fault::Refuses(fault) => return refuses(fault, [state, journal, out], table, &frame),
            Fault::Stretches(fault) => {
                return stretches(fault, [state, journal, out], table, &frame);
            }
            Fault::Reads(fault) => fault(&mut bytes, &mut frame),
            _ => {}
        }
        let Some(before) = state_of(&bytes) else {
            return 1;
        };
        bytes.copy_from_slice(&state_bytes(&self.taken_for(before, &frame)));
        let table = match self.0 {
            Fault::LooksUp(fault) => &looked_up(table, fault),
            _ => table,
        };
        let (mut logged, mut sent) = (journal.to_vec(), out.to_vec());
        let result = Model.answer(&mut bytes, table, &mut logged, &frame, &mut sent);
        let number = self.number(&before, &frame, result as u8);
        if number != 0 {
            return number.into();
        }
        self.mend(&before, table, &mut bytes, &mut logged);
        state.copy_from_slice(&bytes);
        journal.copy_from_slice(&logged);
        out.copy_from_slice(&sent);
        result
    }

    fn running_time(&self, book: &[u8], from: u8, to: u8, speed: u32, time: &mut [u8]) -> u32 {
        let question = Question { from, to, speed };
        match self.0 {
            Fault::Times(fault) if time.len() == TIME_BYTES => {
                tell(fault(book, question).map(time_bytes), time)
            }
            Fault::Tells(fault) => fault(book, question, time),
            _ => self.ask(book, About::Time(question), time),
        }
    }

    fn locate(&self, book: &[u8], kind: u8, post: u8, metres: f32, place: &mut [u8]) -> u32 {
        let bits = metres.to_bits();
        let report = Report { kind, post, bits };
        match self.0 {
            Fault::Places(fault) if place.len() == PLACE_BYTES => {
                tell(fault(book, report).map(place_bytes), place)
            }
            Fault::TellsPlace(fault) => fault(book, report, place),
            _ => self.ask(book, About::Place(report), place),
        }
    }

    fn make_unit(&self, train: u8, start: u8, end: u8, unit: &mut [u8]) -> u32 {
        Model.make_unit(train, start, end, unit)
    }

    fn press(&self, unit: &mut [u8], button: u8, frame: &mut [u8]) -> u32 {
        match self.0 {
            Fault::Presses(fault) => presses(fault, unit, button, frame),
            _ => Model.press(unit, button, frame),
        }
    }

    fn hear(&self, unit: &mut [u8], frame: &[u8]) -> u32 {
        if let Fault::Hears(fault) = self.0 {
            return hears(fault, unit, frame);
        }
        let result = Model.hear(unit, frame);
        if let (0, Fault::Heard(fault), Some(mut heard)) = (result, self.0, unit_of(unit)) {
            let number = fault(&mut heard, frame[KIND_AT]);
            unit.copy_from_slice(&unit_bytes(&heard));
            return number.into();
        }
        result
    }
}

impl Wrong {
    /// A running time or a place, but for the order of the checks and for the book that is read.
    fn ask(&self, book: &[u8], about: About, answer: &mut [u8]) -> u32 {
        let asked = Asked {
            book,
            about,
            answer,
        };
        match self.0 {
            Fault::Earlier(call, check, other)
                if call == about.entry() && comes_earlier(check, other, asked) =>
            {
                check.number().into()
            }
            _ => about.put(&Model, &self.book_at(about.entry(), book), answer),
        }
    }

    /// The book that is read at a call.
    fn book_at(&self, call: Entry, book: &[u8]) -> Vec<u8> {
        let mut book = book.to_vec();
        match self.0 {
            Fault::ReadsBook(at, fault) if at == call => fault(&mut book),
            _ => {}
        }
        book
    }

    /// The state in which a frame is answered.
    fn taken_for(&self, state: State, frame: &[u8]) -> State {
        match self.0 {
            Fault::TakenFor(fault) => fault(state),
            Fault::AsIf(fault, _) if model::sound(&state) => fault(state, frame),
            _ => state,
        }
    }

    /// The number that answers a frame, where the model's is this.
    fn number(&self, state: &State, frame: &[u8], number: u8) -> u8 {
        match (self.0, number) {
            (Fault::Numbers(fault), 0 | 3..) => fault(state, frame, number),
            _ => number,
        }
    }

    /// The state and the journal after an accepted frame.
    fn mend(&self, before: &State, table: &[u8], state: &mut [u8], journal: &mut [u8]) {
        let (Fault::Answered(fault) | Fault::AsIf(_, fault), Some(mut after)) =
            (self.0, state_of(state))
        else {
            return;
        };
        let [from, to] = [before, &after].map(|s| RECORD_BYTES * usize::from(s.journal));
        let mut records = records_of(&journal[from..to]);
        fault(Answered {
            before,
            after: &mut after,
            records: &mut records,
            table,
        });
        put_records(&records, &mut journal[from..to]);
        state.copy_from_slice(&state_bytes(&after));
    }
}

/// A check refuses that would not have been reached, since one between another and it would have refused before it.
fn comes_earlier(check: Check, other: Check, asked: Asked) -> bool {
    let passed_by = other as usize..check as usize;
    let is_passed_by = |first: Check| passed_by.contains(&(first as usize));
    first(asked).is_some_and(is_passed_by) && would_refuse(check, asked)
}

/// Answers a frame as the model does, but for the fault. Lent are a state, a journal and an out buffer.
fn replies(fault: fn(&mut Replied), lent: [&mut [u8]; 3], table: &[u8], frame: &[u8]) -> u32 {
    let [state, journal, out] = lent;
    let [mut bytes, mut logged, mut sent] = [&state, &journal, &out].map(|lent| lent.to_vec());
    let result = Model.answer(&mut bytes, table, &mut logged, frame, &mut sent);
    let (Some(before), Some(after), Ok(message), 0 | 3..) = (
        state_of(state),
        state_of(&bytes),
        model::read_frame(frame),
        result as u8,
    ) else {
        return result;
    };
    let mut replied = Replied {
        message,
        before: &before,
        after,
        records: records_of(&logged),
        sent: messages_of(result, &sent),
        number: result as u8,
        table,
    };
    fault(&mut replied);
    if replied.number != 0 {
        return replied.number.into();
    }
    state.copy_from_slice(&state_bytes(&replied.after));
    put_records(&replied.records, journal);
    write_frames(&replied.sent, out)
}

/// Answers a frame as the model does, but for the number that refuses it.
fn refuses(fault: fn(&Put, u8) -> u8, lent: [&mut [u8]; 3], table: &[u8], frame: &[u8]) -> u32 {
    let [state, journal, out] = lent;
    let result = Model.answer(state, table, journal, frame, out);
    let put = Put::new(state, [table, journal, frame, out]);
    match result as u8 {
        0 => result,
        number => fault(&put, number).into(),
    }
}

/// Answers a frame as the model does with a longer journal, where the fault says so.
fn stretches(fault: fn(&Put) -> bool, lent: [&mut [u8]; 3], table: &[u8], frame: &[u8]) -> u32 {
    let [state, journal, out] = lent;
    let put = Put::new(state, [table, journal, frame, out]);
    if journal.len() >= JOURNAL_BYTES || !fault(&put) {
        return Model.answer(state, table, journal, frame, out);
    }
    let mut longer = journal.to_vec();
    longer.resize(JOURNAL_BYTES, 0);
    let result = Model.answer(state, table, &mut longer, frame, out);
    journal.copy_from_slice(&longer[..journal.len()]);
    result
}

/// Presses a button as the model does, but for the fault.
fn presses(fault: fn(&mut Pressed), unit: &mut [u8], button: u8, frame: &mut [u8]) -> u32 {
    let Some(before) = unit_of(unit).filter(model::unit::sound) else {
        return 1;
    };
    let mut given = frame.to_vec();
    let result = Model.press(unit, button, &mut given);
    let mut pressed = Pressed {
        before: &before,
        after: unit_of(unit).unwrap_or(before),
        button,
        room: frame.len(),
        given: match result as u8 {
            0 => Ok(messages_of(result, &given).pop()),
            number => Err(number),
        },
    };
    fault(&mut pressed);
    unit.copy_from_slice(&unit_bytes(&pressed.after));
    match pressed.given {
        Ok(message) => write_frames(message.as_slice(), frame),
        Err(number) => number.into(),
    }
}

/// Hears a frame as the model does, but for the fault.
fn hears(fault: fn(&mut Hearing), unit: &mut [u8], frame: &[u8]) -> u32 {
    let before = unit_of(unit).filter(model::unit::sound);
    let result = Model.hear(unit, frame);
    let (Some(before), Some(after), Ok(message)) =
        (before, unit_of(unit), model::read_frame(frame))
    else {
        return result;
    };
    let mut hearing = Hearing {
        message,
        before: &before,
        after,
        number: result as u8,
    };
    fault(&mut hearing);
    unit.copy_from_slice(&unit_bytes(&hearing.after));
    hearing.number.into()
}

/// Writes these at the beginning of a buffer, and answers how many.
fn write_frames(messages: &[Message], buffer: &mut [u8]) -> u32 {
    for (message, place) in messages.iter().zip(buffer.chunks_exact_mut(FRAME_BYTES)) {
        place.copy_from_slice(&write_frame(*message));
    }
    (messages.len() as u32) << 8
}

/// The messages that a call wrote to a buffer, by its answer.
fn messages_of(result: u32, buffer: &[u8]) -> Vec<Message> {
    messages_in(buffer, (result >> 8) as usize)
}

/// The messages of the first so many frames of a buffer.
pub fn messages_in(buffer: &[u8], frames: usize) -> Vec<Message> {
    let frames = buffer.chunks_exact(FRAME_BYTES).take(frames);
    frames.filter_map(|f| model::read_frame(f).ok()).collect()
}

/// The table whose bit for each code is that of another code.
fn looked_up(table: &[u8], other: fn(u64) -> u64) -> Vec<u8> {
    let bit_for = |code: u64| u8::from(bit(table, other(code))) << (code % 8);
    let codes = |byte: u64| 8 * byte..8 * byte + 8;
    (0..table.len() as u64)
        .map(|byte| codes(byte).map(bit_for).sum())
        .collect()
}

/// Frames within which each must be found.
pub const ENOUGH: Options = Options {
    seed: 3,
    frames: 200_000,
    reports: None,
    events: None,
};

pub fn every_is_found(faults: &[(&str, Fault)]) {
    for (name, fault) in faults {
        let mut pair = Pair::new(Box::new(Wrong(*fault)), Box::new(Model));
        assert!(all(&mut pair, &ENOUGH).is_err(), "not found: {name}");
        println!("{name}: after {} frames", pair.counts.frames());
    }
}

/// Within so many frames nothing is found.
pub fn agrees(fault: Fault, frames: u64) -> bool {
    let mut pair = Pair::new(Box::new(Wrong(fault)), Box::new(Model));
    all(&mut pair, &Options { frames, ..ENOUGH }).is_ok()
}

/// The same wrong box on both sides.
pub fn both_with(fault: Fault) -> Pair {
    Pair::new(Box::new(Wrong(fault)), Box::new(Wrong(fault)))
}

/// It is the fault that is found: without one, each way of going wrong agrees with the model.
#[test]
fn a_box_without_a_fault_is_not_found() {
    for (none, frames) in [
        (Fault::Opened(|_| ()), ENOUGH.frames),
        (Fault::Answered(|_| ()), ENOUGH.frames),
        (Fault::TakenFor(|s| s), ENOUGH.frames),
        (Fault::Reads(|_, _| ()), ENOUGH.frames),
        (Fault::Numbers(|_, _, number| number), ENOUGH.frames),
        (Fault::AsIf(|s, _| s, |_| ()), ENOUGH.frames),
        (Fault::Replies(|_| ()), ENOUGH.frames),
        (Fault::Refuses(|_, number| number), ENOUGH.frames),
        (Fault::Stretches(|_| false), ENOUGH.frames),
        (Fault::Presses(|_| ()), ENOUGH.frames),
        (Fault::Heard(|_, _| 0), ENOUGH.frames),
        (Fault::Hears(|_| ()), ENOUGH.frames),
        (Fault::ReadsBook(Entry::Open, |_| ()), ENOUGH.frames),
        (
            Fault::Times(|book, q| model::running_time(book, q.from, q.to, q.speed)),
            ENOUGH.frames,
        ),
        (
            Fault::Tells(|book, q, time| Model.running_time(book, q.from, q.to, q.speed, time)),
            ENOUGH.frames,
        ),
        (Fault::Places(located), ENOUGH.frames),
        (
            Fault::TellsPlace(|book, report, place| About::Place(report).put(&Model, book, place)),
            ENOUGH.frames,
        ),
        (
            Fault::Earlier(Entry::Locate, Check::Kind, Check::Kind),
            ENOUGH.frames,
        ),
        // It makes a table for each frame.
        (Fault::LooksUp(|code| code), 5_000),
    ] {
        assert!(agrees(none, frames));
    }
}
