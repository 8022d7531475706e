//! Both sides called with the same input, and everything they answer and write compared.

use crate::asked::{About, Asked};
use crate::cases::{PlaceOrder, TimeOrder};
use crate::counts::{Counts, Entry};
use crate::journal_counts::{self, Put};
use crate::lent::{Lent, Side};
use crate::{
    again, checks, codes, last_moves, local_runs, places, repeats, sidings, timings, tracks,
};
use boundary::Ends;
use inputs::encoding::{train_at, trains_in, PHASE_AT};
use inputs::frames::KIND_AT;
use inputs::sizes::FRAME_BYTES;

/// The text of the first difference: the input in full and both outputs.
#[derive(Debug)]
pub struct Difference(pub String);

pub type Compared<T> = Result<T, Difference>;

/// What both sides answered.
#[derive(Debug, Clone, Copy, PartialEq, Eq)]
pub struct Reply {
    pub refusal: u8,
    pub sent: usize,
}

pub struct Pair {
    proved: Box<dyn Ends>,
    model: Box<dyn Ends>,
    pub counts: Counts,
}

type Buffers<'a> = [(&'static str, &'a Lent)];

impl Pair {
    pub fn new(proved: Box<dyn Ends>, model: Box<dyn Ends>) -> Pair {
        Pair {
            proved,
            model,
            counts: Counts::new(),
        }
    }

    pub fn read_book(&mut self, book: &Lent, line: &mut Lent) -> Compared<Reply> {
        line.keep();
        let results =
            self.both(|ends, side| ends.read_book(book.shown_to(side), line.lent_to(side)));
        let buffers = [("book", book), ("line", line)];
        self.settle(Entry::ReadBook, &[], results, &buffers, &[])
    }

    pub fn open(
        &mut self,
        book: &Lent,
        state: &mut Lent,
        table: &mut Lent,
        journal: &Lent,
    ) -> Compared<Reply> {
        state.keep();
        table.keep();
        let results = self.both(|ends, side| {
            ends.open(
                book.shown_to(side),
                state.lent_to(side),
                table.lent_to(side),
                journal.shown_to(side),
            )
        });
        let buffers = [
            ("book", book),
            ("state", state),
            ("table", table),
            ("journal", journal),
        ];
        let reply = self.settle(Entry::Open, &[], results, &buffers, &[])?;
        self.counts
            .cases(sidings::of_opening(book.bytes(), reply.refusal));
        if reply.refusal == 0 {
            self.counts.cases(tracks::of_opening(state.bytes()));
        }
        Ok(reply)
    }

    /// The table, 32,768 bytes that are only read, is not compared here but by `unchanged`, once
    /// for all frames that were answered with it.
    pub fn answer(
        &mut self,
        state: &mut Lent,
        table: &Lent,
        journal: &mut Lent,
        frame: &Lent,
        out: &mut Lent,
    ) -> Compared<Reply> {
        state.keep();
        journal.keep();
        out.keep();
        let results = self.both(|ends, side| {
            ends.answer(
                state.lent_to(side),
                table.shown_to(side),
                journal.lent_to(side),
                frame.shown_to(side),
                out.lent_to(side),
            )
        });
        let buffers = [
            ("state", &*state),
            ("journal", journal),
            ("frame", frame),
            ("out", out),
        ];
        let reply = self.settle(Entry::Answer, &[], results, &buffers, &[("table", table)])?;
        let lent = [table, journal, frame, out].map(Lent::bytes);
        let put = Put::new(state.kept(), lent);
        self.count_answer(&put, state.bytes(), reply);
        Ok(reply)
    }

    pub fn unchanged(&self, table: &Lent) -> Compared<()> {
        if table.agrees() {
            return Ok(());
        }
        let text = table.report("table");
        Err(Difference(format!("answer: wrote to the table\n{text}")))
    }

    /// Asks for a running time or a place.
    pub fn ask(&mut self, book: &Lent, about: About, answer: &mut Lent) -> Compared<Reply> {
        answer.keep();
        let results =
            self.both(|ends, side| about.put(ends, book.shown_to(side), answer.lent_to(side)));
        let buffers = [("book", book), ("answer", answer)];
        let reply = self.settle(about.entry(), &about.numbers(), results, &buffers, &[])?;
        let asked = Asked {
            book: book.bytes(),
            about,
            answer: answer.bytes(),
        };
        self.count_asked(asked, reply.refusal);
        Ok(reply)
    }

    pub fn make_unit(&mut self, numbers: [u8; 3], unit: &mut Lent) -> Compared<Reply> {
        let [train, start, end] = numbers;
        unit.keep();
        let results = self.both(|ends, side| ends.make_unit(train, start, end, unit.lent_to(side)));
        let buffers = [("unit", &*unit)];
        let numbers = numbers.map(u32::from);
        let reply = self.settle(Entry::MakeUnit, &numbers, results, &buffers, &[])?;
        self.count_phase(reply, unit);
        Ok(reply)
    }

    pub fn press(&mut self, unit: &mut Lent, button: u8, frame: &mut Lent) -> Compared<Reply> {
        unit.keep();
        frame.keep();
        let results =
            self.both(|ends, side| ends.press(unit.lent_to(side), button, frame.lent_to(side)));
        let buffers = [("unit", &*unit), ("frame", frame)];
        let reply = self.settle(Entry::Press, &[button.into()], results, &buffers, &[])?;
        self.count_phase(reply, unit);
        let case = again::of_press(unit.kept(), button, reply.refusal);
        self.counts.cases(case);
        Ok(reply)
    }

    pub fn hear(&mut self, unit: &mut Lent, frame: &Lent) -> Compared<Reply> {
        unit.keep();
        let results = self.both(|ends, side| ends.hear(unit.lent_to(side), frame.shown_to(side)));
        let buffers = [("unit", &*unit), ("frame", frame)];
        let reply = self.settle(Entry::Hear, &[], results, &buffers, &[])?;
        self.count_phase(reply, unit);
        if reply.refusal == 0 {
            let phase = unit.kept()[PHASE_AT];
            self.counts.heard(frame.bytes()[KIND_AT], phase);
        }
        Ok(reply)
    }

    /// Calls both sides, each with its own bytes.
    fn both(&self, mut call: impl FnMut(&dyn Ends, Side) -> u32) -> [u32; 2] {
        let proved = call(&*self.proved, Side::Proved);
        let model = call(&*self.model, Side::Model);
        [proved, model]
    }

    /// Compares both results and the buffers, guards included; `only_shown` are printed with a
    /// difference and not compared.
    fn settle(
        &mut self,
        entry: Entry,
        numbers: &[u32],
        results: [u32; 2],
        buffers: &Buffers,
        only_shown: &Buffers,
    ) -> Compared<Reply> {
        let [proved, model] = results;
        let agreed = proved == model && buffers.iter().all(|(_, lent)| lent.agrees());
        let reply = Reply {
            refusal: model as u8,
            sent: (model >> 8) as usize,
        };
        if agreed && self.counts.refusal(entry, reply.refusal) {
            return Ok(reply);
        }
        let mut text = format!("{entry:?}: proved {proved}, model {model}\n");
        text += &format!("numbers handed in: {numbers:?}\n");
        for (name, lent) in buffers.iter().chain(only_shown) {
            text += &lent.report(name);
        }
        Err(Difference(text))
    }

    /// How a question about a running time or a place report fared, and whether the next check would have refused too.
    fn count_asked(&mut self, asked: Asked, refusal: u8) {
        let order = if refusal == 0 {
            None
        } else {
            checks::neighbours(asked)
        };
        match asked.about {
            About::Time(question) => {
                let cases = timings::of_question(asked.book, question, refusal);
                self.counts.cases(cases);
                self.counts.cases(order.map(TimeOrder));
            }
            About::Place(report) => {
                let cases = places::of_report(asked.book, report, asked.answer, refusal);
                self.counts.cases(cases);
                self.counts.cases(order.map(PlaceOrder));
            }
        }
    }

    /// Of a frame, with the state after it.
    fn count_answer(&mut self, put: &Put, after: &[u8], reply: Reply) {
        self.count_fared(put, after, reply);
        match reply.refusal {
            0 => {
                let sent = &put.out[..FRAME_BYTES * reply.sent];
                self.counts.sent(reply.sent);
                self.count_trains(put, after);
                // A repeat gives nobody an authority and declines none anew.
                if put.state != after {
                    self.count_sent(after, put.table, sent);
                }
            }
            1 => self.count_strange(after),
            _ => {}
        }
    }

    /// How a frame of a gang fared, one that repeats another or nearly does, and one near the most that is counted.
    fn count_fared(&mut self, put: &Put, after: &[u8], reply: Reply) {
        let (before, frame) = (put.state, put.frame);
        self.counts
            .cases(local_runs::of_frame(before, frame, reply));
        self.counts
            .cases(repeats::of_frame(before, put.table, frame, reply));
        self.counts
            .cases(journal_counts::of_frame(put, after, reply));
    }

    /// Of a new frame: what the frames sent tell of the state after it.
    fn count_sent(&mut self, state: &[u8], table: &[u8], sent: &[u8]) {
        self.counts.cases(sidings::of_answer(state, table, sent));
        self.counts.cases(codes::of_answer(state, sent));
        self.counts.cases(local_runs::of_answer(state, table, sent));
    }

    /// Of bytes that were refused by 1: what alone is wrong with them.
    fn count_strange(&mut self, state: &[u8]) {
        self.counts.cases(sidings::of_strange(state));
        self.counts.cases(tracks::of_strange(state));
        self.counts.cases(local_runs::of_strange(state));
        self.counts.cases(last_moves::of_strange(state));
    }

    /// Of an accepted frame: what the trains are about, and their tracks.
    fn count_trains(&mut self, put: &Put, after: &[u8]) {
        for train in trains_in(after) {
            self.counts.status(train[train_at::STATUS]);
        }
        self.counts
            .cases(tracks::of_answer(put.state, after, put.journal));
        self.counts.cases(last_moves::of_answer(after));
    }

    fn count_phase(&mut self, reply: Reply, unit: &Lent) {
        if reply.refusal == 0 {
            self.counts.phase(unit.bytes()[PHASE_AT]);
        }
    }
}
