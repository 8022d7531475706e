//! The box between frames: its state and its journal, and the buffers of the next frame.

use crate::journal_counts::{self, Put};
use crate::lent::Lent;
use crate::pair::{Compared, Difference, Pair, Reply};
use crate::stores;
use inputs::random::Random;
use inputs::sizes::FRAME_BYTES;

pub struct Desk {
    state: Lent,
    journal: Lent,
    frame: Lent,
    out: Lent,
    /// The run began with the state of an opened book.
    is_opened: bool,
    /// A frame has left more than the most that a sound state counts.
    left_more: bool,
}

impl Desk {
    pub fn new(state: &[u8], journal_bytes: usize, random: &mut Random) -> Desk {
        Desk {
            state: Lent::new(state, random),
            journal: Lent::random(journal_bytes, random),
            frame: Lent::new(&[], random),
            out: Lent::random(stores::out(random), random),
            is_opened: false,
            left_more: false,
        }
    }

    /// With the first state of an opened book: its count stays within what trains and gangs log, and it is never
    /// refused.
    pub fn opened(state: &[u8], journal_bytes: usize, random: &mut Random) -> Desk {
        Desk {
            is_opened: true,
            ..Desk::new(state, journal_bytes, random)
        }
    }

    pub fn state(&self) -> &[u8] {
        self.state.bytes()
    }

    /// The frames that the last answer wrote, given how many.
    pub fn answers(&self, sent: usize) -> Vec<[u8; FRAME_BYTES]> {
        let (frames, _) = self.out.bytes().as_chunks();
        frames[..sent].to_vec()
    }

    /// Puts a frame to the box. The out buffer is mostly as the frame before left it, at times
    /// fresh and at times too short.
    pub fn put(
        &mut self,
        pair: &mut Pair,
        table: &Lent,
        frame: &[u8],
        random: &mut Random,
    ) -> Compared<Reply> {
        self.frame.set(frame);
        let short = random.one_in(64);
        if short {
            self.fresh_out(stores::short_out(random), random);
        } else if random.one_in(32) {
            self.fresh_out(stores::out(random), random);
        }
        let reply = self.answer(pair, table)?;
        self.count(pair, table, reply)?;
        if short {
            self.fresh_out(stores::out(random), random);
        }
        Ok(reply)
    }

    /// What the count shows from one frame to the next.
    fn count(&mut self, pair: &mut Pair, table: &Lent, reply: Reply) -> Compared<()> {
        let lent = [table, &self.journal, &self.frame, &self.out].map(Lent::bytes);
        let put = Put::new(self.state.kept(), lent);
        if self.left_more {
            pair.counts.cases(journal_counts::of_next(&put));
        }
        if self.is_opened {
            let cases = journal_counts::in_a_run(&put, self.state(), reply);
            pair.counts.cases(cases.map_err(Difference)?);
        }
        if reply.refusal == 0 {
            self.left_more = journal_counts::leaves_more(self.state()).map_err(Difference)?;
        }
        Ok(())
    }

    fn fresh_out(&mut self, len: usize, random: &mut Random) {
        let bytes = random.bytes(len);
        self.out.set(&bytes);
    }

    fn answer(&mut self, pair: &mut Pair, table: &Lent) -> Compared<Reply> {
        pair.answer(
            &mut self.state,
            table,
            &mut self.journal,
            &self.frame,
            &mut self.out,
        )
    }
}
