//! A lent buffer, kept three times: as both sides get it, as the proved code leaves it, and as
//! the model leaves it. Guard bytes stand before and behind, so that a byte written outside the
//! buffer is seen as well.

use inputs::random::Random;

const BACK_GUARD: [u8; 16] = *b"behind the store";

/// The two that are compared.
#[derive(Clone, Copy)]
pub enum Side {
    Proved,
    Model,
}

pub struct Lent {
    /// Guard bytes before the buffer; their number varies, and with it the buffer's alignment.
    front: usize,
    before: Vec<u8>,
    proved: Vec<u8>,
    model: Vec<u8>,
}

impl Lent {
    pub fn new(bytes: &[u8], random: &mut Random) -> Lent {
        let front = 8 + random.below(16);
        let copy = [&random.bytes(front), bytes, &BACK_GUARD].concat();
        Lent {
            front,
            before: copy.clone(),
            proved: copy.clone(),
            model: copy,
        }
    }

    /// A buffer of random bytes.
    pub fn random(len: usize, random: &mut Random) -> Lent {
        let bytes = random.bytes(len);
        Lent::new(&bytes, random)
    }

    /// Lends these bytes next.
    pub fn set(&mut self, bytes: &[u8]) {
        for copy in [&mut self.before, &mut self.proved, &mut self.model] {
            copy.truncate(self.front);
            copy.extend_from_slice(bytes);
            copy.extend_from_slice(&BACK_GUARD);
        }
    }

    /// Keeps the bytes as they are, to be printed if the next call shows a difference.
    pub fn keep(&mut self) {
        self.before.copy_from_slice(&self.proved);
    }

    /// The bytes as the last call got them.
    pub fn kept(&self) -> &[u8] {
        self.inner(&self.before)
    }

    /// The bytes, which both sides have alike after every call that was compared.
    pub fn bytes(&self) -> &[u8] {
        self.shown_to(Side::Model)
    }

    /// A side's bytes, to be read by it.
    pub fn shown_to(&self, side: Side) -> &[u8] {
        match side {
            Side::Proved => self.inner(&self.proved),
            Side::Model => self.inner(&self.model),
        }
    }

    /// A side's bytes, to be written by it.
    pub fn lent_to(&mut self, side: Side) -> &mut [u8] {
        let copy = match side {
            Side::Proved => &mut self.proved,
            Side::Model => &mut self.model,
        };
        let end = copy.len() - BACK_GUARD.len();
        &mut copy[self.front..end]
    }

    /// A copy without its guards.
    fn inner<'a>(&self, copy: &'a [u8]) -> &'a [u8] {
        &copy[self.front..copy.len() - BACK_GUARD.len()]
    }

    /// Both sides left the same bytes, guards included.
    pub fn agrees(&self) -> bool {
        self.proved == self.model
    }

    /// The bytes before and after, in hex.
    pub fn report(&self, name: &str) -> String {
        let inner = |copy| hex(self.inner(copy));
        let mut text = format!("{name}, lent:   {}\n", inner(&self.before));
        if !self.agrees() {
            text += &format!("{name}, proved: {}\n", inner(&self.proved));
            text += &format!("{name}, model:  {}\n", inner(&self.model));
            text += &self.report_place(name);
        }
        text
    }

    /// Where the first difference is, counted from the buffer's first byte.
    fn report_place(&self, name: &str) -> String {
        let same = |at: &usize| self.proved[*at] == self.model[*at];
        let first = (0..self.model.len()).find(|at| !same(at)).unwrap_or(0);
        let end = self.model.len() - BACK_GUARD.len();
        if (self.front..end).contains(&first) {
            format!("{name}: first at byte {}\n", first - self.front)
        } else {
            format!("{name}: a byte outside the buffer was written\n")
        }
    }
}

/// Bytes in hex; more than eight equal ones in a row as `00*512`.
fn hex(bytes: &[u8]) -> String {
    let mut words = vec![format!("({} bytes)", bytes.len())];
    for run in bytes.chunk_by(|a, b| a == b) {
        if run.len() > 8 {
            words.push(format!("{:02x}*{}", run[0], run.len()));
        } else {
            words.extend(run.iter().map(|byte| format!("{byte:02x}")));
        }
    }
    words.join(" ")
}

#[cfg(test)]
mod tests {
    use super::*;

    impl Lent {
        /// The proved side has written the byte before the buffer, or the one behind it.
        pub fn write_outside(&mut self, behind: bool) {
            let end = self.proved.len() - BACK_GUARD.len();
            let at = if behind { end } else { self.front - 1 };
            self.proved[at] ^= 1;
        }
    }

    #[test]
    fn bytes_outside_the_buffer_are_seen() {
        let random = &mut Random::new(1);
        for behind in [false, true] {
            let mut lent = Lent::new(&[1, 2, 3, 4, 5], random);
            assert!(lent.agrees());
            lent.write_outside(behind);
            assert!(!lent.agrees());
            assert!(lent.report("store").contains("outside"));
        }
    }
}
