//! What the tests hand in: books, frames, what crews send, random numbers, and states, units, lines, records and times
//! as the bytes of the C interface. The tests of the model have their own.

pub mod books;
pub mod crews;
pub mod encoding;
pub mod frames;
pub mod random;
pub mod sizes;
