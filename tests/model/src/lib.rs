//! A model of the two ends of Zugleitbetrieb, written from the papers alone.
//!
//! Every public function is total: it answers for any bytes, any lent slice
//! and any numbers in a state, and never panics. A refusal is the paper's
//! number, 29 at the most; 0 stands for "not refused" where a number is
//! returned.

#![forbid(unsafe_code)]

pub mod dispatcher;
pub mod frame;
pub mod journal;
pub mod line;
pub mod place;
pub mod program;
pub mod table;
pub mod timing;
pub mod together;
pub mod unit;

pub use dispatcher::{answer, open, sound, Standing, State, Train, Verdict, LOCAL_RUNS, OUT_BYTES};
pub use frame::{read_frame, write_frame, Message, Move, FRAME_BYTES, GANG};
pub use journal::{Record, JOURNAL_RECORDS, MOST_COUNTED, RECORDS_A_FRAME};
pub use line::{read_book, read_book_with_positions, Line, LONGEST_BOOK};
pub use place::{place, Place, Report};
pub use table::{fill, TABLE_BYTES};
pub use timing::running_time;
pub use together::{fault, Fault, Together};
pub use unit::{Button, Unit, UnitState};
