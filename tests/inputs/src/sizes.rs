//! Sizes, each said once: the model's are the paper's, the others are those of the C interface.

pub use model::{
    FRAME_BYTES, JOURNAL_RECORDS, LOCAL_RUNS, LONGEST_BOOK, MOST_COUNTED, OUT_BYTES,
    RECORDS_A_FRAME, TABLE_BYTES,
};

pub const RECORD_BYTES: usize = 5;
pub const JOURNAL_BYTES: usize = RECORD_BYTES * JOURNAL_RECORDS;

/// A line and a state begin alike: the posts, the tracks of eight posts, the byte of sidings, the trains. Then come the
/// six trains.
pub const TRACKS_AT: usize = 1;
pub const SIDINGS_AT: usize = TRACKS_AT + 8;
pub const TRAINS_AT: usize = SIDINGS_AT + 1;
pub const FLEET_AT: usize = TRAINS_AT + 1;

/// Of a train a line has its start and end.
pub const ROUTE_BYTES: usize = 2;
pub const LINE_BYTES: usize = FLEET_AT + 6 * ROUTE_BYTES;

/// Of a train a state has nine bytes. Then come a byte for each of seven sections, how many local runs were given, and
/// the journal's count.
pub const TRAIN_BYTES: usize = 9;
pub const SECTIONS_AT: usize = FLEET_AT + 6 * TRAIN_BYTES;
pub const GIVEN_AT: usize = SECTIONS_AT + 7;
pub const COUNT_AT: usize = GIVEN_AT + 1;
pub const STATE_BYTES: usize = COUNT_AT + 1;

pub const UNIT_BYTES: usize = 5;

/// Of a running time the seconds, then the rest.
pub const TIME_BYTES: usize = 8;

/// Of a place its sort, the number of the post or section, then the nearest post.
pub const PLACE_BYTES: usize = 3;

/// A post's position in metres, and a speed in km/h, at the most.
pub const METRES_MOST: u32 = 8_388_607;
pub const SPEED_MOST: u32 = 160;
