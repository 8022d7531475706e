//! What the tests share: the paper's books, frames, a small generator.

use model::*;
use std::cmp::Ordering;

/// Book X of the paper.
pub const X: [u8; 12] = [0, 10, 1, 3, 1, 2, 1, 2, 0, 2, 2, 0];
/// Book Y of the paper.
pub const Y: [u8; 14] = [0, 12, 1, 3, 2, 1, 2, 3, 0, 2, 0, 2, 2, 0];

pub const FA: u8 = 1;
pub const FE: u8 = 2;
pub const AFE: u8 = 3;
pub const AM: u8 = 4;
pub const LA: u8 = 5;
pub const LE: u8 = 6;
pub const LB: u8 = 7;

/// What a unit can be in, and what can be pressed.
pub const STATES: [UnitState; 6] = [
    UnitState::Standing,
    UnitState::Asked,
    UnitState::Declined,
    UnitState::Granted,
    UnitState::UnderWay,
    UnitState::Arrived,
];
pub const BUTTONS: [Button; 5] = [
    Button::Ask,
    Button::Depart,
    Button::Reached,
    Button::Report,
    Button::Again,
];

pub fn frame(kind: u8, train: u8, from: u8, to: u8) -> [u8; FRAME_BYTES] {
    [0, 5, 1, kind, train, from, to]
}

/// The record of anything but an FE: it has no track.
pub fn record(kind: u8, train: u8, from: u8, to: u8) -> Record {
    Record {
        kind,
        train,
        from,
        to,
        track: 0,
    }
}

/// The record of an FE, with the track at the post run to.
pub fn authority(train: u8, from: u8, to: u8, track: u8) -> Record {
    Record {
        track,
        ..record(FE, train, from, to)
    }
}

/// What a lent journal has in its records before any is written.
pub const OLD: Record = Record {
    kind: 9,
    train: 9,
    from: 9,
    to: 9,
    track: 9,
};

/// The book of a line given by its tracks and its trains' starts and ends: of
/// edition 2 where it has a byte of sidings, else of edition 1.
pub fn book_of(tracks: &[u8], sidings: Option<u8>, trains: &[(u8, u8)]) -> Vec<u8> {
    let edition = if sidings.is_some() { 2 } else { 1 };
    book_with(edition, tracks, sidings.as_slice(), trains)
}

/// The book of edition 3 of such a line, with the position of each post.
pub fn book_with_positions(
    tracks: &[u8],
    sidings: u8,
    positions: &[u32],
    trains: &[(u8, u8)],
) -> Vec<u8> {
    let mut between = vec![sidings];
    between.extend(positions.iter().flat_map(|metres| metres.to_be_bytes()));
    book_with(3, tracks, &between, trains)
}

/// The book with these bytes between its track counts and its number of trains.
fn book_with(edition: u8, tracks: &[u8], between: &[u8], trains: &[(u8, u8)]) -> Vec<u8> {
    let mut rest = vec![edition, tracks.len() as u8];
    rest.extend(tracks);
    rest.extend(between);
    rest.push(trains.len() as u8);
    for (start, end) in trains {
        rest.extend([*start, *end]);
    }
    let mut book = vec![0, rest.len() as u8];
    book.extend(rest);
    book
}

pub fn book(tracks: &[u8], trains: &[(u8, u8)]) -> Vec<u8> {
    book_of(tracks, None, trains)
}

/// A table with only these bits set.
pub fn bits(codes: &[u64]) -> Vec<u8> {
    let mut table = vec![0; TABLE_BYTES];
    for c in codes {
        table[(c / 8) as usize] |= 1 << (c % 8);
    }
    table
}

/// A state of the line with each train at its start, there on the first track that none before
/// it has.
pub fn state(tracks: &[u8], trains: &[(u8, u8, Standing)], journal: u8) -> State {
    let mut s = State::EMPTY;
    s.posts = tracks.len() as u8;
    s.tracks[..tracks.len()].copy_from_slice(tracks);
    s.trains = trains.len() as u8;
    for (t, (start, end, standing)) in trains.iter().enumerate() {
        let before = trains[..t].iter().filter(|other| other.0 == *start);
        s.train[t] = Train {
            start: *start,
            end: *end,
            at: *start,
            track: before.count() as u8 + 1,
            standing: *standing,
            last: None,
        };
    }
    s.journal = journal;
    s
}

/// Puts a train at a post of its way, with the move that brought it there.
pub fn bring(train: &mut Train, post: u8) {
    train.at = post;
    train.last = match post.cmp(&train.start) {
        Ordering::Less => Some((post + 1, post)),
        Ordering::Equal => None,
        Ordering::Greater => Some((post - 1, post)),
    };
}

/// A box with its stores, as a run needs them.
pub struct Box {
    pub state: State,
    pub table: Vec<u8>,
    pub journal: Vec<Record>,
}

impl Box {
    /// Opens a book that must be accepted.
    pub fn open(book: &[u8]) -> Box {
        let mut table = vec![0xA5; TABLE_BYTES];
        let journal = vec![OLD; JOURNAL_RECORDS];
        let (state, refusal) = open(book, &mut table, &journal);
        assert_eq!(refusal, 0);
        Box {
            state,
            table,
            journal,
        }
    }

    /// Puts a frame; gives the frames sent (kind, train, from, to) or the refusal.
    pub fn put(&mut self, frame: &[u8]) -> Result<Vec<[u8; 4]>, u8> {
        let mut out = [0xEE; OUT_BYTES];
        let journal = self.journal.clone();
        let (state, verdict) = answer(&self.state, &self.table, &mut self.journal, frame, &mut out);
        match verdict {
            Verdict::Refused(number) => {
                assert_eq!(state, self.state);
                assert_eq!(out, [0xEE; OUT_BYTES]);
                assert_eq!(self.journal, journal);
                Err(number)
            }
            Verdict::Sent(count) => {
                self.state = state;
                assert!(out[FRAME_BYTES * count..].iter().all(|b| *b == 0xEE));
                Ok(out
                    .chunks(FRAME_BYTES)
                    .take(count)
                    .map(|f| {
                        assert_eq!(f[..3], [0, 5, 1]);
                        [f[3], f[4], f[5], f[6]]
                    })
                    .collect())
            }
        }
    }
}

/// A box with this state and table, and a blank journal.
pub fn boxed(state: State, table: Vec<u8>) -> Box {
    Box {
        state,
        table,
        journal: vec![Record::BLANK; JOURNAL_RECORDS],
    }
}

/// Puts a frame that must be taken as a repeat: nothing changes but the out buffer. Gives the
/// frames sent.
pub fn put_repeat(b: &mut Box, frame: &[u8]) -> Vec<[u8; 4]> {
    let (state, journal) = (b.state, b.journal.clone());
    let sent = b.put(frame).expect("a repeat is accepted");
    assert_eq!(b.state, state);
    assert_eq!(b.journal, journal);
    sent
}

/// What an opening gives, with stores of the right size, and the table after it.
pub fn opened(book: &[u8]) -> ((State, u8), Vec<u8>) {
    let mut table = vec![0xA5; TABLE_BYTES];
    let answer = open(book, &mut table, &[Record::BLANK; JOURNAL_RECORDS]);
    (answer, table)
}

/// The refusal of an opening.
pub fn refusal_of(book: &[u8]) -> u8 {
    let ((state, refusal), _) = opened(book);
    assert_eq!(refusal != 0, state == State::EMPTY);
    assert_eq!(refusal == 0, sound(&state));
    refusal
}

/// xorshift64*, with fixed seeds.
pub struct Rng(pub u64);

impl Rng {
    pub fn word(&mut self) -> u64 {
        self.0 ^= self.0 >> 12;
        self.0 ^= self.0 << 25;
        self.0 ^= self.0 >> 27;
        self.0.wrapping_mul(0x2545_F491_4F6C_DD1D) >> 16
    }

    /// A number below n.
    pub fn below(&mut self, n: u64) -> u64 {
        self.word() % n
    }

    /// A number from low to high, both counted.
    pub fn within(&mut self, low: u8, high: u8) -> u8 {
        low + self.below(u64::from(high - low) + 1) as u8
    }

    pub fn byte(&mut self) -> u8 {
        self.word() as u8
    }

    pub fn chance(&mut self, percent: u64) -> bool {
        self.below(100) < percent
    }

    pub fn bytes(&mut self, count: usize) -> Vec<u8> {
        (0..count).map(|_| self.byte()).collect()
    }

    /// A random line within the given bounds; its start may be overfull.
    pub fn line(&mut self, posts: u8, trains: u8, tracks: u8) -> (Vec<u8>, Vec<(u8, u8)>) {
        let p = self.within(2, posts);
        let t = self.within(1, trains);
        let tracks = (0..p).map(|_| self.within(1, tracks)).collect();
        let trains = (0..t)
            .map(|_| (self.within(0, p - 1), self.within(0, p - 1)))
            .collect();
        (tracks, trains)
    }

    /// The sidings of a line of so many posts: no byte, or any that names none but these.
    pub fn sidings(&mut self, posts: usize) -> Option<u8> {
        let byte = self.byte() & (255 >> (8 - posts));
        self.chance(70).then_some(byte)
    }

    /// The positions of so many posts, 8 at the most: from 0, and near together or far apart.
    pub fn positions(&mut self, posts: usize) -> Vec<u32> {
        let farthest = [2, 3000, 8_388_607 / 7][self.below(3) as usize];
        let mut positions = vec![0];
        for post in 1..posts {
            positions.push(positions[post - 1] + 1 + self.below(farthest) as u32);
        }
        positions
    }
}
