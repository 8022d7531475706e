//! States, units, lines, records, running times and places as the bytes of the C interface.

use crate::sizes::{
    COUNT_AT, FLEET_AT, GIVEN_AT, LINE_BYTES, PLACE_BYTES, RECORD_BYTES, ROUTE_BYTES, SECTIONS_AT,
    SIDINGS_AT, STATE_BYTES, TIME_BYTES, TRACKS_AT, TRAINS_AT, TRAIN_BYTES, UNIT_BYTES,
};
use model::{Button, Line, Place, Record, Report, Standing, State, Train, Unit, UnitState};

/// Where the bytes of a train have what.
pub mod train_at {
    pub const START: usize = 0;
    pub const END: usize = 1;
    pub const POST: usize = 2;
    pub const TRACK: usize = 3;
    pub const STATUS: usize = 4;
    /// Asked: the journal number of its FA. Running: its track at the post it runs to. Free: 0.
    pub const DETAIL: usize = 5;
    /// 1 where it has finished a move, else 0.
    pub const LAST: usize = 6;
    /// Its last finished move, from post to post, or 0 and 0.
    pub const LAST_FROM: usize = 7;
    pub const LAST_TO: usize = 8;
}

/// Where the bytes of a unit have its phase.
pub const PHASE_AT: usize = 4;

pub const FREE: u8 = 0;
pub const ASKED: u8 = 1;
pub const RUNNING: u8 = 2;

/// The phases by their numbers.
const PHASES: [UnitState; 6] = [
    UnitState::Standing,
    UnitState::Asked,
    UnitState::Declined,
    UnitState::Granted,
    UnitState::UnderWay,
    UnitState::Arrived,
];

/// The buttons by their numbers.
pub const BUTTONS: [Button; 5] = [
    Button::Ask,
    Button::Depart,
    Button::Reached,
    Button::Report,
    Button::Again,
];

/// The number of Again.
pub const AGAIN: u8 = 4;

/// The lowest number that is no button.
pub const NO_BUTTON: u8 = BUTTONS.len() as u8;

/// The kinds of a place report.
pub const MISSING: u8 = 0;
pub const POST: u8 = 1;
pub const METRES: u8 = 2;

/// The sorts of a place.
pub const NOTHING: u8 = 0;
pub const AT_POST: u8 = 1;
pub const IN_SECTION: u8 = 2;

pub fn line_bytes(line: &Line) -> [u8; LINE_BYTES] {
    let mut bytes = [0; LINE_BYTES];
    bytes[0] = line.posts;
    bytes[TRACKS_AT..SIDINGS_AT].copy_from_slice(&line.tracks);
    bytes[SIDINGS_AT] = line.sidings;
    bytes[TRAINS_AT] = line.trains;
    let places = bytes[FLEET_AT..].chunks_exact_mut(ROUTE_BYTES);
    for ((start, end), place) in line.starts.iter().zip(&line.ends).zip(places) {
        place.copy_from_slice(&[*start, *end]);
    }
    bytes
}

pub fn state_bytes(state: &State) -> [u8; STATE_BYTES] {
    let mut bytes = [0; STATE_BYTES];
    bytes[0] = state.posts;
    bytes[TRACKS_AT..SIDINGS_AT].copy_from_slice(&state.tracks);
    bytes[SIDINGS_AT] = state.sidings;
    bytes[TRAINS_AT] = state.trains;
    let places = bytes[FLEET_AT..].chunks_exact_mut(TRAIN_BYTES);
    for (train, place) in state.train.iter().zip(places) {
        place.copy_from_slice(&train_bytes(train));
    }
    bytes[SECTIONS_AT..GIVEN_AT].copy_from_slice(&state.possessions.map(u8::from));
    bytes[GIVEN_AT] = state.given;
    bytes[COUNT_AT] = state.journal;
    bytes
}

fn train_bytes(train: &Train) -> [u8; TRAIN_BYTES] {
    let (status, detail) = match train.standing {
        Standing::Free => (FREE, 0),
        Standing::Asked(number) => (ASKED, number),
        Standing::Running(ahead) => (RUNNING, ahead),
    };
    let (finished, from, to) = match train.last {
        None => (0, 0, 0),
        Some((from, to)) => (1, from, to),
    };
    let Train {
        start,
        end,
        at,
        track,
        ..
    } = *train;
    [start, end, at, track, status, detail, finished, from, to]
}

/// The state that the bytes encode; none for another length, another status, a detail where the
/// status is Free, a byte above 1 for whether a train has a last move, a post of that where there is
/// none, or a section's byte above 1.
pub fn state_of(bytes: &[u8]) -> Option<State> {
    if bytes.len() != STATE_BYTES {
        return None;
    }
    let mut state = State {
        posts: bytes[0],
        sidings: bytes[SIDINGS_AT],
        trains: bytes[TRAINS_AT],
        given: bytes[GIVEN_AT],
        journal: bytes[COUNT_AT],
        ..State::EMPTY
    };
    state.tracks.copy_from_slice(&bytes[TRACKS_AT..SIDINGS_AT]);
    let places = bytes[FLEET_AT..].chunks_exact(TRAIN_BYTES);
    for (train, place) in state.train.iter_mut().zip(places) {
        *train = train_of(place)?;
    }
    for (held, byte) in state.possessions.iter_mut().zip(&bytes[SECTIONS_AT..]) {
        *held = match byte {
            0 => false,
            1 => true,
            _ => return None,
        };
    }
    Some(state)
}

fn train_of(place: &[u8]) -> Option<Train> {
    let [start, end, at, track, status, detail, finished, from, to] = *place else {
        return None;
    };
    let standing = match (status, detail) {
        (FREE, 0) => Standing::Free,
        (ASKED, number) => Standing::Asked(number),
        (RUNNING, ahead) => Standing::Running(ahead),
        _ => return None,
    };
    let last = match (finished, from, to) {
        (0, 0, 0) => None,
        (1, from, to) => Some((from, to)),
        _ => return None,
    };
    Some(Train {
        start,
        end,
        at,
        track,
        standing,
        last,
    })
}

/// The bytes of the trains that a state's bytes say there are, whether or not they encode a state.
pub fn trains_in(state: &[u8]) -> impl Iterator<Item = &[u8]> {
    let trains = state.get(TRAINS_AT).copied().unwrap_or(0).min(6);
    let places = state.get(FLEET_AT..).unwrap_or(&[]);
    places.chunks_exact(TRAIN_BYTES).take(usize::from(trains))
}

/// The train of these bytes stands at its end.
pub fn is_home(train: &[u8]) -> bool {
    train[train_at::POST] == train[train_at::END]
}

/// The whole records of a journal; what is left over is none.
pub fn records_of(journal: &[u8]) -> Vec<Record> {
    let record = |r: &[u8]| Record {
        kind: r[0],
        train: r[1],
        from: r[2],
        to: r[3],
        track: r[4],
    };
    journal.chunks_exact(RECORD_BYTES).map(record).collect()
}

pub fn put_records(records: &[Record], journal: &mut [u8]) {
    for (r, place) in records.iter().zip(journal.chunks_exact_mut(RECORD_BYTES)) {
        place.copy_from_slice(&[r.kind, r.train, r.from, r.to, r.track]);
    }
}

pub fn unit_bytes(unit: &Unit) -> [u8; UNIT_BYTES] {
    let is_its = |phase: &UnitState| *phase == unit.state;
    let phase = PHASES.iter().position(is_its).unwrap_or(0) as u8;
    [unit.train, unit.start, unit.end, unit.at, phase]
}

/// The unit that the bytes encode; none for another length or a phase above 5.
pub fn unit_of(bytes: &[u8]) -> Option<Unit> {
    let [train, start, end, at, phase] = *bytes else {
        return None;
    };
    Some(Unit {
        train,
        start,
        end,
        at,
        state: *PHASES.get(usize::from(phase))?,
    })
}

/// Seconds and rest, four bytes each, the high byte first.
pub fn time_bytes((seconds, rest): (u32, u32)) -> [u8; TIME_BYTES] {
    let time = u64::from(seconds) << 32 | u64::from(rest);
    time.to_be_bytes()
}

/// The report of a kind, which says whether the post or the metres are looked at; none above the kinds.
pub fn report_of(kind: u8, post: u8, metres: f32) -> Option<Report> {
    match kind {
        MISSING => Some(Report::Missing),
        POST => Some(Report::Post(post)),
        METRES => Some(Report::Metres(metres)),
        _ => None,
    }
}

/// Sort, number and nearest post; a post is the nearest to itself.
pub fn place_bytes(place: Place) -> [u8; PLACE_BYTES] {
    match place {
        Place::Nothing => [NOTHING, 0, 0],
        Place::At(post) => [AT_POST, post, post],
        Place::In { section, nearest } => [IN_SECTION, section, nearest],
    }
}

#[cfg(test)]
mod tests {
    use super::*;
    use crate::books::{book_2, X};
    use crate::crews;
    use crate::sizes::JOURNAL_BYTES;

    /// Three posts, a siding at the last, two trains.
    const BEGINNING: [u8; FLEET_AT] = [3, 1, 2, 1, 0, 0, 0, 0, 0, 4, 2];

    #[test]
    fn a_line_and_a_state_are_as_the_header_has_them() {
        let book = book_2(&[1, 2, 1], 4, &[[0, 2], [2, 1]]);
        let line = line_bytes(&model::read_book(&book).unwrap());
        assert_eq!(line[..FLEET_AT], BEGINNING);
        assert_eq!(line[FLEET_AT..], [0, 2, 2, 1, 0, 0, 0, 0, 0, 0, 0, 0]);
        let mut state = crews::open(&book).unwrap().state;
        state.train[0].standing = Standing::Running(2);
        state.train[1].standing = Standing::Asked(6);
        state.train[1].last = Some((7, 8));
        state.possessions[1] = true;
        state.given = 3;
        state.journal = 7;
        let bytes = state_bytes(&state);
        assert_eq!(bytes[..FLEET_AT], BEGINNING);
        let two = [
            [0, 2, 0, 1, RUNNING, 2, 0, 0, 0],
            [2, 1, 2, 1, ASKED, 6, 1, 7, 8],
        ];
        assert_eq!(&bytes[FLEET_AT..][..18], two.as_flattened());
        assert_eq!(bytes[FLEET_AT + 18..65], [0; 36]);
        assert_eq!(bytes[65..], [0, 1, 0, 0, 0, 0, 0, 3, 7]);
        assert_eq!((line.len(), bytes.len()), (23, 74));
        assert_eq!(state_of(&bytes), Some(state));
    }

    #[test]
    fn a_detail_of_a_free_train_and_a_fourth_status_encode_none() {
        let bytes = state_bytes(&crews::open(&X).unwrap().state);
        for (status, detail, encodes) in [
            (FREE, 0, true),
            (FREE, 1, false),
            (ASKED, 255, true),
            (RUNNING, 0, true),
            (RUNNING, 255, true),
            (RUNNING + 1, 0, false),
        ] {
            // Of the places that are not read, too.
            for t in [0, 5] {
                let mut other = bytes;
                let train = &mut other[FLEET_AT + TRAIN_BYTES * t..][..TRAIN_BYTES];
                train[train_at::STATUS] = status;
                train[train_at::DETAIL] = detail;
                assert_eq!(state_of(&other).is_some(), encodes, "{status} {detail}");
            }
        }
    }

    #[test]
    fn a_post_without_a_last_move_and_a_byte_above_1_for_it_encode_none() {
        let bytes = state_bytes(&crews::open(&X).unwrap().state);
        for (last, encodes) in [
            ([0, 0, 0], true),
            ([1, 0, 0], true),
            ([1, 0, 1], true),
            ([1, 255, 255], true),
            ([0, 1, 0], false),
            ([0, 0, 1], false),
            ([0, 255, 255], false),
            ([2, 0, 0], false),
            ([2, 0, 1], false),
            ([255, 0, 0], false),
        ] {
            // Of the places that are not read, too.
            for t in [0, 5] {
                let mut other = bytes;
                let train = &mut other[FLEET_AT + TRAIN_BYTES * t..][..TRAIN_BYTES];
                train[train_at::LAST..].copy_from_slice(&last);
                let read = state_of(&other);
                assert_eq!(read.is_some(), encodes, "{last:?}");
                assert!(read.is_none_or(|read| state_bytes(&read) == other));
            }
        }
    }

    #[test]
    fn the_buttons_have_the_numbers_of_the_header() {
        assert_eq!(BUTTONS.len(), 5);
        assert_eq!(BUTTONS[usize::from(AGAIN)], Button::Again);
        assert_eq!(NO_BUTTON, 5);
    }

    #[test]
    fn a_byte_above_1_for_a_section_encodes_none() {
        let bytes = state_bytes(&crews::open(&X).unwrap().state);
        for (held, encodes) in [(0, true), (1, true), (2, false), (255, false)] {
            // Of sections that are not on the line, too.
            for section in 0..7 {
                let mut other = bytes;
                other[SECTIONS_AT + section] = held;
                assert_eq!(state_of(&other).is_some(), encodes, "{section} {held}");
            }
        }
        let all_given = |state: State| state.given == 255;
        let mut other = bytes;
        other[GIVEN_AT] = 255;
        assert!(state_of(&other).is_some_and(all_given));
    }

    #[test]
    fn there_are_no_more_than_six_trains() {
        let mut bytes = [1; STATE_BYTES];
        for (trains, told) in [(0, 0), (5, 5), (6, 6), (7, 6), (255, 6)] {
            bytes[TRAINS_AT] = trains;
            assert_eq!(trains_in(&bytes).count(), told);
        }
    }

    #[test]
    fn a_time_is_as_the_header_has_it() {
        let time = time_bytes((0x0102_0304, 0xF102_F304));
        assert_eq!(time, [1, 2, 3, 4, 0xF1, 2, 0xF3, 4]);
    }

    #[test]
    fn a_report_and_a_place_are_as_the_header_has_them() {
        assert!(matches!(report_of(0, 7, 8.0), Some(Report::Missing)));
        assert!(matches!(report_of(1, 7, 8.0), Some(Report::Post(7))));
        assert!(matches!(report_of(2, 7, 8.0), Some(Report::Metres(8.0))));
        assert!(report_of(3, 7, 8.0).is_none() && report_of(255, 7, 8.0).is_none());
        let (section, nearest) = (5, 6);
        assert_eq!(place_bytes(Place::Nothing), [0, 0, 0]);
        assert_eq!(place_bytes(Place::At(4)), [1, 4, 4]);
        assert_eq!(place_bytes(Place::In { section, nearest }), [2, 5, 6]);
    }

    #[test]
    fn records_are_as_the_header_has_them() {
        let bytes: Vec<u8> = (1..=13).collect();
        let records = records_of(&bytes);
        let second = Record {
            kind: 6,
            train: 7,
            from: 8,
            to: 9,
            track: 10,
        };
        assert_eq!(records[1..], [second]);
        let mut journal = [0; 13];
        put_records(&records, &mut journal);
        assert_eq!(journal[..10], bytes[..10]);
        assert_eq!(journal[10..], [0; 3]);
        assert_eq!(JOURNAL_BYTES, 1180);
    }
}
