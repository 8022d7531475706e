//! The model behind the C interface: its structs as bytes, and the refusals that the bytes add.

use crate::reports::Report;
use boundary::Ends;
use inputs::encoding::{
    line_bytes, place_bytes, put_records, records_of, report_of, state_bytes, state_of, time_bytes,
    unit_bytes, unit_of, BUTTONS,
};
use inputs::sizes::{FRAME_BYTES, LINE_BYTES, PLACE_BYTES, STATE_BYTES, TIME_BYTES, UNIT_BYTES};
use model::{unit, Place, Verdict};

/// The model, with what the C interface adds to it: the lengths of the buffers for a line, a
/// state, a unit, a time and a place, bytes that encode nothing, numbers that are no button or no
/// kind of report.
pub struct Model;

impl Ends for Model {
    fn read_book(&self, book: &[u8], line: &mut [u8]) -> u32 {
        if line.len() != LINE_BYTES {
            return 1;
        }
        match model::read_book(book) {
            Ok(read) => {
                line.copy_from_slice(&line_bytes(&read));
                0
            }
            Err(number) => {
                line.fill(0);
                number.into()
            }
        }
    }

    fn open(&self, book: &[u8], state: &mut [u8], table: &mut [u8], journal: &[u8]) -> u32 {
        if state.len() != STATE_BYTES {
            return 1;
        }
        let (opened, number) = model::open(book, table, &records_of(journal));
        state.copy_from_slice(&state_bytes(&opened));
        number.into()
    }

    fn answer(
        &self,
        state: &mut [u8],
        table: &[u8],
        journal: &mut [u8],
        frame: &[u8],
        out: &mut [u8],
    ) -> u32 {
        let Some(before) = state_of(state) else {
            return 1;
        };
        let mut records = records_of(journal);
        let (after, verdict) = model::answer(&before, table, &mut records, frame, out);
        state.copy_from_slice(&state_bytes(&after));
        put_records(&records, journal);
        match verdict {
            Verdict::Refused(number) => number.into(),
            Verdict::Sent(frames) => (frames as u32) << 8,
        }
    }

    fn running_time(&self, book: &[u8], from: u8, to: u8, speed: u32, time: &mut [u8]) -> u32 {
        if time.len() != TIME_BYTES {
            return 1;
        }
        tell(
            model::running_time(book, from, to, speed).map(time_bytes),
            time,
        )
    }

    fn locate(&self, book: &[u8], kind: u8, post: u8, metres: f32, place: &mut [u8]) -> u32 {
        if place.len() != PLACE_BYTES {
            return 1;
        }
        let bits = metres.to_bits();
        let report = Report { kind, post, bits };
        tell(located(book, report).map(place_bytes), place)
    }

    fn make_unit(&self, train: u8, start: u8, end: u8, unit: &mut [u8]) -> u32 {
        if unit.len() != UNIT_BYTES {
            return 1;
        }
        let (made, number) = unit::make(train, start, end);
        unit.copy_from_slice(&unit_bytes(&made));
        number.into()
    }

    fn press(&self, unit: &mut [u8], button: u8, frame: &mut [u8]) -> u32 {
        let Some(before) = unit_of(unit).filter(unit::sound) else {
            return 1;
        };
        if frame.len() < FRAME_BYTES {
            return 2;
        }
        let Some(button) = BUTTONS.get(usize::from(button)) else {
            return 21;
        };
        let (after, number, given) = unit::press(&before, *button);
        unit.copy_from_slice(&unit_bytes(&after));
        match given {
            Some(bytes) => {
                frame[..FRAME_BYTES].copy_from_slice(&bytes);
                u32::from(number) | 1 << 8
            }
            None => number.into(),
        }
    }

    fn hear(&self, unit: &mut [u8], frame: &[u8]) -> u32 {
        let Some(before) = unit_of(unit) else {
            return 1;
        };
        let (after, number) = unit::hear(&before, frame);
        unit.copy_from_slice(&unit_bytes(&after));
        number.into()
    }
}

/// The place, or the number of the refusal.
pub type Located = Result<Place, u8>;

/// The place of a report, whose kind may be none.
pub fn located(book: &[u8], report: Report) -> Located {
    let report = report_of(report.kind, report.post, report.metres());
    model::place(book, report.ok_or(5)?)
}

/// Writes the bytes of an answer to those lent for it, as many; a refusal leaves them alone.
pub fn tell<const N: usize>(told: Result<[u8; N], u8>, lent: &mut [u8]) -> u32 {
    match told {
        Ok(bytes) => {
            lent.copy_from_slice(&bytes);
            0
        }
        Err(number) => number.into(),
    }
}
