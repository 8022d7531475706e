//! The C interface of the two ends, of running times and of places, and the proved library behind it.
//!
//! Nothing checks these declarations against the Rattle source: this is the only place that has
//! them. The C side asks two things of a caller, that each buffer has the length it names and that
//! no two buffers overlap, and slices give both.

/// The version of the library that these declarations are for: QUANGEVIT_VERSION of the header.
pub const VERSION: u32 = 800;

mod c {
    extern "C" {
        pub fn quangevit_version() -> u32;

        pub fn quangevit_read_book(
            book: *const u8,
            book_len: usize,
            line: *mut u8,
            line_len: usize,
        ) -> u32;

        pub fn quangevit_open(
            book: *const u8,
            book_len: usize,
            state: *mut u8,
            state_len: usize,
            table: *mut u8,
            table_len: usize,
            journal: *const u8,
            journal_len: usize,
        ) -> u32;

        pub fn quangevit_answer(
            state: *mut u8,
            state_len: usize,
            table: *const u8,
            table_len: usize,
            journal: *mut u8,
            journal_len: usize,
            frame: *const u8,
            frame_len: usize,
            out: *mut u8,
            out_len: usize,
        ) -> u32;

        pub fn quangevit_running_time(
            book: *const u8,
            book_len: usize,
            from: u8,
            to: u8,
            speed: u32,
            time: *mut u8,
            time_len: usize,
        ) -> u32;

        pub fn quangevit_locate(
            book: *const u8,
            book_len: usize,
            kind: u8,
            post: u8,
            metres: f32,
            place: *mut u8,
            place_len: usize,
        ) -> u32;

        pub fn quangevit_make_unit(
            train: u8,
            start: u8,
            end: u8,
            unit: *mut u8,
            unit_len: usize,
        ) -> u32;

        pub fn quangevit_press(
            unit: *mut u8,
            unit_len: usize,
            button: u8,
            frame: *mut u8,
            frame_len: usize,
        ) -> u32;

        pub fn quangevit_hear(
            unit: *mut u8,
            unit_len: usize,
            frame: *const u8,
            frame_len: usize,
        ) -> u32;
    }
}

/// The version of the library that is linked.
pub fn version() -> u32 {
    unsafe { c::quangevit_version() }
}

/// The eight functions of the C interface, for the two ends and for planners. Each answers the refusal's number in its
/// low byte and the number of frames written in the next.
pub trait Ends {
    /// Reads a book alone; the line it gives goes to `line`.
    fn read_book(&self, book: &[u8], line: &mut [u8]) -> u32;

    /// Opens a book: fills the table and gives the first state.
    fn open(&self, book: &[u8], state: &mut [u8], table: &mut [u8], journal: &[u8]) -> u32;

    /// The box's answer to a frame.
    fn answer(
        &self,
        state: &mut [u8],
        table: &[u8],
        journal: &mut [u8],
        frame: &[u8],
        out: &mut [u8],
    ) -> u32;

    /// The running time between two posts of a book at a speed, which goes to `time`.
    fn running_time(&self, book: &[u8], from: u8, to: u8, speed: u32, time: &mut [u8]) -> u32;

    /// The place of a report of a kind, which goes to `place`.
    fn locate(&self, book: &[u8], kind: u8, post: u8, metres: f32, place: &mut [u8]) -> u32;

    /// Makes the unit of a train.
    fn make_unit(&self, train: u8, start: u8, end: u8, unit: &mut [u8]) -> u32;

    /// A button is pressed; the frame it gives goes to `frame`.
    fn press(&self, unit: &mut [u8], button: u8, frame: &mut [u8]) -> u32;

    /// A frame is heard.
    fn hear(&self, unit: &mut [u8], frame: &[u8]) -> u32;
}

/// The proved ends, of the library that is linked. Inlined, so that to measure them is to measure the library.
pub struct Proved;

impl Ends for Proved {
    #[inline]
    fn read_book(&self, book: &[u8], line: &mut [u8]) -> u32 {
        unsafe { c::quangevit_read_book(book.as_ptr(), book.len(), line.as_mut_ptr(), line.len()) }
    }

    #[inline]
    fn open(&self, book: &[u8], state: &mut [u8], table: &mut [u8], journal: &[u8]) -> u32 {
        unsafe {
            c::quangevit_open(
                book.as_ptr(),
                book.len(),
                state.as_mut_ptr(),
                state.len(),
                table.as_mut_ptr(),
                table.len(),
                journal.as_ptr(),
                journal.len(),
            )
        }
    }

    #[inline]
    fn answer(
        &self,
        state: &mut [u8],
        table: &[u8],
        journal: &mut [u8],
        frame: &[u8],
        out: &mut [u8],
    ) -> u32 {
        unsafe {
            c::quangevit_answer(
                state.as_mut_ptr(),
                state.len(),
                table.as_ptr(),
                table.len(),
                journal.as_mut_ptr(),
                journal.len(),
                frame.as_ptr(),
                frame.len(),
                out.as_mut_ptr(),
                out.len(),
            )
        }
    }

    #[inline]
    fn running_time(&self, book: &[u8], from: u8, to: u8, speed: u32, time: &mut [u8]) -> u32 {
        unsafe {
            c::quangevit_running_time(
                book.as_ptr(),
                book.len(),
                from,
                to,
                speed,
                time.as_mut_ptr(),
                time.len(),
            )
        }
    }

    #[inline]
    fn locate(&self, book: &[u8], kind: u8, post: u8, metres: f32, place: &mut [u8]) -> u32 {
        unsafe {
            c::quangevit_locate(
                book.as_ptr(),
                book.len(),
                kind,
                post,
                metres,
                place.as_mut_ptr(),
                place.len(),
            )
        }
    }

    #[inline]
    fn make_unit(&self, train: u8, start: u8, end: u8, unit: &mut [u8]) -> u32 {
        unsafe { c::quangevit_make_unit(train, start, end, unit.as_mut_ptr(), unit.len()) }
    }

    #[inline]
    fn press(&self, unit: &mut [u8], button: u8, frame: &mut [u8]) -> u32 {
        unsafe {
            c::quangevit_press(
                unit.as_mut_ptr(),
                unit.len(),
                button,
                frame.as_mut_ptr(),
                frame.len(),
            )
        }
    }

    #[inline]
    fn hear(&self, unit: &mut [u8], frame: &[u8]) -> u32 {
        unsafe { c::quangevit_hear(unit.as_mut_ptr(), unit.len(), frame.as_ptr(), frame.len()) }
    }
}

#[cfg(test)]
mod tests {
    #[test]
    fn the_library_has_this_version() {
        assert_eq!(super::version(), super::VERSION);
    }
}
