//! The built desk over reads that are short, and over reads that fail.
//!
//!     desk PROGRAM SHIM
//!
//! SHIM is `read.c` as a shared object. What must be printed is what the model says of a reader with the same reads.

use inputs::books::{book_3, X};
use inputs::frames::{frame, FA};
use inputs::sizes::LONGEST_BOOK;
use std::io::{self, Read, Write};
use std::process::{self, Command, Stdio};
use std::{env, fs};

/// No read fails.
const NEVER: usize = usize::MAX;

/// EINTR and EIO.
const ERRORS: [i32; 2] = [4, 5];

/// How an input is read: at most `most` bytes at a time, with one failure where `fails` bytes have been given.
#[derive(Clone, Copy)]
struct Reads {
    most: usize,
    fails: usize,
    error: i32,
}

/// The reader of `read.c`, for the model.
struct Fitful<'a> {
    bytes: &'a [u8],
    given: usize,
    failed: bool,
    reads: Reads,
}

impl Read for Fitful<'_> {
    fn read(&mut self, to: &mut [u8]) -> io::Result<usize> {
        if self.given == self.reads.fails && !self.failed {
            self.failed = true;
            return Err(io::Error::from_raw_os_error(self.reads.error));
        }
        let mut room = to.len().min(self.reads.most);
        if self.given < self.reads.fails {
            room = room.min(self.reads.fails - self.given);
        }
        let got = (&self.bytes[self.given..]).read(&mut to[..room])?;
        self.given += got;
        Ok(got)
    }
}

fn expected(bytes: &[u8], reads: Reads) -> String {
    model::program::run(&mut Fitful {
        bytes,
        given: 0,
        failed: false,
        reads,
    })
}

fn printed(program: &str, shim: &str, bytes: &[u8], reads: Reads) -> io::Result<String> {
    let mut child = Command::new(program)
        .env("LD_PRELOAD", shim)
        .env("READ_MOST", reads.most.to_string())
        .env("READ_FAILS", reads.fails.to_string())
        .env("READ_ERRNO", reads.error.to_string())
        .stdin(Stdio::piped())
        .stdout(Stdio::piped())
        .spawn()?;
    // The desk may end before all was written.
    let _ = child.stdin.take().map(|mut pipe| pipe.write_all(bytes));
    let output = child.wait_with_output()?;
    Ok(String::from_utf8_lossy(&output.stdout).into_owned())
}

/// A short input: a book, two requests and three bytes of a frame.
fn short_input(book: &[u8]) -> Vec<u8> {
    let ask = frame(FA, 0, 0, 1);
    [book, &ask, &ask, &ask[..3]].concat()
}

/// The longest book, with a siding where all trains end.
fn longest_book() -> Vec<u8> {
    let routes = [[0, 7], [0, 7], [0, 7], [0, 7], [1, 7], [1, 7]];
    let metres = [0, 700, 1500, 2600, 4000, 5900, 8200, 11_000];
    let book = book_3(&[4, 3, 1, 1, 1, 1, 1, 1], 0x80, &metres, &routes);
    assert_eq!(book.len(), LONGEST_BOOK);
    book
}

/// Every input with the ways in which it is read.
fn cases() -> io::Result<Vec<(String, Vec<u8>, Reads)>> {
    let mut all = Vec::new();
    let mut add = |name: &str, bytes: &[u8], most, fails, error| {
        let reads = Reads { most, fails, error };
        all.push((name.to_string(), bytes.to_vec(), reads));
    };
    for entry in fs::read_dir("crates/corpus/data")? {
        let path = entry?.path();
        let bytes = fs::read(&path)?;
        for most in [1, 3, 5, 11] {
            add(&path.to_string_lossy(), &bytes, most, NEVER, 0);
        }
    }
    let short = [
        ("the short input", short_input(&X)),
        (
            "the short input after the longest book",
            short_input(&longest_book()),
        ),
    ];
    for (name, bytes) in &short {
        for fails in 0..=bytes.len() {
            for error in ERRORS {
                for most in [1, 5, 4096] {
                    add(name, bytes, most, fails, error);
                }
            }
        }
    }
    Ok(all)
}

fn compare(program: &str, shim: &str) -> io::Result<usize> {
    let cases = cases()?;
    let mut different = 0;
    for (name, bytes, reads) in &cases {
        let want = expected(bytes, *reads);
        let have = printed(program, shim, bytes, *reads)?;
        if have != want {
            different += 1;
            let Reads { most, fails, error } = reads;
            println!(
                "{name}, {most} bytes a read, error {error} after {fails}: {have:?}, not {want:?}"
            );
        }
    }
    println!("{} runs of the desk, {different} differences", cases.len());
    Ok(different)
}

fn main() {
    let words: Vec<String> = env::args().skip(1).collect();
    let [program, shim] = &words[..] else {
        eprintln!("usage: desk PROGRAM SHIM");
        process::exit(2);
    };
    match compare(program, shim) {
        Ok(0) => {}
        Ok(_) => process::exit(1),
        Err(why) => {
            eprintln!("desk: {why}");
            process::exit(2);
        }
    }
}
