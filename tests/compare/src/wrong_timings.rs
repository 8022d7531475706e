//! Boxes that are wrong with running times.

use crate::model_ends::{tell, Model};
use crate::openings;
use crate::questions::Question;
use crate::wrong_boxes::{every_is_found, Fault, Time};
use boundary::Ends;
use inputs::encoding::time_bytes;
use inputs::sizes::{SPEED_MOST, TIME_BYTES};

fn by_model(book: &[u8], q: Question) -> Time {
    model::running_time(book, q.from, q.to, q.speed)
}

// ---- times

/// Seconds and rest, also for a speed that is none.
fn timed(metres: u32, speed: u32) -> (u32, u32) {
    let a_second = 5 * speed.max(1);
    (18 * metres / a_second, 18 * metres % a_second)
}

/// Where the model answers, seconds and rest by another rule for metres and speed.
fn by_rule(book: &[u8], q: Question, rule: fn(u32, u32) -> (u32, u32)) -> Time {
    by_way(book, q, |[from, to], _| from.abs_diff(to), rule)
}

/// Where the model answers, another way for the positions of the two posts, and another rule.
fn by_way(
    book: &[u8],
    q: Question,
    way: fn([u32; 2], Question) -> u32,
    rule: fn(u32, u32) -> (u32, u32),
) -> Time {
    by_model(book, q)?;
    let (_, metres) = model::read_book_with_positions(book)?;
    let ends = [q.from, q.to].map(|post| metres[usize::from(post)]);
    Ok(rule(way(ends, q), q.speed))
}

const OF_TIMES: [(&str, Fault); 15] = [
    (
        "seconds are rounded up",
        Fault::Times(|b, q| by_rule(b, q, |l, v| ((18 * l).div_ceil(5 * v), timed(l, v).1))),
    ),
    (
        "seconds are rounded to the nearest",
        Fault::Times(|b, q| by_rule(b, q, |l, v| ((18 * l + 5 * v / 2) / (5 * v), timed(l, v).1))),
    ),
    (
        "a rest of 5 v is left of the last second",
        Fault::Times(|b, q| {
            by_rule(b, q, |l, v| match timed(l, v) {
                (seconds @ 1.., 0) => (seconds - 1, 5 * v),
                time => time,
            })
        }),
    ),
    (
        "the rest is that of the metres",
        Fault::Times(|b, q| by_rule(b, q, |l, v| (timed(l, v).0, l % (5 * v)))),
    ),
    (
        "the rest is that by v",
        Fault::Times(|b, q| by_rule(b, q, |l, v| (timed(l, v).0, 18 * l % v))),
    ),
    (
        "the rest is in metres",
        Fault::Times(|b, q| by_rule(b, q, |l, v| (timed(l, v).0, timed(l, v).1 / 18))),
    ),
    (
        "5 and 18 are exchanged",
        Fault::Times(|b, q| by_rule(b, q, |l, v| (5 * l / (18 * v), 5 * l % (18 * v)))),
    ),
    (
        "seconds and rest are exchanged",
        Fault::Times(|b, q| by_model(b, q).map(|(seconds, rest)| (rest, seconds))),
    ),
    (
        "metres are cut to 16 bits",
        Fault::Times(|b, q| by_rule(b, q, |l, v| timed(l % 65_536, v))),
    ),
    (
        "18 metres are cut to 24 bits",
        Fault::Times(|b, q| {
            by_rule(b, q, |l, v| {
                let cut = 18 * l % (1 << 24);
                (cut / (5 * v), cut % (5 * v))
            })
        }),
    ),
    (
        "seconds are cut to 16 bits",
        Fault::Times(|b, q| by_model(b, q).map(|(seconds, rest)| (seconds % 65_536, rest))),
    ),
    (
        "the way is the sum of the positions",
        Fault::Times(|b, q| by_way(b, q, |[from, to], _| from + to, timed)),
    ),
    (
        "the way is from the first post on",
        Fault::Times(|b, q| by_way(b, q, |[_, to], _| to, timed)),
    ),
    (
        "the way is that of the post numbers",
        Fault::Times(|b, q| by_way(b, q, |_, q| q.from.abs_diff(q.to).into(), timed)),
    ),
    (
        "the way back takes no time",
        Fault::Times(|b, q| by_way(b, q, |[from, to], _| to.saturating_sub(from), timed)),
    ),
];

// ---- posts and speeds

/// As the model, but for the posts and the speeds that are let through. A post past the last has position 0.
fn letting(
    book: &[u8],
    q: Question,
    posts: fn(Question, u8) -> bool,
    speeds: fn(u32) -> bool,
) -> Time {
    let (line, metres) = model::read_book_with_positions(book)?;
    if !posts(q, line.posts) {
        return Err(9);
    }
    if !speeds(q.speed) {
        return Err(28);
    }
    let place = |post| metres.get(usize::from(post)).copied().unwrap_or(0);
    Ok(timed(place(q.from).abs_diff(place(q.to)), q.speed))
}

fn on_the_line(q: Question, posts: u8) -> bool {
    q.from.max(q.to) < posts
}

fn in_range(speed: u32) -> bool {
    (1..=SPEED_MOST).contains(&speed)
}

/// A speed that is cut to so many bits.
fn cut_to(bits: u32, q: Question) -> Question {
    Question {
        speed: q.speed % (1 << bits),
        ..q
    }
}

/// A book of another edition as if all its posts were at 0.
fn without_positions(book: &[u8], q: Question, edition: u8) -> Time {
    if book.get(2) != Some(&edition) {
        return by_model(book, q);
    }
    let line = model::read_book(book)?;
    match (on_the_line(q, line.posts), in_range(q.speed)) {
        (false, _) => Err(9),
        (true, false) => Err(28),
        (true, true) => Ok((0, 0)),
    }
}

/// A book that the opening refuses by this number is refused by it here too.
pub fn opened<T>(book: &[u8], answer: Result<T, u8>, number: u8) -> Result<T, u8> {
    let told = answer?;
    if openings::number(book) == number {
        Err(number)
    } else {
        Ok(told)
    }
}

const OF_QUESTIONS: [(&str, Fault); 17] = [
    (
        "the first post is not checked",
        Fault::Times(|b, q| letting(b, q, |q, posts| q.to < posts, in_range)),
    ),
    (
        "the second post is not checked",
        Fault::Times(|b, q| letting(b, q, |q, posts| q.from < posts, in_range)),
    ),
    (
        "the post behind the last is one",
        Fault::Times(|b, q| letting(b, q, |q, posts| q.from.max(q.to) <= posts, in_range)),
    ),
    (
        "every line has eight posts",
        Fault::Times(|b, q| letting(b, q, |q, _| q.from.max(q.to) < 8, in_range)),
    ),
    (
        "the last post is none",
        Fault::Times(|b, q| letting(b, q, |q, posts| on_the_line(q, posts - 1), in_range)),
    ),
    (
        "the higher post may not be first",
        Fault::Times(|b, q| {
            letting(
                b,
                q,
                |q, posts| on_the_line(q, posts) && q.from <= q.to,
                in_range,
            )
        }),
    ),
    (
        "one post twice is no way",
        Fault::Times(|b, q| {
            letting(
                b,
                q,
                |q, posts| on_the_line(q, posts) && q.from != q.to,
                in_range,
            )
        }),
    ),
    (
        "one post twice needs no speed",
        Fault::Times(|b, q| match by_model(b, q) {
            Err(28) if q.from == q.to => Ok((0, 0)),
            answer => answer,
        }),
    ),
    (
        "161 km/h is a speed",
        Fault::Times(|b, q| letting(b, q, on_the_line, |v| (1..=161).contains(&v))),
    ),
    (
        "160 km/h is none",
        Fault::Times(|b, q| letting(b, q, on_the_line, |v| (1..160).contains(&v))),
    ),
    (
        "0 km/h is a speed",
        Fault::Times(|b, q| letting(b, q, on_the_line, |v| v <= SPEED_MOST)),
    ),
    (
        "1 km/h is none",
        Fault::Times(|b, q| letting(b, q, on_the_line, |v| v != 1 && in_range(v))),
    ),
    (
        "the speed is cut to 8 bits",
        Fault::Times(|b, q| by_model(b, cut_to(8, q))),
    ),
    (
        "edition 1 is answered",
        Fault::Times(|b, q| without_positions(b, q, 1)),
    ),
    (
        "edition 2 is answered",
        Fault::Times(|b, q| without_positions(b, q, 2)),
    ),
    (
        "an overfull book is refused",
        Fault::Times(|b, q| opened(b, by_model(b, q), 19)),
    ),
    (
        "a book without a way through is refused",
        Fault::Times(|b, q| opened(b, by_model(b, q), 20)),
    ),
];

// ---- the bytes lent

/// The model's answer to a question, in a buffer of eight bytes.
fn told(book: &[u8], q: Question, time: &mut [u8]) -> u32 {
    Model.running_time(book, q.from, q.to, q.speed, time)
}

const OF_BYTES: [(&str, Fault); 8] = [
    (
        "a refusal clears the time",
        Fault::Tells(|b, q, time| {
            let answer = told(b, q, time);
            if answer != 0 {
                time.fill(0);
            }
            answer
        }),
    ),
    (
        "a speed that is none writes the time",
        Fault::Tells(|b, q, time| {
            let answer = told(b, q, time);
            if answer == 28 {
                time.fill(0);
            }
            answer
        }),
    ),
    (
        "the low bytes are first",
        Fault::Tells(|b, q, time| {
            let answer = told(b, q, time);
            if answer == 0 {
                time.chunks_exact_mut(4).for_each(<[u8]>::reverse);
            }
            answer
        }),
    ),
    (
        "the rest is written in its last two bytes",
        Fault::Tells(|b, q, time| {
            let before = time.to_vec();
            let answer = told(b, q, time);
            if answer == 0 {
                time[4..6].copy_from_slice(&before[4..6]);
            }
            answer
        }),
    ),
    (
        "a longer buffer is taken",
        Fault::Tells(|b, q, time| match time.len() {
            TIME_BYTES.. => tell(by_model(b, q).map(time_bytes), &mut time[..TIME_BYTES]),
            _ => 1,
        }),
    ),
    (
        "a shorter buffer is a short store",
        Fault::Tells(|b, q, time| match time.len() {
            ..TIME_BYTES => 2,
            _ => told(b, q, time),
        }),
    ),
    (
        "the buffer is measured last",
        Fault::Tells(|b, q, time| match by_model(b, q) {
            Ok(_) => told(b, q, time),
            Err(number) => number.into(),
        }),
    ),
    (
        "a time told counts as a frame sent",
        Fault::Tells(|b, q, time| match told(b, q, time) {
            0 => 1 << 8,
            answer => answer,
        }),
    ),
];

#[test]
fn every_box_wrong_with_times_is_found() {
    every_is_found(&OF_TIMES);
}

#[test]
fn every_box_wrong_with_questions_is_found() {
    every_is_found(&OF_QUESTIONS);
}

#[test]
fn every_box_that_writes_another_time_is_found() {
    every_is_found(&OF_BYTES);
}
