//! The checks of a running time and of a place, each told apart from those before it: whether it would refuse if it
//! were reached.

use crate::asked::{About, Asked};
use inputs::books::with_length;
use inputs::encoding::{METRES, POST};
use inputs::sizes::{METRES_MOST, SPEED_MOST};
use std::ops::Range;

/// In an order that fits both calls.
#[derive(Debug, Clone, Copy, PartialEq, Eq)]
pub enum Check {
    /// The bytes lent for the answer.
    Room,
    /// Of a report.
    Kind,
    Length,
    Edition,
    Posts,
    /// The book ends before its trains.
    Ends,
    Tracks,
    Sidings,
    Positions,
    Trains,
    Total,
    Routes,
    PostsAsked,
    Speed,
    Metres,
}

/// The checks of a book, in their order.
const OF_BOOKS: [Check; 10] = [
    Check::Length,
    Check::Edition,
    Check::Posts,
    Check::Ends,
    Check::Tracks,
    Check::Sidings,
    Check::Positions,
    Check::Trains,
    Check::Total,
    Check::Routes,
];

impl Check {
    /// It looks at what is asked. Of a report only that is looked at which its kind names.
    fn is_met_by(self, about: About) -> bool {
        match (self, about) {
            (Check::PostsAsked, About::Place(report)) => report.kind == POST,
            (Check::Metres, About::Place(report)) => report.kind == METRES,
            _ => true,
        }
    }
}

/// The checks of a call, in their order.
fn checks(about: About) -> Vec<Check> {
    use Check::{Kind, Metres, PostsAsked, Room, Speed};
    let (before, after): (&[Check], [Check; 2]) = match about {
        About::Time(_) => (&[Room], [PostsAsked, Speed]),
        About::Place(_) => (&[Room, Kind], [PostsAsked, Metres]),
    };
    [before, &OF_BOOKS, &after].concat()
}

/// The first check that refuses.
pub fn first(asked: Asked) -> Option<Check> {
    let mut checks = checks(asked.about).into_iter();
    checks.find(|check| would_refuse(*check, asked))
}

/// Where the first check that refuses is followed by one that would refuse too: their place among all such neighbours.
pub fn neighbours(asked: Asked) -> Option<usize> {
    let first = first(asked)?;
    let checks = checks(asked.about);
    let is_later = |check: Check| check as usize > first as usize && check.is_met_by(asked.about);
    let next = checks.iter().position(|check| is_later(*check))?;
    would_refuse(checks[next], asked).then_some(next - 1)
}

pub fn would_refuse(check: Check, asked: Asked) -> bool {
    check.is_met_by(asked.about) && (refuses_book(check, asked.book) || refuses_rest(check, asked))
}

/// A byte that is not there is 0; of what is cut, the part that is there is looked at.
fn refuses_book(check: Check, book: &[u8]) -> bool {
    let posts = byte(book, 3);
    let trains = byte(book, trains_at(book));
    let routes_at = trains_at(book) + 1;
    let routes_end = routes_at + 2 * usize::from(trains);
    match check {
        Check::Length => book.len() < 4 || with_length(book.to_vec()) != book,
        Check::Edition => byte(book, 2) != 3,
        Check::Posts => !(2..=8).contains(&posts),
        Check::Ends => book.len() < routes_at,
        Check::Tracks => part(book, 4..sidings_at(book)).any(|count| !(1..=4).contains(&count)),
        Check::Sidings => u32::from(byte(book, sidings_at(book))) >> posts.min(8) != 0,
        Check::Positions => !are_right(&positions(book)),
        Check::Trains => !(1..=6).contains(&trains),
        Check::Total => book.len() != routes_end,
        Check::Routes => part(book, routes_at..routes_end).any(|post| post >= posts),
        _ => false,
    }
}

/// The buffer, and what is asked.
fn refuses_rest(check: Check, asked: Asked) -> bool {
    let posts = byte(asked.book, 3);
    match (check, asked.about) {
        (Check::Room, about) => asked.answer.len() != about.bytes(),
        (Check::PostsAsked, About::Time(question)) => question.from.max(question.to) >= posts,
        (Check::Speed, About::Time(question)) => !(1..=SPEED_MOST).contains(&question.speed),
        (Check::Kind, About::Place(report)) => report.kind > METRES,
        (Check::PostsAsked, About::Place(report)) => report.post >= posts,
        (Check::Metres, About::Place(report)) => !is_on_line(report.metres(), asked.book),
        _ => false,
    }
}

/// From the first post of a book to its last. Numbers of 64 bits have every one of 32 and every position exactly.
fn is_on_line(metres: f32, book: &[u8]) -> bool {
    let last = positions(book).last().copied().unwrap_or(0);
    (0.0..=f64::from(last)).contains(&f64::from(metres))
}

/// The positions that a book of edition 3 names, as many as are there.
pub fn positions(book: &[u8]) -> Vec<u32> {
    let places = sidings_at(book) + 1..trains_at(book);
    let bytes: Vec<u8> = part(book, places).collect();
    let metres = |four: &[u8]| u32::from_be_bytes([four[0], four[1], four[2], four[3]]);
    bytes.chunks_exact(4).map(metres).collect()
}

/// From 0, strictly rising, none too far.
pub fn are_right(positions: &[u32]) -> bool {
    positions.first().is_none_or(|metres| *metres == 0)
        && positions.windows(2).all(|two| two[0] < two[1])
        && positions.iter().all(|metres| *metres <= METRES_MOST)
}

/// Where the siding byte stands, then the positions.
pub fn sidings_at(book: &[u8]) -> usize {
    4 + usize::from(byte(book, 3))
}

/// Where edition 3 has the number of trains.
pub fn trains_at(book: &[u8]) -> usize {
    sidings_at(book) + 1 + 4 * usize::from(byte(book, 3))
}

fn byte(book: &[u8], at: usize) -> u8 {
    book.get(at).copied().unwrap_or(0)
}

/// The bytes at these places, as many as there are.
fn part(book: &[u8], places: Range<usize>) -> impl Iterator<Item = u8> + '_ {
    places.map_while(|at| book.get(at).copied())
}

#[cfg(test)]
mod tests {
    use super::*;
    use crate::model_ends::Model;
    use crate::questions::Question;
    use crate::reports::{Report, Survey};
    use crate::{books, questions};
    use inputs::books::{book_3, X};
    use inputs::encoding::MISSING;
    use inputs::random::Random;
    use inputs::sizes::{PLACE_BYTES, TIME_BYTES};

    impl Check {
        /// The number that it refuses with.
        pub fn number(self) -> u8 {
            match self {
                Check::Room => 1,
                Check::Kind => 5,
                Check::Length | Check::Ends | Check::Total => 14,
                Check::Edition => 4,
                Check::Posts => 15,
                Check::Tracks => 16,
                Check::Sidings => 23,
                Check::Positions => 27,
                Check::Trains => 17,
                Check::Routes => 18,
                Check::PostsAsked => 9,
                Check::Speed => 28,
                Check::Metres => 29,
            }
        }
    }

    /// Of what is asked about books of all kinds the model gives the number of the first check.
    fn the_first_refuses(about: fn(&[u8], &mut Random) -> About) {
        let random = &mut Random::new(7);
        let mut met = Vec::new();
        for _ in 0..100_000 {
            let (_, book) = books::any(random);
            let about = about(&book, random);
            let mut answer = vec![0; about.bytes()];
            let number = about.put(&Model, &book, &mut answer) as u8;
            let first = first(Asked {
                book: &book,
                about,
                answer: &answer,
            });
            assert_eq!(first.map_or(0, Check::number), number, "{book:?} {about:?}");
            met.extend(first);
        }
        let times = |check| met.iter().filter(|one| **one == check).count();
        let all = checks(about(&[], random));
        // The buffers have their length.
        assert!(all[1..].iter().all(|check| times(*check) > 100));
        assert!(all.is_sorted_by_key(|check| *check as usize));
    }

    #[test]
    fn the_first_that_would_refuse_a_question_is_the_one_that_does() {
        the_first_refuses(|book, random| About::Time(questions::about(book, random)));
    }

    #[test]
    fn the_first_that_would_refuse_a_report_is_the_one_that_does() {
        the_first_refuses(|book, random| About::Place(Survey::of(book).report(random)));
    }

    /// Where two checks follow each other that would both refuse what is asked, with so many bytes lent.
    fn told(book: &[u8], about: About, room: usize) -> Option<usize> {
        neighbours(Asked {
            book,
            about,
            answer: &vec![0; room],
        })
    }

    /// Four posts, to 1047 metres.
    fn four_posts() -> Vec<u8> {
        book_3(&[1; 4], 0, &[0, 3, 47, 1047], &[[0, 1]])
    }

    #[test]
    fn two_checks_that_would_refuse_a_question_are_told() {
        let book = four_posts();
        let to = |to| {
            let (from, speed) = (0, 161);
            About::Time(Question { from, to, speed })
        };
        assert_eq!(told(&book, to(4), TIME_BYTES), Some(11));
        assert_eq!(told(&book, to(3), TIME_BYTES), None);
        assert_eq!(told(&book, to(4), TIME_BYTES + 1), None);
        assert_eq!(told(&book[..9], to(0), TIME_BYTES - 1), Some(0));
        assert_eq!(told(&X[..9], to(0), TIME_BYTES), Some(1));
    }

    #[test]
    fn two_checks_that_would_refuse_a_report_are_told() {
        let mut book = four_posts();
        let past = 1048f32.to_bits();
        let report = |kind, post, bits| About::Place(Report { kind, post, bits });
        assert_eq!(told(&book, report(3, 4, past), PLACE_BYTES + 1), Some(0));
        assert_eq!(told(&book[..9], report(3, 4, past), PLACE_BYTES), Some(1));
        assert_eq!(told(&X[..9], report(0, 4, past), PLACE_BYTES), Some(2));
        *book.last_mut().unwrap() = 9;
        assert_eq!(told(&book, report(POST, 4, past), PLACE_BYTES), Some(11));
        assert_eq!(told(&book, report(POST, 3, past), PLACE_BYTES), None);
        assert_eq!(told(&book, report(METRES, 4, past), PLACE_BYTES), Some(12));
        assert_eq!(told(&book, report(METRES, 4, 0), PLACE_BYTES), None);
        assert_eq!(told(&book, report(MISSING, 4, past), PLACE_BYTES), None);
    }
}
