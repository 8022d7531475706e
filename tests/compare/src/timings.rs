//! What came of questions about running times, by the model: what was answered, and for what a question was refused.

use crate::cases::{shown, Case, TimeCase};
use crate::checks::{are_right, positions};
use crate::openings;
use crate::questions::Question;
use inputs::sizes::{METRES_MOST, SPEED_MOST};

/// Trains with which an opening is quick enough to be made for a case.
const FEW_TRAINS: u8 = 2;

/// Of a question that was answered with this number.
pub fn of_question(book: &[u8], question: Question, refusal: u8) -> Vec<TimeCase> {
    match refusal {
        0 => of_answer(book, question),
        4 => {
            use TimeCase::{First, Later, OtherFault, Second};
            of_other_edition(book, [First, Second, Later, OtherFault])
        }
        9 => of_posts(book, question),
        27 => of_positions(&positions(book)),
        28 => of_speed(question.speed),
        _ => vec![],
    }
}

fn of_answer(book: &[u8], question: Question) -> Vec<TimeCase> {
    let Question { from, to, speed } = question;
    let (Ok((_, metres)), Ok((seconds, rest))) = (
        model::read_book_with_positions(book),
        model::running_time(book, from, to, speed),
    ) else {
        return vec![];
    };
    let way = metres[usize::from(from)].abs_diff(metres[usize::from(to)]);
    let opening = number_of_opening(book);
    shown([
        (rest == 0, TimeCase::NoRest),
        (rest > 0, TimeCase::Rest),
        (rest + 1 == 5 * speed, TimeCase::LargestRest),
        (seconds == 0 && rest > 0, TimeCase::UnderASecond),
        (from == to, TimeCase::OnePost),
        (from < to, TimeCase::Up),
        (from > to, TimeCase::Down),
        (from.max(to) == 7, TimeCase::EighthPost),
        (way == METRES_MOST, TimeCase::LongestWay),
        (speed == 1, TimeCase::Slowest),
        (speed == SPEED_MOST, TimeCase::Fastest),
        (opening == Some(19), TimeCase::Overfull),
        (opening == Some(20), TimeCase::NoWayThrough),
    ])
}

/// The number that a right book of few trains is opened with.
pub fn number_of_opening(book: &[u8]) -> Option<u8> {
    let line = model::read_book(book).ok()?;
    (line.trains <= FEW_TRAINS).then(|| openings::number(book))
}

/// Of a book of another edition: a right one of edition 1, of edition 2, a later one, or 4 comes before another fault.
pub fn of_other_edition<C: Case>(book: &[u8], [first, second, later, other]: [C; 4]) -> Vec<C> {
    let read = model::read_book(book);
    shown([
        (read.is_ok() && book[2] == 1, first),
        (read.is_ok() && book[2] == 2, second),
        (book[2] > 3, later),
        (read.is_err_and(|number| number != 4), other),
    ])
}

fn of_posts(book: &[u8], question: Question) -> Vec<TimeCase> {
    let Question { from, to, .. } = question;
    let posts = book[3];
    shown([
        (from >= posts && to < posts, TimeCase::FromOff),
        (from < posts && to >= posts, TimeCase::ToOff),
        (from.max(to) == posts, TimeCase::BehindTheLast),
        (from == to, TimeCase::OneOffTwice),
    ])
}

/// Of positions that are wrong: in which way alone.
pub fn of_positions(positions: &[u32]) -> Vec<TimeCase> {
    let too_far = |metres: &u32| *metres > METRES_MOST;
    let from_0 = positions[0] == 0;
    let equal = positions.windows(2).any(|two| two[0] == two[1]);
    let falling = positions.windows(2).any(|two| two[0] > two[1]);
    let [before, last] = [
        &positions[..positions.len() - 1],
        &positions[positions.len() - 1..],
    ]
    .map(|some| some.iter().any(too_far));
    let turned: Vec<u32> = positions.iter().map(|metres| metres.swap_bytes()).collect();
    let mut cases = match (from_0, equal, falling, before, last) {
        (false, false, false, false, false) => vec![TimeCase::NotFrom0],
        (true, true, false, false, false) => vec![TimeCase::Equal],
        (true, false, true, false, false) => vec![TimeCase::Falling],
        (true, false, false, false, true) => vec![TimeCase::LastTooFar],
        (true, false, false, true, true) => vec![TimeCase::MoreTooFar],
        (true, false, true, true, false) => vec![TimeCase::OneBeforeTooFar],
        _ => vec![],
    };
    cases.extend(are_right(&turned).then_some(TimeCase::LowByteFirst));
    cases
}

fn of_speed(speed: u32) -> Vec<TimeCase> {
    shown([
        (speed == 0, TimeCase::Standstill),
        (speed == SPEED_MOST + 1, TimeCase::OneTooFast),
        (
            speed > 255 && (1..=SPEED_MOST).contains(&(speed % 256)),
            TimeCase::RightInOneByte,
        ),
    ])
}

#[cfg(test)]
mod tests {
    use super::*;
    use inputs::books::{book, book_2, book_3, with_length, X};
    use TimeCase::*;

    /// The cases of a question about a book.
    fn told(book: &[u8], from: u8, to: u8, speed: u32) -> Vec<TimeCase> {
        let refusal = model::running_time(book, from, to, speed).err();
        let question = Question { from, to, speed };
        of_question(book, question, refusal.unwrap_or(0))
    }

    /// Four posts, with ways of 3, 44 and 1000 metres between them.
    fn four_posts() -> Vec<u8> {
        book_3(&[1; 4], 0, &[0, 3, 47, 1047], &[[0, 1]])
    }

    #[test]
    fn what_a_running_time_shows_is_told() {
        let book = four_posts();
        for (from, to, speed, cases) in [
            (2, 3, 60, &[NoRest, Up][..]),                     // 18,000 = 300 x 60
            (3, 2, 59, &[Rest, Down]),                         // 18,000 = 295 x 61 + 5
            (0, 1, 1, &[Rest, LargestRest, Up, Slowest]),      // 54 = 5 x 10 + 4
            (2, 1, 160, &[Rest, UnderASecond, Down, Fastest]), // 792 is below 800
            (3, 3, 7, &[NoRest, OnePost]),
        ] {
            assert_eq!(told(&book, from, to, speed), cases);
        }
        let far = [0, 1, 2, 3, 4, 5, 6, METRES_MOST];
        let longest = book_3(&[1; 8], 0, &far, &[[0, 1]]);
        assert_eq!(
            told(&longest, 7, 0, 2),
            [Rest, Down, EighthPost, LongestWay]
        );
        assert_eq!(told(&longest, 6, 0, 9), [Rest, Down]);
    }

    #[test]
    fn books_that_do_not_open_are_told() {
        for (routes, case) in [
            (&[[0, 1], [0, 1]][..], Some(Overfull)),
            (&[[0, 1], [1, 0]], Some(NoWayThrough)),
            (&[[0, 0], [1, 1]], None),
            (&[[0, 1], [1, 0], [1, 0]], None),
        ] {
            let book = book_3(&[1, 1], 0, &[0, 1000], routes);
            let cases = told(&book, 0, 1, 60);
            assert_eq!(cases[..2], [NoRest, Up]);
            assert_eq!(cases.get(2), case.as_ref());
        }
    }

    #[test]
    fn other_editions_are_told() {
        let routes = [[0, 1]];
        let mut later = four_posts();
        later[2] = 4;
        for (book, cases) in [
            (X.to_vec(), &[First][..]),
            (book_2(&[1, 1], 3, &routes), &[Second]),
            (book(&[1, 5], &routes), &[OtherFault]),
            (book_2(&[1, 1], 4, &routes), &[OtherFault]),
            (later, &[Later]),
            (with_length(vec![0, 0, 0, 9]), &[]),
        ] {
            assert_eq!(told(&book, 9, 9, 0), cases, "{book:?}");
        }
    }

    #[test]
    fn posts_and_speeds_are_told() {
        let book = four_posts();
        for (from, to, speed, cases) in [
            (4, 3, 0, &[FromOff, BehindTheLast][..]),
            (3, 5, 1, &[ToOff]),
            (4, 4, 1, &[BehindTheLast, OneOffTwice]),
            (5, 4, 1, &[]),
            (0, 1, 0, &[Standstill]),
            (0, 1, 161, &[OneTooFast]),
            (0, 1, 162, &[]),
            (0, 1, 256, &[]),
            (0, 1, 257, &[RightInOneByte]),
            (0, 1, 416, &[RightInOneByte]),
            (0, 1, 417, &[]),
        ] {
            assert_eq!(told(&book, from, to, speed), cases, "{from} {to} {speed}");
        }
    }

    #[test]
    fn what_is_wrong_with_positions_is_told() {
        const TOP: u32 = METRES_MOST;
        for (positions, cases) in [
            (&[1, 2, 3][..], &[NotFrom0][..]),
            (&[0, 2, 2], &[Equal]),
            (&[0, 3, 2], &[Falling]),
            (&[0, 2, TOP + 1], &[LastTooFar]),
            (&[0, TOP + 1, TOP + 2], &[MoreTooFar]),
            (&[0, TOP + 1, TOP], &[OneBeforeTooFar]),
            (&[0, 1 << 24, 2 << 24], &[MoreTooFar, LowByteFirst]),
            (&[2, 2, 3], &[]),
            (&[1, 0, 3], &[]),
            (&[0, 0, TOP + 1], &[]),
        ] {
            assert_eq!(of_positions(positions), cases, "{positions:?}");
        }
    }
}
