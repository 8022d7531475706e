//! What came of place reports, by the bytes that both sides wrote: where a report is, and for what it was refused.

use crate::cases::{shown, PlaceCase};
use crate::checks::positions;
use crate::reports::{middle, Report, MINUS};
use crate::timings::{number_of_opening, of_other_edition};
use inputs::encoding::{AT_POST, IN_SECTION, METRES, MISSING, POST};
use inputs::sizes::METRES_MOST;

const INFINITY: u32 = 0x7F80_0000;

/// The bit of a NaN that tells a quiet one.
pub const QUIET: u32 = 0x0040_0000;

/// Of a report that was answered with this number, and with this place where that is 0.
pub fn of_report(book: &[u8], report: Report, place: &[u8], refusal: u8) -> Vec<PlaceCase> {
    match (refusal, report.kind) {
        (0, METRES) => of_metres(book, report, place),
        (0, _) => of_others(book, report),
        (4, _) => {
            use PlaceCase::{First, Later, OtherFault, Second};
            of_other_edition(book, [First, Second, Later, OtherFault])
        }
        (5, kind) => of_kind(book, kind),
        (9, _) => shown([
            (report.post == book[3], PlaceCase::BehindTheLast),
            (report.post > book[3], PlaceCase::FarBehind),
        ]),
        (29, _) => of_no_place(report.bits, &positions(book)),
        _ => vec![],
    }
}

/// Of a right book about which a report was told: it does not open.
pub fn of_opening(book: &[u8]) -> Option<PlaceCase> {
    match number_of_opening(book)? {
        19 => Some(PlaceCase::Overfull),
        20 => Some(PlaceCase::NoWayThrough),
        _ => None,
    }
}

fn of_metres(book: &[u8], report: Report, place: &[u8]) -> Vec<PlaceCase> {
    let positions = positions(book);
    let number = usize::from(place[1]);
    let mut cases = match place[0] {
        AT_POST => at_post(report.bits, &positions, number),
        IN_SECTION => in_section(report.bits, &positions, number, usize::from(place[2])),
        _ => vec![],
    };
    cases.extend((report.post >= book[3]).then_some(PlaceCase::BesidePost));
    cases
}

fn at_post(bits: u32, positions: &[u32], post: usize) -> Vec<PlaceCase> {
    let last = positions.len() - 1;
    shown([
        (post == 0, PlaceCase::AtFirst),
        (post > 0 && post < last, PlaceCase::AtMiddle),
        (post == last, PlaceCase::AtLast),
        (positions[post] == METRES_MOST, PlaceCase::AtFarEnd),
        (bits == MINUS, PlaceCase::MinusZero),
    ])
}

fn in_section(bits: u32, positions: &[u32], section: usize, nearest: usize) -> Vec<PlaceCase> {
    let (low, high) = (positions[section], positions[section + 1]);
    let last = positions.len() - 2;
    let middle_bits = middle(low, high);
    let is_tie = bits == middle_bits;
    let is_whole = (low + high) % 2 == 0;
    shown([
        (section == 0, PlaceCase::InFirst),
        (section > 0 && section < last, PlaceCase::InMiddle),
        (section == last, PlaceCase::InLast),
        (!is_tie && nearest == section, PlaceCase::NearLower),
        (nearest > section, PlaceCase::NearUpper),
        (is_tie && is_whole, PlaceCase::TieWhole),
        (is_tie && !is_whole, PlaceCase::TieHalf),
        (is_tie && high - low == 1, PlaceCase::TieInAMetre),
        (bits + 1 == middle(high, high), PlaceCase::BelowPost),
        (bits == middle(low, low) + 1, PlaceCase::AbovePost),
        (bits + 1 == middle_bits, PlaceCase::BelowTie),
        (bits == middle_bits + 1, PlaceCase::AboveTie),
        (bits == 1, PlaceCase::Smallest),
    ])
}

/// Of a post number, and of a report that is missing: what stands beside it is not looked at.
fn of_others(book: &[u8], report: Report) -> Vec<PlaceCase> {
    let is_nan = report.metres().is_nan();
    let (post, missing) = (report.kind == POST, report.kind == MISSING);
    shown([
        (post, PlaceCase::Itself),
        (post && is_nan, PlaceCase::BesideNan),
        (missing && report.post >= book[3], PlaceCase::MissingPost),
        (missing && is_nan, PlaceCase::MissingNan),
    ])
}

/// Of a number that is no kind, which comes before whatever is wrong with the book.
fn of_kind(book: &[u8], kind: u8) -> Vec<PlaceCase> {
    let fault = match model::read_book_with_positions(book).err() {
        Some(14) => Some(PlaceCase::KindBefore14),
        Some(4) => Some(PlaceCase::KindBefore4),
        Some(15) => Some(PlaceCase::KindBefore15),
        Some(16) => Some(PlaceCase::KindBefore16),
        Some(23) => Some(PlaceCase::KindBefore23),
        Some(27) => Some(PlaceCase::KindBefore27),
        Some(17) => Some(PlaceCase::KindBefore17),
        Some(18) => Some(PlaceCase::KindBefore18),
        _ => None,
    };
    let next = if kind == METRES + 1 {
        PlaceCase::NextKind
    } else {
        PlaceCase::KindAbove
    };
    [next].into_iter().chain(fault).collect()
}

/// Of metres that are on no line, or not on this one.
fn of_no_place(bits: u32, positions: &[u32]) -> Vec<PlaceCase> {
    let last = positions.last().map_or(0, |last| middle(*last, *last));
    let (has_sign, size) = (bits & MINUS != 0, bits & !MINUS);
    let is_nan = size > INFINITY;
    let is_quiet = bits & QUIET != 0;
    shown([
        (bits == MINUS | 1, PlaceCase::SmallestBelow),
        (has_sign && size <= last, PlaceCase::BySign),
        (bits == last + 1, PlaceCase::PastTheLast),
        (bits == INFINITY, PlaceCase::Infinite),
        (bits == MINUS | INFINITY, PlaceCase::MinusInfinite),
        (is_nan && is_quiet, PlaceCase::Quiet),
        (is_nan && !is_quiet, PlaceCase::Signalling),
        (is_nan && has_sign, PlaceCase::NanWithSign),
    ])
}

#[cfg(test)]
mod tests {
    use super::*;
    use crate::model_ends::located;
    use inputs::books::{book, book_2, book_3, X};
    use inputs::encoding::place_bytes;
    use PlaceCase::*;

    /// The cases of a report about a book.
    fn told(book: &[u8], kind: u8, post: u8, bits: u32) -> Vec<PlaceCase> {
        let report = Report { kind, post, bits };
        match located(book, report) {
            Ok(place) => of_report(book, report, &place_bytes(place), 0),
            Err(number) => of_report(book, report, &[9; 3], number),
        }
    }

    /// Five posts; the middles of the sections are at 2, 7.5, 11.5 and far away.
    fn five_posts() -> Vec<u8> {
        book_3(&[1; 5], 0, &[0, 4, 11, 12, METRES_MOST], &[[0, 1]])
    }

    fn metres(metres: f32, steps: i32) -> Vec<PlaceCase> {
        let bits = metres.to_bits().wrapping_add_signed(steps);
        told(&five_posts(), METRES, 0, bits)
    }

    #[test]
    fn where_metres_are_is_told() {
        let most = METRES_MOST as f32;
        for (number, steps, cases) in [
            (0.0, 0, &[AtFirst][..]),
            (-0.0, 0, &[AtFirst, MinusZero]),
            (11.0, 0, &[AtMiddle]),
            (most, 0, &[AtLast, AtFarEnd]),
            (0.0, 1, &[InFirst, NearLower, AbovePost, Smallest]),
            (2.0, -1, &[InFirst, NearLower, BelowTie]),
            (2.0, 0, &[InFirst, TieWhole]),
            (2.0, 1, &[InFirst, NearUpper, AboveTie]),
            (4.0, -1, &[InFirst, NearUpper, BelowPost]),
            (7.5, 0, &[InMiddle, TieHalf]),
            (7.5, 2, &[InMiddle, NearUpper]),
            (11.5, 0, &[InMiddle, TieHalf, TieInAMetre]),
            (12.0, 2, &[InLast, NearLower]),
            (most, -1, &[InLast, NearUpper, BelowPost]),
        ] {
            assert_eq!(metres(number, steps), cases, "{number} {steps}");
        }
    }

    #[test]
    fn metres_without_a_place_are_told() {
        for (number, steps, cases) in [
            (-0.0, 1, &[SmallestBelow, BySign][..]),
            (-11.0, 0, &[BySign]),
            (METRES_MOST as f32, 1, &[PastTheLast]),
            (METRES_MOST as f32, 2, &[]),
            (f32::INFINITY, 0, &[Infinite]),
            (f32::INFINITY, 1, &[Signalling]),
            (f32::NEG_INFINITY, 0, &[MinusInfinite]),
            (f32::NEG_INFINITY, 1, &[Signalling, NanWithSign]),
            (-0.0, -1, &[Quiet]),
            (0.0, -1, &[Quiet, NanWithSign]),
        ] {
            assert_eq!(metres(number, steps), cases, "{number} {steps}");
        }
    }

    #[test]
    fn what_stands_beside_a_report_is_told() {
        let book = five_posts();
        let nan = f32::NAN.to_bits();
        for (kind, post, bits, cases) in [
            (METRES, 5, 0, &[AtFirst, BesidePost][..]),
            (POST, 4, 1, &[Itself]),
            (POST, 4, nan, &[Itself, BesideNan]),
            (POST, 5, nan, &[BehindTheLast]),
            (POST, 6, 0, &[FarBehind]),
            (MISSING, 4, 0, &[]),
            (MISSING, 5, 0, &[MissingPost]),
            (MISSING, 255, nan, &[MissingPost, MissingNan]),
        ] {
            assert_eq!(told(&book, kind, post, bits), cases, "{kind} {post}");
        }
    }

    #[test]
    fn kinds_and_books_that_are_refused_are_told() {
        let routes = [[0, 1]];
        let far = book_3(&[1, 1], 0, &[0, METRES_MOST + 1], &routes);
        for (book, kind, cases) in [
            (five_posts(), 3, &[NextKind][..]),
            (five_posts(), 4, &[KindAbove]),
            (X[..9].to_vec(), 255, &[KindAbove, KindBefore14]),
            (X.to_vec(), 3, &[NextKind, KindBefore4]),
            (far, 3, &[NextKind, KindBefore27]),
            (X.to_vec(), METRES, &[First]),
            (book_2(&[1, 1], 3, &routes), POST, &[Second]),
            (book(&[1, 5], &routes), MISSING, &[OtherFault]),
        ] {
            assert_eq!(told(&book, kind, 0, 0), cases, "{book:?} {kind}");
        }
    }

    #[test]
    fn books_that_do_not_open_are_told() {
        for (routes, case) in [
            (&[[0, 1], [0, 1]][..], Some(Overfull)),
            (&[[0, 1], [1, 0]], Some(NoWayThrough)),
            (&[[0, 0], [1, 1]], None),
            (&[[0, 1], [1, 0], [1, 0]], None),
        ] {
            let book = book_3(&[1, 1], 0, &[0, 1000], routes);
            assert_eq!(of_opening(&book), case);
        }
    }
}
