//! Boxes that are wrong with place reports.

use crate::asked::About;
use crate::model_ends::{located, tell, Located, Model};
use crate::places::QUIET;
use crate::reports::{Report, MINUS};
use crate::wrong_boxes::{agrees, every_is_found, Fault};
use crate::wrong_timings::opened;
use inputs::encoding::{place_bytes, METRES, MISSING, POST};
use inputs::sizes::{METRES_MOST, PLACE_BYTES};
use model::Place::{self, At, In, Nothing};

/// The positions of a right book.
fn positions(book: &[u8]) -> Result<Vec<u32>, u8> {
    let (line, positions) = model::read_book_with_positions(book)?;
    Ok(positions[..usize::from(line.posts)].to_vec())
}

/// Another answer to metres about a right book, by the model's, the number and the positions.
fn metres(book: &[u8], report: Report, other: impl Fn(Located, f32, &[u32]) -> Located) -> Located {
    let answer = located(book, report);
    match report.kind {
        METRES => other(answer, report.metres(), &positions(book)?),
        _ => answer,
    }
}

// ---- sections and the nearest post

/// In a section the lower post is taken for the nearest where the number and both positions say so.
fn nearest(book: &[u8], report: Report, is_lower: fn(f64, f64, f64) -> bool) -> Located {
    metres(book, report, |answer, number, positions| {
        let In { section, .. } = answer? else {
            return answer;
        };
        let at = usize::from(section);
        let [low, high] = [positions[at], positions[at + 1]].map(f64::from);
        let more = u8::from(!is_lower(number.into(), low, high));
        Ok(within(section, section + more))
    })
}

const OF_NEAREST: [(&str, Fault); 11] = [
    (
        "the upper post is nearest at equal distance",
        Fault::Places(|b, r| nearest(b, r, |x, low, high| x - low < high - x)),
    ),
    (
        "the lower post is always nearest",
        Fault::Places(|b, r| nearest(b, r, |_, _, _| true)),
    ),
    (
        "the upper post is always nearest",
        Fault::Places(|b, r| nearest(b, r, |_, _, _| false)),
    ),
    (
        "the middle is cut to whole metres",
        Fault::Places(|b, r| nearest(b, r, |x, low, high| x <= ((low + high) / 2.0).floor())),
    ),
    (
        "the middle is rounded up to whole metres",
        Fault::Places(|b, r| nearest(b, r, |x, low, high| x <= ((low + high) / 2.0).ceil())),
    ),
    (
        "twice the metres is cut to whole ones",
        Fault::Places(|b, r| nearest(b, r, |x, low, high| (2.0 * x).floor() <= low + high)),
    ),
    (
        "distances are cut to whole metres",
        Fault::Places(|b, r| nearest(b, r, |x, low, high| (x - low).floor() <= (high - x).floor())),
    ),
    (
        "distances are rounded to whole metres",
        Fault::Places(|b, r| nearest(b, r, |x, low, high| (x - low).round() <= (high - x).round())),
    ),
    (
        "one bit above equal distance is equal distance",
        Fault::Places(|b, r| {
            nearest(b, r, |x, low, high| {
                f64::from((x as f32).next_down()) <= (low + high) / 2.0
            })
        }),
    ),
    (
        "the middle is half of the section's length",
        Fault::Places(|b, r| nearest(b, r, |x, low, high| x <= (high - low) / 2.0)),
    ),
    (
        "the sum of two positions is cut to 16 bits",
        Fault::Places(|b, r| nearest(b, r, |x, low, high| 2.0 * x <= (low + high) % 65_536.0)),
    ),
];

/// Where metres are in a section: another place, by that, the nearest post and the last.
fn in_section(book: &[u8], report: Report, other: fn(u8, u8, u8) -> Place) -> Located {
    metres(book, report, |answer, _, positions| match answer? {
        In { section, nearest } => Ok(other(section, nearest, positions.len() as u8 - 1)),
        place => Ok(place),
    })
}

/// Where metres are at a post: another place, by that and the last.
fn at_post(book: &[u8], report: Report, other: fn(u8, u8) -> Place) -> Located {
    metres(book, report, |answer, _, positions| match answer? {
        At(post) => Ok(other(post, positions.len() as u8 - 1)),
        place => Ok(place),
    })
}

fn within(section: u8, nearest: u8) -> Place {
    In { section, nearest }
}

const OF_SECTIONS: [(&str, Fault); 9] = [
    (
        "a section has the number of its upper post",
        Fault::Places(|b, r| in_section(b, r, |section, nearest, _| within(section + 1, nearest))),
    ),
    (
        "section and nearest post are exchanged",
        Fault::Places(|b, r| in_section(b, r, |section, nearest, _| within(nearest, section))),
    ),
    (
        "sections are counted from the far end",
        Fault::Places(|b, r| {
            in_section(b, r, |section, nearest, last| {
                within(last - 1 - section, nearest)
            })
        }),
    ),
    (
        "the nearest post is counted from the section's lower one",
        Fault::Places(|b, r| {
            in_section(b, r, |section, nearest, _| {
                within(section, nearest - section)
            })
        }),
    ),
    (
        "in a section the unit is at the nearest post",
        Fault::Places(|b, r| in_section(b, r, |_, nearest, _| At(nearest))),
    ),
    (
        "a post is told as the section past it",
        Fault::Places(|b, r| at_post(b, r, |post, _| within(post, post))),
    ),
    (
        "the last post is told as the section before it",
        Fault::Places(|b, r| {
            at_post(b, r, |post, last| {
                if post == last {
                    within(post - 1, post)
                } else {
                    At(post)
                }
            })
        }),
    ),
    (
        "only the ends of the line are posts",
        Fault::Places(|b, r| {
            at_post(b, r, |post, last| {
                if post == 0 || post == last {
                    At(post)
                } else {
                    within(post, post)
                }
            })
        }),
    ),
    (
        "a post number is told as the section past it",
        Fault::Places(|b, r| match located(b, r) {
            Ok(At(post)) if r.kind == POST => Ok(within(post, post)),
            answer => answer,
        }),
    ),
];

// ---- the number's exact value

/// Metres are taken for others, by the positions of a right book.
fn taken_for(book: &[u8], report: Report, other: impl Fn(f32, &[u32]) -> f32) -> Located {
    metres(book, report, |_, number, positions| {
        let bits = other(number, positions).to_bits();
        located(book, Report { bits, ..report })
    })
}

/// Metres for which this is true are taken for zero.
fn zero_where(book: &[u8], report: Report, is_such: fn(f32) -> bool) -> Located {
    taken_for(book, report, |x, _| if is_such(x) { 0.0 } else { x })
}

/// Metres for which this is true, by the last position, are taken for that.
fn last_where(book: &[u8], report: Report, is_such: fn(f32, f32) -> bool) -> Located {
    taken_for(book, report, |x, posts| {
        let last = last(posts);
        if is_such(x, last) {
            last
        } else {
            x
        }
    })
}

/// The last of the positions.
fn last(positions: &[u32]) -> f32 {
    positions.last().map_or(0.0, |metres| *metres as f32)
}

/// At the first post that is such, and else where it is.
fn drawn_to(positions: &[u32], number: f32, is_such: fn(f32, f32) -> bool) -> f32 {
    let mut posts = positions.iter().map(|metres| *metres as f32);
    posts.find(|post| is_such(*post, number)).unwrap_or(number)
}

const OF_VALUES: [(&str, Fault); 12] = [
    (
        "metres are rounded to whole ones",
        Fault::Places(|b, r| taken_for(b, r, |x, _| x.round())),
    ),
    (
        "metres are cut to whole ones",
        Fault::Places(|b, r| taken_for(b, r, |x, _| x.trunc())),
    ),
    (
        "metres are rounded to half ones",
        Fault::Places(|b, r| taken_for(b, r, |x, _| (2.0 * x).round() / 2.0)),
    ),
    (
        "metres are rounded to millimetres",
        Fault::Places(|b, r| {
            taken_for(b, r, |x, _| {
                ((f64::from(x) * 1000.0).round() / 1000.0) as f32
            })
        }),
    ),
    (
        "the last bit is not looked at",
        Fault::Places(|b, r| taken_for(b, r, |x, _| f32::from_bits(x.to_bits() & !1))),
    ),
    (
        "the low half of the bits is not looked at",
        Fault::Places(|b, r| taken_for(b, r, |x, _| f32::from_bits(x.to_bits() & 0xFFFF_0000))),
    ),
    (
        "numbers below the normal ones are zero",
        Fault::Places(|b, r| zero_where(b, r, f32::is_subnormal)),
    ),
    (
        "numbers above zero and below the normal ones are zero",
        Fault::Places(|b, r| zero_where(b, r, |x| x > 0.0 && x.is_subnormal())),
    ),
    (
        "metres are measured from the last post",
        Fault::Places(|b, r| taken_for(b, r, |x, posts| last(posts) - (last(posts) - x))),
    ),
    (
        "within half a metre of a post is at it",
        Fault::Places(|b, r| {
            taken_for(b, r, |x, posts| {
                drawn_to(posts, x, |post, x| (post - x).abs() < 0.5)
            })
        }),
    ),
    (
        "one bit beside a post is at it",
        Fault::Places(|b, r| {
            taken_for(b, r, |x, posts| {
                drawn_to(posts, x, |post, x| {
                    post.to_bits().abs_diff(x.to_bits()) <= 1
                })
            })
        }),
    ),
    (
        "metres are cut to 16 bits",
        Fault::Places(|b, r| taken_for(b, r, |x, _| x % 65_536.0)),
    ),
];

// ---- 29

/// Metres for which this is true are refused by 29.
fn refused(book: &[u8], report: Report, is_refused: fn(f32, &[u32]) -> bool) -> Located {
    metres(book, report, |answer, number, positions| {
        if is_refused(number, positions) {
            Err(29)
        } else {
            answer
        }
    })
}

const OF_NO_PLACE: [(&str, Fault); 17] = [
    (
        "the last post is past the line",
        Fault::Places(|b, r| refused(b, r, |x, posts| x == last(posts))),
    ),
    (
        "8,388,607 metres are too far",
        Fault::Places(|b, r| refused(b, r, |x, _| x >= METRES_MOST as f32)),
    ),
    (
        "zero is not on the line",
        Fault::Places(|b, r| refused(b, r, |x, _| x == 0.0)),
    ),
    (
        "minus zero is below zero",
        Fault::Places(|b, r| refused(b, r, |x, _| x.to_bits() == MINUS)),
    ),
    (
        "past the last post is at it",
        Fault::Places(|b, r| last_where(b, r, |x, last| x > last)),
    ),
    (
        "less than a metre past the last post is at it",
        Fault::Places(|b, r| last_where(b, r, |x, last| x > last && x < last + 1.0)),
    ),
    (
        "one bit past the last post is at it",
        Fault::Places(|b, r| last_where(b, r, |x, last| x == last.next_up())),
    ),
    (
        "infinity is at the last post",
        Fault::Places(|b, r| last_where(b, r, |x, _| x == f32::INFINITY)),
    ),
    (
        "a NaN is at the last post",
        Fault::Places(|b, r| last_where(b, r, |x, _| x.is_nan())),
    ),
    (
        "minus infinity is at the first post",
        Fault::Places(|b, r| zero_where(b, r, |x| x == f32::NEG_INFINITY)),
    ),
    (
        "below zero is at the first post",
        Fault::Places(|b, r| zero_where(b, r, |x| x < 0.0)),
    ),
    (
        "less than a metre below zero is at the first post",
        Fault::Places(|b, r| zero_where(b, r, |x| x < 0.0 && x > -1.0)),
    ),
    (
        "the smallest number below zero is zero",
        Fault::Places(|b, r| zero_where(b, r, |x| x.to_bits() == MINUS | 1)),
    ),
    (
        "a NaN is zero",
        Fault::Places(|b, r| zero_where(b, r, f32::is_nan)),
    ),
    (
        "a signalling NaN is zero",
        Fault::Places(|b, r| zero_where(b, r, |x| x.is_nan() && x.to_bits() & QUIET == 0)),
    ),
    (
        "the sign is not looked at",
        Fault::Places(|b, r| taken_for(b, r, |x, _| x.abs())),
    ),
    (
        "9 for 29",
        Fault::Places(|b, r| located(b, r).map_err(|n| if n == 29 { 9 } else { n })),
    ),
];

// ---- post numbers, missing reports and kinds

/// A post number is let through where this is true, by the number of posts.
fn letting(book: &[u8], report: Report, is_let: fn(u8, u8) -> bool) -> Located {
    if report.kind != POST {
        return located(book, report);
    }
    let (line, _) = model::read_book_with_positions(book)?;
    if is_let(report.post, line.posts) {
        Ok(At(report.post))
    } else {
        Err(9)
    }
}

/// As of another kind.
fn of_kind(book: &[u8], report: Report, kind: u8) -> Located {
    located(book, Report { kind, ..report })
}

/// What stands beside a report of a kind is looked at as well, as if it were of another kind.
fn looking_at(book: &[u8], report: Report, kind: u8, other: u8) -> Located {
    let answer = located(book, report)?;
    if report.kind == kind {
        of_kind(book, report, other)?;
    }
    Ok(answer)
}

/// A missing report is answered otherwise.
fn missing(book: &[u8], report: Report, other: fn(Report) -> Located) -> Located {
    match located(book, report)? {
        Nothing => other(report),
        place => Ok(place),
    }
}

const OF_POSTS: [(&str, Fault); 15] = [
    (
        "a post number is not checked",
        Fault::Places(|b, r| letting(b, r, |_, _| true)),
    ),
    (
        "the post behind the last is one",
        Fault::Places(|b, r| letting(b, r, |post, posts| post <= posts)),
    ),
    (
        "every line has eight posts",
        Fault::Places(|b, r| letting(b, r, |post, _| post < 8)),
    ),
    (
        "the last post is none",
        Fault::Places(|b, r| letting(b, r, |post, posts| post < posts - 1)),
    ),
    (
        "29 for 9",
        Fault::Places(|b, r| located(b, r).map_err(|n| if n == 9 { 29 } else { n })),
    ),
    (
        "the metres beside a post number are looked at",
        Fault::Places(|b, r| looking_at(b, r, POST, METRES)),
    ),
    (
        "the post beside metres is looked at",
        Fault::Places(|b, r| looking_at(b, r, METRES, POST)),
    ),
    (
        "the post beside a missing report is looked at",
        Fault::Places(|b, r| looking_at(b, r, MISSING, POST)),
    ),
    (
        "the metres beside a missing report are looked at",
        Fault::Places(|b, r| looking_at(b, r, MISSING, METRES)),
    ),
    (
        "a missing report is refused by 5",
        Fault::Places(|b, r| missing(b, r, |_| Err(5))),
    ),
    (
        "a missing report is refused by 29",
        Fault::Places(|b, r| missing(b, r, |_| Err(29))),
    ),
    (
        "a missing report is at the first post",
        Fault::Places(|b, r| missing(b, r, |_| Ok(At(0)))),
    ),
    (
        "a missing report is at the post beside it",
        Fault::Places(|b, r| missing(b, r, |r| Ok(At(r.post)))),
    ),
    (
        "a missing report needs no book",
        Fault::Places(|b, r| match r.kind {
            MISSING => Ok(Nothing),
            _ => located(b, r),
        }),
    ),
    (
        "a post number needs no positions",
        Fault::Places(|b, r| match (located(b, r), r.kind) {
            (Err(27), POST) if r.post < b[3] => Ok(At(r.post)),
            (answer, _) => answer,
        }),
    ),
];

/// A book of another edition as if all its posts were at 0.
fn without_positions(book: &[u8], report: Report, edition: u8) -> Located {
    if book.get(2) != Some(&edition) || report.kind > METRES {
        return located(book, report);
    }
    let line = model::read_book(book)?;
    match report.kind {
        MISSING => Ok(Nothing),
        POST if report.post < line.posts => Ok(At(report.post)),
        POST => Err(9),
        _ if report.metres() == 0.0 => Ok(At(0)),
        _ => Err(29),
    }
}

const OF_KINDS: [(&str, Fault); 9] = [
    (
        "kind 3 is missing",
        Fault::Places(|b, r| of_kind(b, r, if r.kind == 3 { MISSING } else { r.kind })),
    ),
    (
        "kind 3 is metres",
        Fault::Places(|b, r| of_kind(b, r, if r.kind == 3 { METRES } else { r.kind })),
    ),
    (
        "every kind above is metres",
        Fault::Places(|b, r| of_kind(b, r, r.kind.min(METRES))),
    ),
    (
        "kinds are cut to two bits",
        Fault::Places(|b, r| of_kind(b, r, r.kind % 4)),
    ),
    (
        "kinds of posts and metres are exchanged",
        Fault::Places(|b, r| match r.kind {
            POST => of_kind(b, r, METRES),
            METRES => of_kind(b, r, POST),
            _ => located(b, r),
        }),
    ),
    (
        "edition 1 is answered",
        Fault::Places(|b, r| without_positions(b, r, 1)),
    ),
    (
        "edition 2 is answered",
        Fault::Places(|b, r| without_positions(b, r, 2)),
    ),
    (
        "an overfull book is refused",
        Fault::Places(|b, r| opened(b, located(b, r), 19)),
    ),
    (
        "a book without a way through is refused",
        Fault::Places(|b, r| opened(b, located(b, r), 20)),
    ),
];

// ---- the bytes lent

/// The model's answer to a report.
fn by_model(book: &[u8], report: Report, place: &mut [u8]) -> u32 {
    About::Place(report).put(&Model, book, place)
}

/// After an answer by this number the place is mended.
fn mended(
    number: u32,
    lent: (&[u8], Report, &mut [u8]),
    mend: impl Fn(Report, &[u8], &mut [u8]),
) -> u32 {
    let (book, report, place) = lent;
    let before = place.to_vec();
    let answer = by_model(book, report, place);
    if answer == number {
        mend(report, &before, place);
    }
    answer
}

const OF_BYTES: [(&str, Fault); 16] = [
    (
        "a refused book clears the place",
        Fault::TellsPlace(|b, r, place| mended(4, (b, r, place), |_, _, place| place.fill(0))),
    ),
    (
        "29 clears the place",
        Fault::TellsPlace(|b, r, place| mended(29, (b, r, place), |_, _, place| place.fill(0))),
    ),
    (
        "9 writes the post",
        Fault::TellsPlace(|b, r, place| mended(9, (b, r, place), |r, _, place| place[1] = r.post)),
    ),
    (
        "5 clears the place",
        Fault::TellsPlace(|b, r, place| mended(5, (b, r, place), |_, _, place| place.fill(0))),
    ),
    (
        "1 clears the place",
        Fault::TellsPlace(|b, r, place| mended(1, (b, r, place), |_, _, place| place.fill(0))),
    ),
    (
        "a missing report writes nothing",
        Fault::TellsPlace(|b, r, place| {
            mended(0, (b, r, place), |r, before, place| {
                if r.kind == MISSING {
                    place.copy_from_slice(before);
                }
            })
        }),
    ),
    (
        "a missing report writes its sort alone",
        Fault::TellsPlace(|b, r, place| {
            mended(0, (b, r, place), |r, before, place| {
                if r.kind == MISSING {
                    place[1..].copy_from_slice(&before[1..]);
                }
            })
        }),
    ),
    (
        "the nearest post is not written",
        Fault::TellsPlace(|b, r, place| {
            mended(0, (b, r, place), |_, before, place| place[2] = before[2])
        }),
    ),
    (
        "at a post the nearest is 0",
        Fault::TellsPlace(|b, r, place| {
            mended(0, (b, r, place), |_, _, place| {
                if place[0] == 1 {
                    place[2] = 0;
                }
            })
        }),
    ),
    (
        "the sorts of posts and sections are exchanged",
        Fault::TellsPlace(|b, r, place| {
            mended(0, (b, r, place), |_, _, place| {
                if place[0] != 0 {
                    place[0] = 3 - place[0];
                }
            })
        }),
    ),
    (
        "the bytes stand the other way round",
        Fault::TellsPlace(|b, r, place| mended(0, (b, r, place), |_, _, place| place.reverse())),
    ),
    (
        "a longer buffer is taken",
        Fault::TellsPlace(|b, r, place| match place.len() {
            PLACE_BYTES.. => tell(located(b, r).map(place_bytes), &mut place[..PLACE_BYTES]),
            _ => 1,
        }),
    ),
    (
        "a shorter buffer is a short store",
        Fault::TellsPlace(|b, r, place| match place.len() {
            ..PLACE_BYTES => 2,
            _ => by_model(b, r, place),
        }),
    ),
    (
        "the buffer is measured last",
        Fault::TellsPlace(|b, r, place| match located(b, r) {
            Ok(_) => by_model(b, r, place),
            Err(number) => number.into(),
        }),
    ),
    (
        "the kind is checked after the book",
        Fault::TellsPlace(|b, r, place| match (by_model(b, r, place), positions(b)) {
            (5, Err(number)) => number.into(),
            (answer, _) => answer,
        }),
    ),
    (
        "a place told counts as a frame sent",
        Fault::TellsPlace(|b, r, place| match by_model(b, r, place) {
            0 => 1 << 8,
            answer => answer,
        }),
    ),
];

/// It is the fault that is found: each way of making one, with the right rule, agrees with the model.
#[test]
fn a_box_with_the_right_rules_is_not_found() {
    let right = [
        Fault::Places(|b, r| nearest(b, r, |x, low, high| x <= (low + high) / 2.0)),
        Fault::Places(|b, r| in_section(b, r, |section, nearest, _| within(section, nearest))),
        Fault::Places(|b, r| at_post(b, r, |post, _| At(post))),
        Fault::Places(|b, r| taken_for(b, r, |x, posts| drawn_to(posts, x, |post, x| post == x))),
        Fault::Places(|b, r| zero_where(b, r, |x| x == 0.0)),
        Fault::Places(|b, r| last_where(b, r, |x, last| x == last)),
        Fault::Places(|b, r| refused(b, r, |x, posts| !(0.0..=last(posts)).contains(&x))),
        Fault::Places(|b, r| letting(b, r, |post, posts| post < posts)),
        Fault::Places(|b, r| looking_at(b, r, METRES, METRES)),
        Fault::Places(|b, r| missing(b, r, |_| Ok(Nothing))),
        Fault::Places(|b, r| without_positions(b, r, 4)),
        Fault::TellsPlace(|b, r, place| mended(0, (b, r, place), |_, _, _| ())),
    ];
    assert!(right.into_iter().all(|fault| agrees(fault, 20_000)));
}

#[test]
fn every_box_wrong_with_the_nearest_post_is_found() {
    every_is_found(&OF_NEAREST);
}

#[test]
fn every_box_wrong_with_sections_is_found() {
    every_is_found(&OF_SECTIONS);
}

#[test]
fn every_box_that_changes_metres_is_found() {
    every_is_found(&OF_VALUES);
}

#[test]
fn every_box_wrong_with_metres_off_the_line_is_found() {
    every_is_found(&OF_NO_PLACE);
}

#[test]
fn every_box_wrong_with_posts_and_missing_reports_is_found() {
    every_is_found(&OF_POSTS);
}

#[test]
fn every_box_wrong_with_kinds_and_editions_is_found() {
    every_is_found(&OF_KINDS);
}

#[test]
fn every_box_that_writes_another_place_is_found() {
    every_is_found(&OF_BYTES);
}
