//! Place reports (02, card 8): posts, sections and nearest posts from a number's exact value. A
//! test or more for each sentence of the card.

use crate::common::*;
use crate::timing::{altered, at, resized, tens, TOP};
use model::*;

/// The posts of book M lie at 0, 1000 and 2001 metres.
const M: [u8; 25] = [
    0, 23, 3, 3, 1, 2, 1, 0, // up to the byte of sidings
    0, 0, 0, 0, 0, 0, 3, 0xE8, 0, 0, 7, 0xD1, // positions
    2, 0, 2, 2, 0, // trains
];
const M_POSTS: [u32; 3] = [0, 1000, 2001];

/// The posts of book N, with a section of one metre at the far end.
const N_POSTS: [u32; 3] = [0, TOP - 1, TOP];

/// The sign's bit, and the bits of the largest number below the normal ones.
const MINUS: u32 = 0x8000_0000;
const LARGEST_SUBNORMAL: u32 = 0x007F_FFFF;

/// What a report can be, right and wrong for most lines.
const REPORTS: [Report; 6] = [
    Report::Missing,
    Report::Post(0),
    Report::Post(255),
    Report::Metres(0.0),
    Report::Metres(-1.0),
    Report::Metres(f32::NAN),
];

fn metres(bits: u32) -> Report {
    Report::Metres(f32::from_bits(bits))
}

/// The bits of a number of half metres, which below 2^24 of them are exact.
fn halves(count: u32) -> u32 {
    (count as f32 / 2.0).to_bits()
}

fn within(section: u8, nearest: u8) -> Result<Place, u8> {
    Ok(Place::In { section, nearest })
}

/// The place on a line of these posts once more. 64-bit numbers have every 32-bit number, whole
/// metre and half metre exactly; the nearest is told by the middle of the section.
pub fn judged(posts: &[u32], report: Report) -> Result<Place, u8> {
    let reported = match report {
        Report::Missing => return Ok(Place::Nothing),
        Report::Post(post) if usize::from(post) < posts.len() => return Ok(Place::At(post)),
        Report::Post(_) => return Err(9),
        Report::Metres(metres) => f64::from(metres),
    };
    let posts: Vec<f64> = posts.iter().map(|post| f64::from(*post)).collect();
    if !(0.0..=posts[posts.len() - 1]).contains(&reported) {
        return Err(29);
    }
    let reached = posts.iter().filter(|post| **post <= reported).count() - 1;
    if posts[reached] == reported {
        return Ok(Place::At(reached as u8));
    }
    let past_middle = reported > (posts[reached] + posts[reached + 1]) / 2.0;
    within(reached as u8, reached as u8 + u8::from(past_middle))
}

/// The place that a number gives on a line of these posts; it is judged too.
fn placed(posts: &[u32], bits: u32) -> Result<Place, u8> {
    let came = place(&at(posts), metres(bits));
    assert_eq!(came, judged(posts, metres(bits)), "{posts:?} {bits:08X}");
    came
}

/// Whatever is reported, a refused book is refused.
pub fn all_reports_refused(book: &[u8], due: u8) {
    for report in REPORTS {
        assert_eq!(place(book, report), Err(due), "{book:?} {report:?}");
    }
}

/// The positions of 2 to 8 posts. On half of the lines all but the first lie at the far end, where
/// numbers are half a metre apart.
fn some_posts(rng: &mut Rng) -> Vec<u32> {
    let posts = rng.within(2, 8);
    let mut positions = rng.positions(posts.into());
    if rng.chance(50) {
        let up = TOP - positions[positions.len() - 1];
        positions[1..].iter_mut().for_each(|metres| *metres += up);
    }
    positions
}

fn last_of(posts: &[u32]) -> u32 {
    posts[posts.len() - 1]
}

// Worked places.

#[test]
fn places_in_book_m() {
    assert_eq!(at(&M_POSTS)[7..20], M[7..20]);
    for (bits, due) in [
        (0x447A_0000, Ok(Place::At(1))), // 1000
        (0x43FA_0000, within(0, 0)),     // 500
        (0x43FA_0001, within(0, 1)),
        (0x44BB_9000, within(1, 1)), // 1500.5
        (0x44BB_9001, within(1, 2)),
        (0x44FA_1FFF, within(1, 2)),
        (0x44FA_2000, Ok(Place::At(2))), // 2001
        (0x44FA_2001, Err(29)),
        (0x0000_0000, Ok(Place::At(0))),
        (0x8000_0000, Ok(Place::At(0))), // minus zero
        (0x0000_0001, within(0, 0)),
        (0x8000_0001, Err(29)),
        (0x7F80_0000, Err(29)), // the infinities
        (0xFF80_0000, Err(29)),
        (0x7FC0_0000, Err(29)), // not a number
        (0xFFC0_0000, Err(29)),
        (0x7F80_0001, Err(29)),
    ] {
        assert_eq!(place(&M, metres(bits)), due, "{bits:08X}");
        assert_eq!(placed(&M_POSTS, bits), due, "{bits:08X}");
    }
    assert_eq!(place(&M, Report::Post(2)), Ok(Place::At(2)));
    assert_eq!(place(&M, Report::Post(3)), Err(9));
    assert_eq!(place(&M, Report::Post(255)), Err(9));
    assert_eq!(place(&M, Report::Missing), Ok(Place::Nothing));
}

#[test]
fn places_in_book_n() {
    for (bits, due) in [
        (0x4A7F_FFFB, within(0, 0)),
        (0x4A7F_FFFC, within(0, 0)), // 4,194,303, the middle
        (0x4A7F_FFFD, within(0, 1)),
        (0x4AFF_FFFB, within(0, 1)),
        (0x4AFF_FFFC, Ok(Place::At(1))), // 8,388,606
        (0x4AFF_FFFD, within(1, 1)),     // the one number between the last two
        (0x4AFF_FFFE, Ok(Place::At(2))), // 8,388,607
        (0x4AFF_FFFF, Err(29)),
        (0x4B00_0000, Err(29)), // 8,388,608
    ] {
        assert_eq!(placed(&N_POSTS, bits), due, "{bits:08X}");
    }
}

/// In quarters of a metre, which are whole numbers, all along book M and beyond.
#[test]
fn every_quarter_metre() {
    for quarters in 0..=8100 {
        let due = match quarters {
            0 => Ok(Place::At(0)),
            1..=2000 => within(0, 0),
            2001..=3999 => within(0, 1),
            4000 => Ok(Place::At(1)),
            4001..=6002 => within(1, 1),
            6003..=8003 => within(1, 2),
            8004 => Ok(Place::At(2)),
            _ => Err(29),
        };
        let came = placed(&M_POSTS, (quarters as f32 / 4.0).to_bits());
        assert_eq!(came, due, "{quarters}");
    }
}

// "The answer for metres is the post if equal to its position, else the section, and also the
// nearest post, the lower at equal distance. All go by the number's exact value".

/// No other number is at the post, however near.
#[test]
fn just_below_at_and_just_above_a_post() {
    let mut rng = Rng(0x9057);
    for _ in 0..3000 {
        let posts = some_posts(&mut rng);
        for (post, position) in (0..).zip(&posts) {
            let bits = halves(2 * position);
            assert_eq!(placed(&posts, bits), Ok(Place::At(post)));
            let above = placed(&posts, bits + 1);
            assert_eq!(above == Err(29), *position == last_of(&posts));
            if let Ok(on_the_line) = above {
                assert_eq!(Ok(on_the_line), within(post, post));
            }
            if post > 0 {
                // Half a metre is the middle of a section of one metre.
                let before = posts[usize::from(post) - 1];
                let half_way = *position > 1 << 22 && before == position - 1;
                let nearest = post - u8::from(half_way);
                assert_eq!(placed(&posts, bits - 1), within(post - 1, nearest));
            }
        }
    }
}

#[test]
fn just_below_at_and_just_above_a_middle() {
    let mut rng = Rng(0x31DD1E);
    let mut next_to_posts = 0;
    for _ in 0..3000 {
        let posts = some_posts(&mut rng);
        for (section, pair) in (0..).zip(posts.windows(2)) {
            let middle = halves(pair[0] + pair[1]);
            assert_eq!(placed(&posts, middle), within(section, section));
            let around = [placed(&posts, middle - 1), placed(&posts, middle + 1)];
            // The middle may be the only number between two posts.
            if pair[1] - pair[0] == 1 && pair[0] >= 1 << 22 {
                assert_eq!(around, [section, section + 1].map(|p| Ok(Place::At(p))));
                next_to_posts += 1;
            } else {
                assert_eq!(around, [section, section + 1].map(|p| within(section, p)));
            }
        }
    }
    assert!(next_to_posts > 500, "{next_to_posts}");
}

/// The section is told from all others, and the nearest from all other posts.
#[test]
fn each_section_of_each_line() {
    for posts in 2..=8 {
        let positions = tens(posts);
        for section in 0..posts as u8 - 1 {
            for (tenths, nearest) in [(1, 0), (49, 0), (50, 0), (51, 1), (99, 1)] {
                let metres = 10.0 * f32::from(section) + tenths as f32 / 10.0;
                let came = placed(&positions, metres.to_bits());
                assert_eq!(came, within(section, section + nearest));
            }
        }
    }
}

/// Numbers below the smallest normal one are not zero.
#[test]
fn the_smallest_numbers() {
    let mut rng = Rng(0x5A11);
    for _ in 0..2000 {
        let posts = some_posts(&mut rng);
        let some = 1 + rng.below(LARGEST_SUBNORMAL.into()) as u32;
        for bits in [1, 2, some, LARGEST_SUBNORMAL, LARGEST_SUBNORMAL + 1] {
            assert_eq!(placed(&posts, bits), within(0, 0));
            assert_eq!(placed(&posts, MINUS | bits), Err(29));
        }
    }
}

/// The least and the largest number of each exponent, on the shortest line and on the longest.
#[test]
fn every_exponent() {
    for exponent in 0..=255 {
        for fraction in [0, 1, 1 << 22, 0x7F_FFFE, 0x7F_FFFF] {
            let bits = exponent << 23 | fraction;
            let minus = placed(&[0, TOP], MINUS | bits);
            assert_eq!(minus, if bits == 0 { Ok(Place::At(0)) } else { Err(29) });
            // 1 has the exponent 127, and 2^22 the exponent 149.
            let shortest = match (exponent, fraction) {
                (0, 0) => Ok(Place::At(0)),
                (127, 0) => Ok(Place::At(1)),
                (0..=125, _) | (126, 0) => within(0, 0),
                (126, _) => within(0, 1),
                _ => Err(29),
            };
            assert_eq!(placed(&[0, 1], bits), shortest, "{bits:08X}");
            let longest = match (exponent, fraction) {
                (0, 0) => Ok(Place::At(0)),
                (149, 0x7F_FFFE) => Ok(Place::At(1)),
                (0..=147, _) | (148, ..=0x7F_FFFE) => within(0, 0),
                (148, _) | (149, ..=0x7F_FFFD) => within(0, 1),
                _ => Err(29),
            };
            assert_eq!(placed(&[0, TOP], bits), longest, "{bits:08X}");
        }
    }
}

/// Any bits, and bits of numbers on the line, which rise as the numbers do.
#[test]
fn random_numbers() {
    let mut rng = Rng(0xB175);
    let (mut refused, mut lower, mut upper) = (0, 0, 0);
    for _ in 0..30_000 {
        let posts = some_posts(&mut rng);
        let last = halves(2 * last_of(&posts));
        let first = last.saturating_sub(1 << 26);
        let on_the_line = first + rng.below(u64::from(last - first)) as u32;
        let any = rng.word() as u32;
        for bits in [any, on_the_line, any % last, on_the_line | MINUS] {
            match placed(&posts, bits) {
                Ok(Place::In { section, nearest }) if nearest == section => lower += 1,
                Ok(Place::In { .. }) => upper += 1,
                Ok(_) => {}
                Err(_) => refused += 1,
            }
        }
    }
    let least = refused.min(lower).min(upper);
    assert!(least > 5000, "{refused} {lower} {upper}");
}

/// A larger number is never at a lower post or in a lower section, nor nearest to a lower post.
#[test]
fn places_rise_with_the_number() {
    let mut rng = Rng(0x215E);
    for _ in 0..2000 {
        let posts = some_posts(&mut rng);
        let last = halves(2 * last_of(&posts));
        let mut numbers: Vec<u32> = posts.iter().map(|metres| halves(2 * metres)).collect();
        numbers.extend((0..30).map(|_| last - rng.below(1 << 26) as u32 % last));
        numbers.sort();
        let ranks: Vec<(u8, u8)> = numbers
            .iter()
            .map(|bits| match placed(&posts, *bits).unwrap() {
                Place::At(post) => (2 * post, post),
                Place::In { section, nearest } => (2 * section + 1, nearest),
                Place::Nothing => panic!("a number is some place"),
            })
            .collect();
        assert_eq!(ranks[0], (0, 0));
        assert!(ranks.windows(2).all(|two| two[0].0 <= two[1].0));
        assert!(ranks.windows(2).all(|two| two[0].1 <= two[1].1));
        assert_eq!(usize::from(ranks[ranks.len() - 1].1), posts.len() - 1);
    }
}

// ".. minus zero is zero. A post number gives itself. Missing gives nothing and is accepted."

#[test]
fn what_needs_no_metres() {
    let mut rng = Rng(0x2E20);
    for posts in (2..=8).flat_map(|count| [tens(count), rng.positions(count)]) {
        assert_eq!(placed(&posts, 0), Ok(Place::At(0)));
        assert_eq!(placed(&posts, MINUS), Ok(Place::At(0)));
        let book = at(&posts);
        assert_eq!(place(&book, Report::Missing), Ok(Place::Nothing));
        // "A post number not in the line is 9."
        for post in 0..=255 {
            let in_the_line = usize::from(post) < posts.len();
            let due = if in_the_line {
                Ok(Place::At(post))
            } else {
                Err(9)
            };
            assert_eq!(place(&book, Report::Post(post)), due);
        }
    }
}

// "The edition 3 book is read first, as in card 5." The books of that card's tests are put to
// all_reports_refused too.

/// The faults of M in the order of the checks, last first: each alone, and each with those of
/// all later checks.
#[test]
fn the_book_comes_first() {
    let mut faulty = M.to_vec();
    for (byte, value, due) in [
        (24, 3, 18), // an end
        (20, 1, 14), // too few trains for the bytes
        (20, 7, 17), // trains
        (11, 1, 27), // the first position
        (7, 8, 23),  // sidings
        (4, 0, 16),  // tracks
        (3, 4, 14),  // too many posts for the bytes
        (3, 9, 15),  // posts
        (2, 2, 4),   // version
        (1, 24, 14), // length
    ] {
        all_reports_refused(&altered(&M, byte, value), due);
        faulty[byte] = value;
        all_reports_refused(&faulty, due);
    }
    all_reports_refused(&M[..3], 14);
    all_reports_refused(&[], 14);
}

/// Books of editions 1 and 2 are read and opened, but have no places, not for a missing report.
#[test]
fn only_edition_3_has_places() {
    let old = book_of(&[1, 2, 1], Some(0), &[(0, 2), (2, 0)]);
    for book in [&X[..], &old, &M] {
        assert_eq!(refusal_of(book), 0);
        for version in (0..=255).filter(|version| *version != 3) {
            let other = altered(book, 2, version);
            all_reports_refused(&other, 4);
            all_reports_refused(&[&other[..], &[0]].concat(), 14);
            all_reports_refused(&resized(&other, book.len() + 1), 4);
        }
    }
}

/// No train is placed: books that the opening refuses by 19 and 20 are answered.
#[test]
fn trains_do_not_matter() {
    for (second, due) in [((0, 1), 19), ((1, 0), 20)] {
        let book = book_with_positions(&[1, 1], 0, &[0, 1000], &[(0, 1), second]);
        assert_eq!(refusal_of(&book), due);
        for report in REPORTS.into_iter().chain([metres(halves(1001))]) {
            assert_eq!(place(&book, report), judged(&[0, 1000], report));
        }
    }
}
