//! Running time (02, card 5): books of edition 3, and whole seconds and rest between two posts. A
//! test or more for each sentence of the card.

use crate::common::*;
use crate::place::all_reports_refused;
use crate::runs::Run;
use crate::tally::Tally;
use model::*;

/// The highest position.
pub const TOP: u32 = 8_388_607;

/// The line of X with a siding at post 2. The posts lie at 0, 66,051 and 8,323,330 metres, which is
/// 00 01 02 03 and 00 7F 01 02.
const THREE: [u8; 25] = [
    0, 23, 3, 3, 1, 2, 1, 4, // up to the byte of sidings
    0, 0, 0, 0, 0, 1, 2, 3, 0, 127, 1, 2, // positions
    2, 0, 2, 2, 0, // trains
];

/// The same book of edition 2.
const TWO: [u8; 13] = [0, 11, 2, 3, 1, 2, 1, 4, 2, 0, 2, 2, 0];

/// A book with these positions, of a line with one track a post and one train.
pub fn at(positions: &[u32]) -> Vec<u8> {
    book_with_positions(&vec![1; positions.len()], 0, positions, &[(0, 1)])
}

/// The positions of so many posts, ten metres apart.
pub fn tens(posts: usize) -> Vec<u32> {
    (0..10 * posts as u32).step_by(10).collect()
}

/// The same bytes with one of them altered.
pub fn altered(book: &[u8], place: usize, byte: u8) -> Vec<u8> {
    let mut bytes = book.to_vec();
    bytes[place] = byte;
    bytes
}

/// The same book cut or filled up with 0 to so many bytes, which its length names.
pub fn resized(book: &[u8], length: usize) -> Vec<u8> {
    let mut bytes = altered(book, 1, length as u8 - 2);
    bytes.resize(length, 0);
    bytes
}

/// The refusal of a book, 0 if none, whoever reads it. It is read before posts and speed are looked
/// at, of which both are wrong here, and before a place report.
fn number(book: &[u8]) -> u8 {
    let number = read_book(book).err().unwrap_or(0);
    let with_positions = read_book_with_positions(book);
    assert_eq!(with_positions.err().unwrap_or(0), number, "{book:?}");
    let due = if number == 0 { 9 } else { number };
    assert_eq!(running_time(book, 0, 9, 0), Err(due), "{book:?}");
    if number != 0 {
        all_reports_refused(book, number);
    }
    number
}

// "Book edition 3 adds each post's position in metres as four bytes after the siding byte, counted
// in its length checks."

#[test]
fn a_book_of_edition_3_byte_by_byte() {
    let line = Line {
        posts: 3,
        tracks: [1, 2, 1, 0, 0, 0, 0, 0],
        sidings: 4,
        trains: 2,
        starts: [0, 2, 0, 0, 0, 0],
        ends: [2, 0, 0, 0, 0, 0],
    };
    let positions = [0, 66_051, 8_323_330, 0, 0, 0, 0, 0];
    assert_eq!(read_book_with_positions(&THREE), Ok((line, positions)));
    assert_eq!(read_book(&THREE), Ok(line));
    // The tests' own books are laid out so too.
    let trains = [(0, 2), (2, 0)];
    let again = book_with_positions(&[1, 2, 1], 4, &positions[..3], &trains);
    assert_eq!(again, THREE);
    // Edition 2 has the same bytes but for the positions.
    let without = [&THREE[..8], &THREE[20..]].concat();
    assert_eq!(altered(&resized(&without, 13), 2, 2), TWO);
    assert_eq!(read_book(&TWO), Ok(line));
}

/// A book has 6 + 5 P + 2 T bytes; of any other length, named right, it is torn.
#[test]
fn the_length_of_a_book() {
    for posts in 2..=8 {
        for trains in 1..=6 {
            let whole =
                book_with_positions(&vec![4; posts], 0, &tens(posts), &vec![(0, 1); trains]);
            assert_eq!(whole.len(), 6 + 5 * posts + 2 * trains);
            for length in 4..=70 {
                let due = if length == whole.len() { 0 } else { 14 };
                assert_eq!(number(&resized(&whole, length)), due);
            }
            // The length that is named counts, high byte too.
            for (place, byte) in [(0, 1), (1, whole[1] - 1), (1, whole[1] + 1)] {
                assert_eq!(number(&altered(&whole, place, byte)), 14);
            }
        }
    }
    assert_eq!(LONGEST_BOOK, 58);
}

/// Under 6 + 5 P bytes nothing after the number of posts is looked at, and from there on all is.
#[test]
fn too_short_for_the_number_of_trains() {
    for posts in 2..=8 {
        let least = 6 + 5 * posts;
        for length in 4..=least {
            let mut wrong = vec![255; length];
            wrong[..4].copy_from_slice(&[0, length as u8 - 2, 3, posts as u8]);
            let due = if length < least { 14 } else { 16 };
            assert_eq!(number(&wrong), due, "{posts} posts, {length} bytes");
        }
        // The last of these bytes is the number of trains.
        let whole = resized(&at(&tens(posts)), least);
        for (trains, due) in [(0, 17), (1, 14), (6, 14), (7, 17)] {
            assert_eq!(number(&altered(&whole, least - 1, trains)), due);
        }
    }
    // Books of the other editions are too short as they are.
    assert_eq!(number(&altered(&X, 2, 3)), 14);
    assert_eq!(number(&altered(&TWO, 2, 3)), 14);
}

/// Each book has the fault of the next one too.
#[test]
fn books_of_edition_3_in_order_of_checks() {
    let books: [(&[u8], u8); 12] = [
        (&[0, 9, 4], 14),
        (&[0, 3, 4, 9], 14),
        (&[0, 2, 4, 9], 4),
        (&[0, 2, 3, 9], 15),
        (&[0, 13, 3, 2, 5, 1, 4, 0, 0, 0, 1, 0, 0, 0, 1], 14),
        (&[0, 14, 3, 2, 5, 1, 4, 0, 0, 0, 1, 0, 0, 0, 1, 0], 16),
        (&[0, 14, 3, 2, 4, 1, 4, 0, 0, 0, 1, 0, 0, 0, 1, 0], 23),
        (&[0, 14, 3, 2, 4, 1, 3, 0, 0, 0, 1, 0, 0, 0, 1, 0], 27),
        (&[0, 15, 3, 2, 4, 1, 3, 0, 0, 0, 0, 0, 0, 0, 1, 7, 2], 17),
        (&[0, 15, 3, 2, 4, 1, 3, 0, 0, 0, 0, 0, 0, 0, 1, 1, 2], 14),
        (&[0, 16, 3, 2, 4, 1, 3, 0, 0, 0, 0, 0, 0, 0, 1, 1, 2, 0], 18),
        (&[0, 16, 3, 2, 4, 1, 3, 0, 0, 0, 0, 0, 0, 0, 1, 1, 1, 0], 0),
    ];
    for (book, due) in books {
        assert_eq!(number(book), due, "{book:?}");
        assert_eq!(refusal_of(book), due, "{book:?}");
    }
    // From 23 on, each of these faults alone.
    let right = books[11].0;
    for (place, byte, due) in [
        (6, 4, 23),
        (14, 0, 27),
        (15, 0, 17),
        (15, 2, 14),
        (17, 2, 18),
    ] {
        assert_eq!(number(&altered(right, place, byte)), due);
    }
}

// "For two posts L metres apart and a speed of v km/h the answer is whole seconds q and the rest r,
// where 18 x L = 5 x v x q + r and r is below 5 x v."

/// Metres, speed, whole seconds and rest, worked out by hand.
const TIMES: [(u32, u32, u32, u32); 13] = [
    (1000, 60, 60, 0),        // 18,000 = 300 x 60
    (1234, 50, 88, 212),      // 22,212 = 250 x 88 + 212
    (1, 160, 0, 18),          // 18 is below 800
    (750, 25, 108, 0),        // 13,500 = 125 x 108
    (TOP, 1, 30_198_985, 1),  // 150,994,926 = 5 x 30,198,985 + 1
    (TOP, 160, 188_743, 526), // 150,994,926 = 800 x 188,743 + 526
    (1, 1, 3, 3),             // 18 = 5 x 3 + 3
    (3, 1, 10, 4),            // 54 = 5 x 10 + 4, the largest rest at 1 km/h
    (100, 36, 10, 0),         // ten metres a second
    (5, 18, 1, 0),            // 90 = 90 x 1
    (44, 160, 0, 792),        // 792 is below 800
    (45, 160, 1, 10),         // 810 = 800 x 1 + 10
    (311, 160, 6, 798),       // 5,598 = 800 x 6 + 798
];

#[test]
fn worked_times() {
    for (metres, speed, seconds, rest) in TIMES {
        let book = at(&[0, metres]);
        assert_eq!(running_time(&book, 0, 1, speed), Ok((seconds, rest)));
    }
    // Of THREE: 1,188,918 = 400 x 2972 + 118; 149,819,940 = 400 x 374,549 + 340; and the
    // difference, 148,631,022 = 400 x 371,577 + 222.
    assert_eq!(running_time(&THREE, 0, 1, 80), Ok((2972, 118)));
    assert_eq!(running_time(&THREE, 0, 2, 80), Ok((374_549, 340)));
    assert_eq!(running_time(&THREE, 1, 2, 80), Ok((371_577, 222)));
}

/// All pairs that the sentence allows, in 64 bits: of the rests below 5 x v those that leave a
/// multiple of 5 x v.
fn pairs_that_fit(metres: u32, speed: u32) -> Vec<(u32, u32)> {
    let (way, bound) = (18 * i64::from(metres), 5 * i64::from(speed));
    let leaves_a_multiple = |rest: &i64| way >= *rest && (way - rest) % bound == 0;
    (0..bound)
        .filter(leaves_a_multiple)
        .map(|rest| (((way - rest) / bound) as u32, rest as u32))
        .collect()
}

/// The pair by counting seconds off the way, one after the other.
fn counted_off(metres: u32, speed: u32) -> (u32, u32) {
    let (mut seconds, mut rest) = (0, 18 * metres);
    while rest >= 5 * speed {
        rest -= 5 * speed;
        seconds += 1;
    }
    (seconds, rest)
}

/// "Two posts L metres apart": whichever is asked first, and the same post twice.
#[test]
fn the_only_pair_that_fits() {
    let positions = [0, 1, 400, 1634, 77_777, 5_000_000, TOP - 1, TOP];
    let book = at(&positions);
    for (from, p) in (0..).zip(positions) {
        for (to, q) in (0..).zip(positions) {
            let metres = p.max(q) - p.min(q);
            for speed in 1..=160 {
                let came = running_time(&book, from, to, speed).unwrap();
                assert_eq!(pairs_that_fit(metres, speed), [came]);
                assert!(from != to || came == (0, 0));
                assert!(metres > 2000 || came == counted_off(metres, speed));
            }
        }
    }
}

#[test]
fn random_times() {
    let mut rng = Rng(0x71ED);
    for _ in 0..10_000 {
        let posts = rng.within(2, 8);
        let positions = rng.positions(posts.into());
        let (from, to) = (rng.within(0, posts - 1), rng.within(0, posts - 1));
        let speed = rng.within(1, 160).into();
        let metres = positions[usize::from(from)].abs_diff(positions[usize::from(to)]);
        let came = running_time(&at(&positions), from, to, speed).unwrap();
        assert_eq!(pairs_that_fit(metres, speed), [came]);
        assert_eq!(running_time(&at(&positions), to, from, speed), Ok(came));
    }
}

/// "Planners add up times and lose seconds": with the rests added up none is lost.
#[test]
fn times_added_up() {
    let mut rng = Rng(0xADD);
    let mut lost = 0;
    for _ in 0..2000 {
        let book = at(&rng.positions(8));
        let speed = rng.within(1, 160).into();
        let time = |from, to| running_time(&book, from, to, speed).unwrap();
        let parts: Vec<(u32, u32)> = (0..7).map(|post| time(post, post + 1)).collect();
        let seconds: u32 = parts.iter().map(|part| part.0).sum();
        let rests: u32 = parts.iter().map(|part| part.1).sum();
        let (more, rest) = (rests / (5 * speed), rests % (5 * speed));
        assert_eq!((seconds + more, rest), time(0, 7));
        lost += u32::from(more > 0);
    }
    assert!(lost > 1000, "{lost}");
}

// "The book is read first, and in it, at 4's place, a version not 3 is 4; a post not in the line is
// 9."

/// Books of editions 1 and 2 are read and opened, but have no running time.
#[test]
fn only_edition_3_has_running_times() {
    for book in [&X[..], &TWO, &THREE] {
        assert_eq!(refusal_of(book), 0);
        for version in (0..=255).filter(|version| *version != 3) {
            let other = altered(book, 2, version);
            assert_eq!(running_time(&other, 0, 1, 60), Err(4));
            assert_eq!(read_book_with_positions(&other), Err(4));
            // After the first 14 and before 15.
            let long = [&other[..], &[0]].concat();
            assert_eq!(running_time(&long, 0, 1, 60), Err(14));
            assert_eq!(running_time(&other[..3], 0, 1, 60), Err(14));
            assert_eq!(running_time(&altered(&other, 3, 9), 0, 1, 60), Err(4));
        }
    }
    assert_eq!(read_book(&altered(&THREE, 2, 0)), Err(4));
    assert_eq!(read_book(&altered(&THREE, 2, 4)), Err(4));
}

#[test]
fn posts_not_in_the_line() {
    for posts in 2..=8 {
        let book = at(&tens(posts.into()));
        let last = posts - 1;
        let seconds = 36 * u32::from(last);
        assert_eq!(running_time(&book, 0, last, 1), Ok((seconds, 0)));
        assert_eq!(running_time(&book, last, 0, 1), Ok((seconds, 0)));
        for other in posts..=255 {
            for (from, to) in [(other, 0), (0, other), (other, last), (other, other)] {
                assert_eq!(running_time(&book, from, to, 1), Err(9));
                // 28 is tested after the posts.
                assert_eq!(running_time(&book, from, to, 0), Err(9));
                assert_eq!(running_time(&book, from, to, 161), Err(9));
            }
        }
    }
}

/// No train is placed: books that the opening refuses by 19 and 20 are answered.
#[test]
fn trains_do_not_matter() {
    for (second, due) in [((0, 1), 19), ((1, 0), 20)] {
        let book = book_with_positions(&[1, 1], 0, &[0, 1000], &[(0, 1), second]);
        assert_eq!(refusal_of(&book), due);
        assert_eq!(running_time(&book, 0, 1, 60), Ok((60, 0)));
        assert_eq!(running_time(&book, 0, 2, 60), Err(9));
        assert_eq!(running_time(&book, 0, 1, 161), Err(28));
    }
}

// "Checks: 27, positions not from 0, not strictly rising, or above 8,388,607, stands after 23; 28,
// v not 1 to 160, is tested after the posts."

#[test]
fn positions_at_their_bounds() {
    let lists: [(&[u32], u8); 20] = [
        (&[0, 1], 0),
        (&[0, TOP], 0),
        (&[0, TOP - 1, TOP], 0),
        (&[0, TOP - 2, TOP - 1, TOP], 0),
        // Above the highest, at the last post and before it.
        (&[0, TOP + 1], 27),
        (&[0, 1, TOP + 1], 27),
        (&[0, TOP, TOP + 1], 27),
        (&[0, TOP + 1, TOP + 2], 27),
        (&[0, TOP + 1, TOP], 27),
        (&[0, TOP + 1, 5], 27),
        // The high byte counts.
        (&[0, 1 << 24], 27),
        (&[0, 5, (1 << 24) + 6], 27),
        (&[0, u32::MAX], 27),
        // Not from 0, by each of the four bytes.
        (&[1, 2], 27),
        (&[1 << 8, 1 << 9], 27),
        (&[1 << 16, 1 << 17], 27),
        (&[1 << 24, 1 << 25], 27),
        (&[1 << 24, 5], 27),
        (&[TOP, TOP], 27),
        (&[5, 0], 27),
    ];
    for (positions, due) in lists {
        assert_eq!(number(&at(positions)), due, "{positions:?}");
        assert_eq!(refusal_of(&at(positions)), due, "{positions:?}");
    }
}

/// One metre is enough, at each post of each line; equal or falling is 27.
#[test]
fn positions_strictly_rising() {
    for posts in 2..=8 {
        let with = |post: usize, metres: u32| {
            let mut positions = tens(posts);
            positions[post] = metres;
            number(&at(&positions))
        };
        assert_eq!((with(0, 0), with(0, 1)), (0, 27));
        for post in 1..posts {
            let before = 10 * post as u32 - 10;
            assert_eq!(with(post, before), 27);
            assert_eq!(with(post, before.saturating_sub(1)), 27);
            assert_eq!(with(post, before + 1), 0);
            // Below the next post's, if there is one.
            assert_eq!(with(post, before + 19), 0);
            let is_last = post == posts - 1;
            assert_eq!(with(post, before + 20), if is_last { 0 } else { 27 });
        }
    }
}

#[test]
fn speeds_at_their_bounds() {
    for (speed, came) in [
        (0, Err(28)),
        (1, Ok((237_783, 3))),  // 1,188,918 = 5 x 237,783 + 3
        (160, Ok((1486, 118))), // 1,188,918 = 800 x 1486 + 118
        (161, Err(28)),
        (416, Err(28)), // 160 in one byte
        (u32::MAX, Err(28)),
    ] {
        assert_eq!(running_time(&THREE, 0, 1, speed), came);
    }
}

/// Whatever the posts are, also one post twice, which would need no speed.
#[test]
fn speeds() {
    let mut rng = Rng(0x5BEED);
    let wide = [65_536, 65_596, 1 << 24, 1 << 31, u32::MAX - 1];
    let random = (0..1000).map(|_| rng.word() as u32);
    for speed in (0..=1000).chain(wide).chain(random) {
        let allowed = (1..=160).any(|v| v == speed);
        for to in 0..=2 {
            let came = running_time(&THREE, 1, to, speed);
            assert_eq!(came.is_ok(), allowed, "{speed}");
            assert!(allowed || came == Err(28), "{speed}");
        }
    }
}

// What the dispatcher makes of a book of edition 3: what it makes of the same of edition 2.

/// The books of editions 2 and 3 of one line; the positions are random.
fn both_editions(tracks: &[u8], sidings: u8, trains: &[(u8, u8)], rng: &mut Rng) -> [Vec<u8>; 2] {
    let positions = rng.positions(tracks.len());
    [
        book_of(tracks, Some(sidings), trains),
        book_with_positions(tracks, sidings, &positions, trains),
    ]
}

/// The same line, state, table and refusal.
#[test]
fn opened_as_edition_2() {
    let mut rng = Rng(0xED3);
    let mut met = [0; 21];
    for _ in 0..600 {
        let (tracks, trains) = rng.line(6, 4, 2);
        let sidings = rng.sidings(tracks.len()).unwrap_or(0);
        let books = both_editions(&tracks, sidings, &trains, &mut rng);
        assert_eq!(read_book(&books[0]), read_book(&books[1]));
        let [old, new] = books.map(|book| opened(&book));
        assert!(old == new, "{tracks:?} {sidings} {trains:?}");
        met[usize::from(old.0 .1)] += 1;
    }
    assert!(met[0] > 50 && met[19] > 50 && met[20] > 50, "{met:?}");
}

/// Puts random frames of a run to two boxes and checks that they do the same. Gives those of them
/// that have seven bytes.
fn put_to_both(run: &mut Run, boxes: &mut [Box; 2], rng: &mut Rng) -> Vec<u8> {
    let mut whole = vec![];
    for _ in 0..100 {
        let f = run.random_frame(rng);
        run.put(&f, &mut [0; OUT_BYTES]);
        let [old, new] = boxes.each_mut().map(|b| b.put(&f));
        assert_eq!(old, new);
        assert_eq!([boxes[0].state, boxes[1].state], [run.state; 2]);
        if f.len() == FRAME_BYTES {
            whole.extend(f);
        }
    }
    whole
}

/// The book of a run again, of editions 2 and 3.
pub fn books_again(tally: &Tally, rng: &mut Rng) -> [Vec<u8>; 2] {
    let trains: Vec<(u8, u8)> = (0..tally.trains())
        .map(|t| (tally.starts[t], tally.ends[t]))
        .collect();
    both_editions(&tally.tracks, tally.sidings, &trains, rng)
}

/// The same answers, states and journals over random frames, and the same print.
#[test]
fn run_and_printed_as_edition_2() {
    let mut rng = Rng(0x3ED);
    let mut records = 0;
    for _ in 0..150 {
        let mut run = Run::open(&mut rng);
        let books = books_again(&run.tally, &mut rng);
        let mut boxes = books.each_ref().map(|book| Box::open(book));
        assert!(boxes[0].table == boxes[1].table);
        let frames = put_to_both(&mut run, &mut boxes, &mut rng);
        assert_eq!(boxes[0].journal, boxes[1].journal);
        let [old, new] = books.map(|book| program::run(&mut &[book, frames.clone()].concat()[..]));
        assert_eq!(old, new);
        let count = run.state.journal;
        let end = old.lines().last().unwrap();
        assert!(end.starts_with(&format!("end {count} ")), "{old}");
        records += u32::from(count);
    }
    assert!(records > 3000, "{records}");
}

/// A short run, and a first post that is not at 0.
#[test]
fn edition_3_in_the_program() {
    let frames = [frame(FA, 0, 0, 1), frame(AM, 0, 0, 1), frame(AM, 0, 1, 2)].concat();
    let input = [&THREE[..], &frames].concat();
    let printed = "0 FA 0 0 1 0\n1 FE 0 0 1 1\n2 AM 0 0 1 0\nend 3 1\n";
    assert_eq!(program::run(&mut &input[..]), printed);
    let wrong = altered(&input, 11, 1);
    assert_eq!(program::run(&mut &wrong[..]), "book 27\n");
}

/// The longest book has 58 bytes. One that names a byte more is not read in full.
#[test]
fn books_of_58_bytes_and_of_59() {
    let trains: Vec<(u8, u8)> = (0..6).map(|t| (t, t + 1)).collect();
    let longest = book_with_positions(&[4; 8], 0, &tens(8), &trains);
    assert_eq!(longest.len(), 58);
    assert_eq!(running_time(&longest, 0, 7, 36), Ok((7, 0)));
    assert_eq!(program::run(&mut &longest[..]), "end 0 0\n");
    // A byte after it is a torn frame.
    let more = [&longest[..], &[0]].concat();
    assert_eq!(program::run(&mut &more[..]), "end 0 1\n");
    assert_eq!(number(&more), 14);
    // Of 59 bytes the program takes 58, so that the length is wrong whatever the version is.
    let named = resized(&longest, 59);
    assert_eq!(number(&named), 14);
    assert_eq!(program::run(&mut &named[..]), "book 14\n");
    let other = altered(&named, 2, 9);
    assert_eq!(read_book(&other), Err(4));
    assert_eq!(program::run(&mut &other[..]), "book 14\n");
}
