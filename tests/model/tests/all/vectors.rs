//! Small inputs with what each must give, by subject. Every trap that the paper names has one.

use crate::common::*;
use model::*;

// Book and opening.

#[test]
fn books_in_order_of_checks() {
    let number = |bytes: &[u8]| read_book(bytes).err().unwrap_or(0);
    assert_eq!(number(&[]), 14);
    assert_eq!(number(&[0]), 14);
    assert_eq!(number(&[0, 0]), 14);
    assert_eq!(number(&[0, 1, 1]), 14);
    assert_eq!(number(&[0, 2, 0, 9]), 4);
    assert_eq!(number(&[0, 2, 4, 9]), 4);
    assert_eq!(number(&[0, 2, 1, 9]), 15);
    assert_eq!(number(&[0, 2, 1, 2]), 14);
    assert_eq!(number(&[0, 4, 1, 2, 0, 0]), 14);
    assert_eq!(number(&[0, 5, 1, 2, 0, 0, 0]), 16);
    assert_eq!(number(&[0, 5, 1, 2, 1, 1, 0]), 17);
    assert_eq!(number(&[0, 5, 1, 2, 1, 1, 1]), 14);
    assert_eq!(number(&[0, 6, 1, 2, 1, 1, 1, 0]), 14);
    assert_eq!(number(&[0, 7, 1, 2, 1, 1, 1, 0, 2]), 18);
    assert_eq!(number(&[0, 7, 1, 2, 1, 1, 1, 2, 0]), 18);
    assert_eq!(number(&[0, 7, 1, 2, 1, 1, 1, 0, 1]), 0);
    assert_eq!(number(&[0, 8, 1, 2, 1, 1, 1, 0, 1, 0]), 14);
    // Bytes after the book make its length wrong.
    let mut long = X.to_vec();
    long.push(0);
    assert_eq!(number(&long), 14);
    // The high byte counts.
    let mut high = X;
    high[0] = 1;
    assert_eq!(number(&high), 14);
    // A book of more than 255 bytes can have the right length.
    let mut huge = vec![0; 2 + 300];
    huge[..4].copy_from_slice(&[1, 44, 1, 9]);
    assert_eq!(number(&huge), 15);
}

#[test]
fn a_book_read_alone() {
    let expected = Line {
        posts: 3,
        tracks: [2, 1, 2, 0, 0, 0, 0, 0],
        sidings: 0,
        trains: 3,
        starts: [0, 0, 2, 0, 0, 0],
        ends: [2, 2, 0, 0, 0, 0],
    };
    assert_eq!(read_book(&Y), Ok(expected));
    // Neither an overfull start nor a jam is seen by the reader alone.
    assert!(read_book(&book(&[1, 1], &[(0, 0), (0, 0)])).is_ok());
    assert!(read_book(&book(&[1, 1], &[(0, 1), (1, 0)])).is_ok());
}

#[test]
fn opening_and_its_stores() {
    // 2 comes before the book is looked at.
    let journal = [OLD; 237];
    let mut short = vec![3; TABLE_BYTES - 1];
    assert_eq!(open(&[], &mut short, &journal), (State::EMPTY, 2));
    assert!(short.iter().all(|b| *b == 3));
    let mut table = vec![3; TABLE_BYTES + 5];
    assert_eq!(open(&X, &mut table, &journal[..235]), (State::EMPTY, 2));
    assert_eq!(open(&[], &mut table, &journal), (State::EMPTY, 14));
    // 19 leaves the table untouched, 18 as well.
    let over = book(&[1, 1], &[(0, 1), (0, 1)]);
    assert_eq!(open(&over, &mut table, &journal), (State::EMPTY, 19));
    let off = book(&[1, 1], &[(0, 2), (0, 1)]);
    assert_eq!(open(&off, &mut table, &journal), (State::EMPTY, 18));
    assert!(table.iter().all(|b| *b == 3));
    // 20 leaves it filled, the bytes past it untouched.
    let jam = book(&[1, 1, 1], &[(0, 2), (2, 0)]);
    assert_eq!(open(&jam, &mut table, &journal), (State::EMPTY, 20));
    let mut filled = vec![0; TABLE_BYTES];
    assert!(fill(&read_book(&jam).unwrap(), &mut filled));
    assert_eq!(table[..TABLE_BYTES], filled[..]);
    assert_eq!(table[TABLE_BYTES..], [3; 5]);
    // Ends that do not fit: nothing has a way through.
    let ends = book(&[1, 1, 1], &[(0, 2), (1, 2)]);
    assert_eq!(open(&ends, &mut table, &journal), (State::EMPTY, 20));
    assert!(table[..TABLE_BYTES].iter().all(|b| *b == 0));
    // Parked trains stand on tracks and are home.
    let parked = book(&[1, 1], &[(0, 0), (1, 1)]);
    assert_eq!(open(&parked, &mut table, &journal).1, 0);
    assert_eq!(table[0], 1);
    assert!(table[1..TABLE_BYTES].iter().all(|b| *b == 0));
}

#[test]
fn table_of_x() {
    // Digits of train 0 and train 1. Both trains pass at post 1 only.
    let b = Box::open(&X);
    for c in 0..262_144u64 {
        let lawful = [(0, 0), (1, 0), (0, 1), (1, 1), (2, 1), (1, 2), (2, 2)];
        let expected = lawful.iter().any(|(a, b)| a + 8 * b == c);
        assert_eq!(table::bit(&b.table, c), expected, "code {c}");
    }
    assert!(!table::bit(&b.table, 262_144));
    assert!(!table::bit(&b.table, u64::MAX));
}

#[test]
fn fill_refuses() {
    let good = read_book(&X).unwrap();
    let mut table = vec![9; TABLE_BYTES];
    let bad = |change: fn(&mut Line)| {
        let mut line = good;
        change(&mut line);
        line
    };
    for line in [
        bad(|l| l.posts = 1),
        bad(|l| l.posts = 9),
        bad(|l| l.posts = 255),
        bad(|l| l.trains = 0),
        bad(|l| l.trains = 7),
        bad(|l| l.tracks[2] = 0),
        bad(|l| l.tracks[2] = 5),
        bad(|l| l.sidings = 8),
        bad(|l| l.starts[1] = 3),
        bad(|l| l.ends[1] = 255),
    ] {
        assert!(!fill(&line, &mut table));
    }
    assert!(!fill(&good, &mut table[..TABLE_BYTES - 1]));
    assert!(table.iter().all(|b| *b == 9));
    // Places that are not read may hold anything.
    let unread = bad(|l| {
        l.tracks[3] = 99;
        l.starts[2] = 99;
        l.ends[5] = 99;
    });
    let mut other = vec![0; TABLE_BYTES];
    assert!(fill(&unread, &mut table));
    assert!(fill(&good, &mut other));
    assert_eq!(table, other);
}

// Frames.

#[test]
fn frames_read_back() {
    let mut rng = Rng(5);
    for kind in 0..=255 {
        let (train, from, to) = (rng.byte(), rng.byte(), rng.byte());
        let bytes = frame(kind, train, from, to);
        let m = Move { train, from, to };
        let expected = match kind {
            1 => Ok(Message::Fa(m)),
            2 => Ok(Message::Fe(m)),
            3 => Ok(Message::Afe(m)),
            4 => Ok(Message::Am(m)),
            5 => Ok(Message::La(m)),
            6 => Ok(Message::Le(m)),
            7 => Ok(Message::Lb(m)),
            _ => Err(5),
        };
        assert_eq!(read_frame(&bytes), expected);
        if let Ok(message) = expected {
            assert_eq!(write_frame(message), bytes);
        }
    }
    assert_eq!(read_frame(&[]), Err(3));
    assert_eq!(read_frame(&[0, 5, 1, 1, 0, 0]), Err(3));
    assert_eq!(read_frame(&[0, 5, 1, 1, 0, 0, 0, 0]), Err(3));
    assert_eq!(read_frame(&[0, 6, 2, 9, 0, 0, 0]), Err(3));
    assert_eq!(read_frame(&[1, 5, 1, 1, 0, 0, 0]), Err(3));
    assert_eq!(read_frame(&[5, 0, 1, 1, 0, 0, 0]), Err(3));
    assert_eq!(read_frame(&[0, 5, 2, 9, 0, 0, 0]), Err(4));
    assert_eq!(read_frame(&[0, 5, 0, 1, 0, 0, 0]), Err(4));
}

// The checks of a frame, in their order.

#[test]
fn precedence_on_x() {
    let mut b = Box::open(&X);
    assert_eq!(b.put(&frame(FA, 2, 0, 1)), Err(7));
    assert_eq!(b.put(&frame(FA, 255, 0, 1)), Err(7));
    assert_eq!(b.put(&frame(FE, 9, 9, 9)), Err(6));
    assert_eq!(b.put(&frame(AFE, 9, 9, 9)), Err(6));
    assert_eq!(b.put(&frame(LE, 9, 9, 9)), Err(6));
    assert_eq!(b.put(&frame(0, 0, 0, 1)), Err(5));
    assert_eq!(b.put(&frame(8, 0, 0, 1)), Err(5));
    assert_eq!(b.put(&[0, 5, 2, 9, 0, 0, 1]), Err(4));
    assert_eq!(b.put(&[0, 6, 2, 1, 0, 0, 1]), Err(3));
    assert_eq!(b.put(&frame(FA, 0, 1, 2)), Err(9));
    assert_eq!(b.put(&frame(AM, 0, 1, 2)), Err(9));
    assert_eq!(b.put(&frame(AM, 0, 0, 1)), Err(12));
    assert!(b.put(&frame(FA, 0, 0, 1)).is_ok());
    assert_eq!(b.put(&frame(FA, 0, 1, 2)), Err(9));
    assert_eq!(put_repeat(&mut b, &frame(FA, 0, 0, 1)), [[FE, 0, 0, 1]]);
    assert_eq!(b.put(&frame(AM, 0, 0, 1)), Ok(vec![]));
    assert_eq!(b.put(&frame(FA, 0, 0, 1)), Err(9));
    assert!(put_repeat(&mut b, &frame(AM, 0, 0, 1)).is_empty());
    // Train 1 makes room at post 2, else train 0 never gets there.
    assert_eq!(b.put(&frame(FA, 0, 1, 2)), Ok(vec![[AFE, 0, 1, 2]]));
    assert_eq!(b.put(&frame(FA, 1, 2, 1)), Ok(vec![[FE, 1, 2, 1]]));
    assert_eq!(b.put(&frame(AM, 1, 2, 1)), Ok(vec![[FE, 0, 1, 2]]));
    assert_eq!(b.put(&frame(AM, 0, 1, 2)), Ok(vec![]));
    assert_eq!(b.put(&frame(FA, 0, 2, 2)), Err(8));
    assert_eq!(b.put(&frame(FA, 0, 1, 2)), Err(8));
    assert_eq!(b.put(&frame(AM, 0, 0, 0)), Err(8));
    // The test for a finished move comes before 8.
    assert!(put_repeat(&mut b, &frame(AM, 0, 1, 2)).is_empty());
    assert_eq!(b.put(&frame(AM, 0, 0, 1)), Err(8));
}

/// 8 and 9 hold for AM too, and come before 12 and before a repeated FA is known.
#[test]
fn posts_before_standing() {
    let mut b = Box::open(&Y);
    assert!(b.put(&frame(FA, 2, 2, 1)).is_ok());
    assert_eq!(put_repeat(&mut b, &frame(FA, 2, 2, 1)), [[AFE, 2, 2, 1]]);
    assert_eq!(b.put(&frame(AM, 2, 2, 1)), Err(12));
    // Either post wrong is 9.
    for (from, to) in [(2, 0), (2, 3), (2, 2), (1, 1), (3, 1), (0, 1), (1, 2)] {
        assert_eq!(b.put(&frame(FA, 2, from, to)), Err(9));
        assert_eq!(b.put(&frame(AM, 2, from, to)), Err(9));
    }
    assert!(b.put(&frame(FA, 0, 0, 1)).is_ok());
    assert_eq!(b.put(&frame(FA, 0, 0, 2)), Err(9));
    assert_eq!(b.put(&frame(AM, 0, 0, 2)), Err(9));
    assert_eq!(b.put(&frame(AM, 0, 0, 1)), Ok(vec![]));
    // A parked train has no next post.
    let mut parked = Box::open(&book(&[1, 1], &[(1, 1)]));
    for kind in [FA, AM] {
        for (from, to) in [(1, 1), (1, 0), (1, 2), (0, 1)] {
            assert_eq!(parked.put(&frame(kind, 0, from, to)), Err(8));
        }
    }
}

// Granting.

/// A later grant sets the bit that the older asker lacked.
#[test]
fn a_grant_lets_an_older_train_go() {
    let mut b = Box::open(&[
        0x00, 0x0B, 0x01, 0x04, 0x02, 0x02, 0x02, 0x02, 0x02, 0x00, 0x01, 0x03, 0x02,
    ]);
    b.table = bits(&[8, 9]);
    assert_eq!(b.put(&frame(FA, 0, 0, 1)), Ok(vec![[AFE, 0, 0, 1]]));
    assert_eq!(
        b.put(&frame(FA, 1, 3, 2)),
        Ok(vec![[FE, 1, 3, 2], [FE, 0, 0, 1]])
    );
    let logged = [
        record(FA, 0, 0, 1),
        record(AFE, 0, 0, 1),
        record(FA, 1, 3, 2),
        authority(1, 3, 2, 2),
        authority(0, 0, 1, 1),
    ];
    assert_eq!(b.journal[..5], logged);
    assert_eq!(b.journal[5], OLD);
    assert_eq!(b.state.journal, 5);
}

/// Again from the oldest: three trains, where the middle grant frees the way
/// for the oldest before the youngest is looked at.
#[test]
fn again_from_the_oldest() {
    let trains = [
        (0, 1, Standing::Asked(4)),
        (2, 3, Standing::Asked(6)),
        (4, 5, Standing::Asked(8)),
        (6, 7, Standing::Free),
    ];
    // Train 1 alone, then 1 and 0, then 1, 0 and 2; train 1 and 2 too.
    let table = bits(&[8, 9, 8 + 64, 9 + 64]);
    let mut b = boxed(state(&[1; 8], &trains, 9), table);
    assert_eq!(
        b.put(&frame(FA, 3, 6, 7)),
        Ok(vec![
            [FE, 1, 2, 3],
            [FE, 0, 0, 1],
            [FE, 2, 4, 5],
            [AFE, 3, 6, 7]
        ])
    );
    assert_eq!(b.state.journal, 14);
    assert_eq!(b.state.train[3].standing, Standing::Asked(9));
}

/// The oldest goes first, by FA number and not by train number.
#[test]
fn oldest_first() {
    for (a, b, winner) in [(3, 5, 0), (5, 3, 1)] {
        let trains = [
            (0, 1, Standing::Asked(a)),
            (2, 1, Standing::Asked(b)),
            (3, 4, Standing::Free),
        ];
        let mut x = boxed(state(&[1; 5], &trains, 6), vec![255; TABLE_BYTES]);
        let sent = x.put(&frame(FA, 2, 3, 4)).unwrap();
        assert_eq!(sent.len(), 2);
        assert_eq!(sent[0][..2], [FE, winner]);
        assert_eq!(sent[1], [FE, 2, 3, 4]);
    }
}

/// The AFE comes after the FEs; it needs a table altered between frames.
#[test]
fn declined_comes_last() {
    let book = book(&[1, 1, 1, 1], &[(3, 2), (0, 1)]);
    let mut b = Box::open(&book);
    b.table = bits(&[]);
    assert_eq!(b.put(&frame(FA, 0, 3, 2)), Ok(vec![[AFE, 0, 3, 2]]));
    b.table = bits(&[1]);
    assert_eq!(
        b.put(&frame(FA, 1, 0, 1)),
        Ok(vec![[FE, 0, 3, 2], [AFE, 1, 0, 1]])
    );
    assert_eq!(b.journal[3], authority(0, 3, 2, 1));
    assert_eq!(b.journal[4], record(AFE, 1, 0, 1));
    // An AM never gives an AFE.
    assert_eq!(b.put(&frame(AM, 0, 3, 2)), Ok(vec![]));
}

/// A held section bars both directions, even with tracks and bits free.
#[test]
fn sections_bar_both_ways() {
    for (first, second) in [((0, 1), (1, 0)), ((1, 0), (0, 1)), ((0, 1), (0, 1))] {
        let mut b = Box::open(&book(&[4, 4], &[first, second]));
        b.table = vec![255; TABLE_BYTES];
        let ask = |t: u8, m: (u8, u8)| frame(FA, t, m.0, m.1);
        assert_eq!(b.put(&ask(0, first)).unwrap()[0][0], FE);
        assert_eq!(b.put(&ask(1, second)).unwrap()[0][0], AFE);
        let sent = b.put(&frame(AM, 0, first.0, first.1)).unwrap();
        assert_eq!(sent, vec![[FE, 1, second.0, second.1]]);
    }
}

/// A Running train holds a track at both posts: the one it left is freed by
/// the arrival, not by the grant.
#[test]
fn the_track_left_behind() {
    let mut b = Box::open(&book(&[1, 1, 1], &[(1, 2), (0, 1)]));
    b.table = vec![255; TABLE_BYTES];
    assert_eq!(b.put(&frame(FA, 0, 1, 2)), Ok(vec![[FE, 0, 1, 2]]));
    assert_eq!(b.put(&frame(FA, 1, 0, 1)), Ok(vec![[AFE, 1, 0, 1]]));
    assert_eq!(b.put(&frame(AM, 0, 1, 2)), Ok(vec![[FE, 1, 0, 1]]));
    // And the track ahead is held from the grant on.
    let mut b = Box::open(&book(&[1, 1, 1], &[(0, 1), (2, 2)]));
    b.state.train[1].end = 1;
    b.table = vec![255; TABLE_BYTES];
    assert_eq!(b.put(&frame(FA, 0, 0, 1)), Ok(vec![[FE, 0, 0, 1]]));
    assert_eq!(b.put(&frame(FA, 1, 2, 1)), Ok(vec![[AFE, 1, 2, 1]]));
}

/// The bit asked for has every Running train and this one advanced, Asked
/// ones not; the digits are travelled posts, also for down trains.
#[test]
fn the_bit_asked_for() {
    let trains = [
        (0, 2, Standing::Running(1)),
        (3, 7, Standing::Free),
        (7, 4, Standing::Free),
        (2, 3, Standing::Asked(0)),
    ];
    let mut s = state(&[4; 8], &trains, 1);
    bring(&mut s.train[2], 6); // one travelled
    let wanted = 1 + 2 * 64; // train 0 ahead; train 2 from one to two
    let mut b = boxed(s, bits(&[wanted]));
    assert_eq!(b.put(&frame(FA, 2, 6, 5)), Ok(vec![[FE, 2, 6, 5]]));
    // All bits set but this one and train 3's: nobody can be granted.
    let mut table = vec![255; TABLE_BYTES];
    for code in [wanted, 1 + 64 + 512] {
        table[(code / 8) as usize] &= !(1 << (code % 8));
    }
    let mut b = boxed(s, table);
    assert_eq!(b.put(&frame(FA, 2, 6, 5)), Ok(vec![[AFE, 2, 6, 5]]));
}

/// The code "never exceeds 262,143": six trains have travelled seven posts each.
#[test]
fn the_largest_code() {
    let [up, down] = [(0, 7, Standing::Free), (7, 0, Standing::Free)];
    let mut s = state(&[4; 8], &[up, down, up, down, up, down], 1);
    for train in &mut s.train {
        bring(train, train.end);
    }
    bring(&mut s.train[5], 1);
    let mut b = boxed(s, bits(&[262_143]));
    assert_eq!(b.put(&frame(FA, 5, 1, 0)), Ok(vec![[FE, 5, 1, 0]]));
    let mut table = vec![255; TABLE_BYTES];
    table[32_767] = 127;
    let mut b = boxed(s, table);
    assert_eq!(b.put(&frame(FA, 5, 1, 0)), Ok(vec![[AFE, 5, 1, 0]]));
}

/// Five trains that wait, the last the longest, a sixth, and 229 records.
fn five_wait_and(sixth: (u8, u8, Standing)) -> Box {
    let mut trains: Vec<_> = (0..5)
        .map(|t| (t, t + 1, Standing::Asked(100 - t)))
        .collect();
    trains.push(sixth);
    boxed(state(&[4; 8], &trains, 229), vec![255; TABLE_BYTES])
}

/// At 229 records five that wait go and a sixth asks: six FEs, or five and an AFE, and 236 records.
/// It arrives: five FEs and 235 records. All are written, and the state is strange then.
#[test]
fn six_frames_out() {
    let order = |sent: &[[u8; 4]]| sent.iter().map(|f| f[1]).collect::<Vec<u8>>();
    let mut b = five_wait_and((5, 6, Standing::Free));
    let sent = b.put(&frame(FA, 5, 5, 6)).unwrap();
    assert_eq!(order(&sent), [4, 3, 2, 1, 0, 5]);
    assert!(sent.iter().all(|f| f[0] == FE));
    assert_eq!(b.state.journal, 236);
    assert_eq!(b.journal[228], Record::BLANK);
    assert_eq!(b.journal[229], record(FA, 5, 5, 6));
    assert_eq!(b.journal[235], authority(5, 5, 6, 1));
    assert!(!sound(&b.state));

    let mut b = five_wait_and((1, 0, Standing::Free));
    let sent = b.put(&frame(FA, 5, 1, 0)).unwrap();
    assert_eq!(order(&sent), [4, 3, 2, 1, 0, 5]);
    assert_eq!(sent[5][0], AFE);
    assert_eq!(b.state.journal, 236);
    assert_eq!(b.journal[235], record(AFE, 5, 1, 0));
    assert_eq!(b.put(&frame(FA, 5, 1, 0)), Err(1));

    let mut b = five_wait_and((6, 7, Standing::Running(1)));
    let sent = b.put(&frame(AM, 5, 6, 7)).unwrap();
    assert_eq!(order(&sent), [4, 3, 2, 1, 0]);
    assert!(sent.iter().all(|f| f[0] == FE));
    assert_eq!(b.state.journal, 235);
    assert_eq!(b.journal[234], authority(0, 0, 1, 2));
    assert_eq!(b.journal[235], Record::BLANK);
    assert_eq!(b.put(&frame(AM, 0, 0, 1)), Err(1));
}

/// 1 from count 230 on, first of all checks, for a new frame, for one that is refused by another
/// number, and for a repeat.
#[test]
fn strange_from_230_records_on() {
    for count in 0..=255u8 {
        let trains = [(0, 1, Standing::Free), (2, 1, Standing::Running(4))];
        for length in [236, 300] {
            let mut b = boxed(state(&[4; 3], &trains, count), vec![255; TABLE_BYTES]);
            b.journal = vec![OLD; length];
            let strange = u8::from(count > 229);
            for (kind, train, from) in [(FA, 0, 0), (AM, 1, 2)] {
                let mut x = boxed(b.state, b.table.clone());
                x.journal = b.journal.clone();
                let got = x.put(&frame(kind, train, from, 1));
                assert_eq!(got.err().unwrap_or(0), strange, "count {count}");
            }
            let other = |came| if strange == 1 { Err(1) } else { came };
            assert_eq!(b.put(&frame(AM, 0, 0, 1)), other(Err(12)));
            let again = vec![[FE, 1, 2, 1]];
            assert_eq!(b.put(&frame(FA, 1, 2, 1)), other(Ok(again)));
            assert!(b.journal.iter().all(|r| *r == OLD));
        }
    }
}

/// 1, then 2, then the frame.
#[test]
fn strange_then_short_then_torn() {
    let b = Box::open(&X);
    let mut journal = b.journal.clone();
    let mut try_with = |state: &State, table: usize, records: usize, out: usize| {
        let mut out = vec![0x77; out];
        let (after, verdict) = answer(
            state,
            &b.table[..table],
            &mut journal[..records],
            &[1, 2, 3],
            &mut out,
        );
        assert_eq!(after, *state);
        assert!(out.iter().all(|b| *b == 0x77));
        verdict
    };
    assert_eq!(try_with(&State::EMPTY, 0, 0, 0), Verdict::Refused(1));
    assert_eq!(try_with(&b.state, 32_767, 236, 42), Verdict::Refused(2));
    assert_eq!(try_with(&b.state, 32_768, 235, 42), Verdict::Refused(2));
    assert_eq!(try_with(&b.state, 32_768, 236, 41), Verdict::Refused(2));
    assert_eq!(try_with(&b.state, 32_768, 236, 42), Verdict::Refused(3));
}

// Soundness.

type Change = fn(&mut State);

/// Whether the opened X is still sound with this change.
const CHANGES: [(bool, Change); 37] = [
    (true, |_| ()),
    (false, |s| s.posts = 1),
    (false, |s| s.posts = 2), // train 1 starts at post 2
    (false, |s| s.posts = 4), // the fourth post has 0 tracks
    (false, |s| s.posts = 9),
    (false, |s| s.trains = 0),
    (true, |s| s.trains = 1),
    (false, |s| s.trains = 3), // the third would stand at post 0
    (false, |s| s.trains = 7),
    (false, |s| s.tracks[1] = 0),
    (false, |s| s.tracks[1] = 5),
    (true, |s| s.tracks[3] = 5),                            // not read
    (true, |s| s.train[2].standing = Standing::Running(9)), // not read
    (false, |s| s.train[0].start = 3),
    (false, |s| s.train[0].end = 3),
    (false, |s| bring(&mut s.train[0], 3)),
    (false, |s| s.train[0].end = 255),
    (true, |s| bring(&mut s.train[0], 1)),
    (false, |s| bring(&mut s.train[0], 2)), // two trains on one track
    (false, |s| {
        s.train[0].start = 1;
        bring(&mut s.train[0], 0); // not between 1 and 2
    }),
    // The last finished move goes with the present post.
    (false, |s| s.train[0].at = 1),
    (false, |s| s.train[0].last = Some((0, 1))),
    (true, |s| s.journal = 229),
    (false, |s| s.journal = 230),
    (false, |s| s.journal = 236),
    (false, |s| s.journal = 255),
    // FA numbers.
    (false, |s| s.train[0].standing = Standing::Asked(0)),
    (true, |s| {
        s.train[0].standing = Standing::Asked(1);
        s.train[1].standing = Standing::Asked(0);
        s.journal = 2;
    }),
    (false, |s| {
        s.train[0].standing = Standing::Asked(1);
        s.train[1].standing = Standing::Asked(1);
        s.journal = 2;
    }),
    (false, |s| {
        s.train[0].standing = Standing::Asked(229);
        s.journal = 229;
    }),
    (true, |s| {
        s.train[0].standing = Standing::Asked(228);
        s.journal = 229;
    }),
    // Running: tracks at both posts, one holder of a section.
    (true, |s| s.train[0].standing = Standing::Running(1)),
    (true, |s| {
        s.train[0].standing = Standing::Running(1);
        s.train[1].standing = Standing::Running(2);
    }),
    (false, |s| {
        s.tracks[1] = 1;
        s.train[0].standing = Standing::Running(1);
        s.train[1].standing = Standing::Running(2);
    }),
    (false, |s| {
        s.tracks = [4; 8];
        bring(&mut s.train[0], 1);
        s.train[0].standing = Standing::Running(2);
        s.train[1].standing = Standing::Running(3);
    }),
    // Only trains short of their end are Asked or Running.
    (false, |s| {
        s.tracks[2] = 2;
        bring(&mut s.train[0], 2);
        s.train[0].track = 2;
        s.train[0].standing = Standing::Running(1);
    }),
    (false, |s| {
        s.tracks[2] = 2;
        bring(&mut s.train[0], 2);
        s.train[0].track = 2;
        s.train[0].standing = Standing::Asked(0);
        s.journal = 1;
    }),
];

#[test]
fn sound_states() {
    for (number, (expected, change)) in CHANGES.iter().enumerate() {
        let mut s = Box::open(&X).state;
        change(&mut s);
        assert_eq!(sound(&s), *expected, "change {number}: {s:?}");
    }
    assert!(!sound(&State::EMPTY));
}

/// Places not read neither change an answer nor are changed.
#[test]
fn unread_places() {
    let clean = Box::open(&X);
    let mut odd = Box::open(&X);
    odd.state.tracks[3..].fill(200);
    let ghost = Train {
        start: 1,
        end: 250,
        at: 1,
        track: 1,
        standing: Standing::Asked(0),
        last: Some((1, 2)),
    };
    odd.state.train[2..].fill(ghost);
    let mut clean = clean;
    for f in [frame(FA, 0, 0, 1), frame(FA, 2, 1, 2), frame(AM, 0, 0, 1)] {
        assert_eq!(clean.put(&f), odd.put(&f));
        assert_eq!(clean.state.train[..2], odd.state.train[..2]);
        assert_eq!(odd.state.train[2..], [ghost; 4]);
        assert_eq!(odd.state.tracks[3..], [200; 5]);
    }
}

// The unit.

#[test]
fn unit_making() {
    for train in [0, 5, 6, 255] {
        for start in [0, 7, 8, 255] {
            for end in [0, 7, 8, 255] {
                let (unit, refusal) = unit::make(train, start, end);
                if train <= 5 && start <= 7 && end <= 7 {
                    assert_eq!(refusal, 0);
                    let expected = Unit {
                        train,
                        start,
                        end,
                        at: start,
                        state: UnitState::Standing,
                    };
                    assert_eq!(unit, expected);
                    assert!(unit::sound(&unit));
                } else {
                    assert_eq!((unit, refusal), (Unit::EMPTY, 18));
                }
            }
        }
    }
    let empty = Unit {
        train: 255,
        start: 0,
        end: 0,
        at: 0,
        state: UnitState::Standing,
    };
    assert_eq!(Unit::EMPTY, empty);
    assert!(!unit::sound(&empty));
    assert_eq!(unit::press(&empty, Button::Ask), (empty, 1, None));
    assert_eq!(unit::hear(&empty, &[]), (empty, 1));
}

fn unit_of_3(start: u8, end: u8, at: u8, state: UnitState) -> Unit {
    Unit {
        train: 3,
        start,
        end,
        at,
        state,
    }
}

/// Every button in every state, short of the end and at it.
#[test]
fn unit_buttons() {
    for state in STATES {
        for button in BUTTONS {
            let u = unit_of_3(6, 1, 4, state);
            let turned = |state| Unit { state, ..u };
            let expected = match (state, button) {
                (UnitState::Standing, Button::Ask) => {
                    (turned(UnitState::Asked), 0, Some(frame(FA, 3, 4, 3)))
                }
                (UnitState::Granted, Button::Depart) => (turned(UnitState::UnderWay), 0, None),
                (UnitState::UnderWay, Button::Reached) => (turned(UnitState::Arrived), 0, None),
                (UnitState::Arrived, Button::Report) => {
                    let after = Unit {
                        at: 3,
                        state: UnitState::Standing,
                        ..u
                    };
                    (after, 0, Some(frame(AM, 3, 4, 3)))
                }
                (UnitState::Standing, Button::Again) => (u, 0, Some(frame(AM, 3, 5, 4))),
                (UnitState::Asked | UnitState::Declined, Button::Again) => {
                    (u, 0, Some(frame(FA, 3, 4, 3)))
                }
                _ => (u, 21, None),
            };
            assert_eq!(unit::press(&u, button), expected);

            let home = Unit { at: 1, ..u };
            let (number, sent) = match (state, button) {
                (UnitState::Standing, Button::Ask) => (8, None),
                (UnitState::Standing, Button::Again) => (0, Some(frame(AM, 3, 2, 1))),
                (UnitState::Standing, _) => (21, None),
                _ => (1, None),
            };
            assert_eq!(unit::press(&home, button), (home, number, sent));
        }
    }
    let (parked, _) = unit::make(0, 4, 4);
    assert_eq!(unit::press(&parked, Button::Ask), (parked, 8, None));
    assert_eq!(unit::press(&parked, Button::Again), (parked, 21, None));
}

/// Every kind of frame in every state.
#[test]
fn unit_hearing() {
    for state in STATES {
        let u = unit_of_3(1, 6, 4, state);
        let turned = |state| Unit { state, ..u };
        // Own FE.
        let expected = match state {
            UnitState::Asked | UnitState::Declined => (turned(UnitState::Granted), 0),
            _ => (u, 22),
        };
        assert_eq!(unit::hear(&u, &frame(FE, 3, 4, 5)), expected);
        // Own AFE.
        let expected = match state {
            UnitState::Asked => (turned(UnitState::Declined), 0),
            _ => (u, 0),
        };
        assert_eq!(unit::hear(&u, &frame(AFE, 3, 4, 5)), expected);
        // Own train, another move.
        for (from, to) in [(4, 3), (3, 4), (5, 6), (4, 4), (255, 0)] {
            assert_eq!(unit::hear(&u, &frame(FE, 3, from, to)), (u, 22));
            assert_eq!(unit::hear(&u, &frame(AFE, 3, from, to)), (u, 0));
        }
        hears_in_vain(&u);
    }
    // At the end there is no own move.
    let home = unit_of_3(0, 3, 3, UnitState::Standing);
    for (from, to) in [(3, 3), (2, 3), (3, 4)] {
        assert_eq!(unit::hear(&home, &frame(FE, 3, from, to)), (home, 22));
        assert_eq!(unit::hear(&home, &frame(AFE, 3, from, to)), (home, 0));
    }
}

/// What changes no unit of train 3, whatever its state.
fn hears_in_vain(u: &Unit) {
    // FA and AM are the other end's, whatever the train.
    for kind in [FA, AM] {
        assert_eq!(unit::hear(u, &frame(kind, 3, 4, 5)), (*u, 6));
        assert_eq!(unit::hear(u, &frame(kind, 200, 4, 5)), (*u, 6));
    }
    // Another train, known or not.
    for train in [0, 4, 6, 255] {
        assert_eq!(unit::hear(u, &frame(FE, train, 4, 5)), (*u, 0));
        assert_eq!(unit::hear(u, &frame(AFE, train, 4, 5)), (*u, 0));
    }
    // What is said of local runs.
    for kind in [LA, LE, LB] {
        assert_eq!(unit::hear(u, &frame(kind, 255, 4, 5)), (*u, 0));
    }
    // Torn, other edition, unknown kind.
    assert_eq!(unit::hear(u, &[]), (*u, 3));
    assert_eq!(unit::hear(u, &[0, 4, 2, 9, 3, 4, 5]), (*u, 3));
    assert_eq!(unit::hear(u, &[0, 5, 2, 9, 3, 4, 5]), (*u, 4));
    assert_eq!(unit::hear(u, &[0, 5, 1, 8, 3, 4, 5]), (*u, 5));
}

/// Soundness of all units with small numbers, against the words one by one.
#[test]
fn unit_soundness() {
    for train in 0..8 {
        for start in 0..10u8 {
            for end in 0..10u8 {
                for at in 0..10u8 {
                    for state in STATES {
                        let u = Unit {
                            train,
                            start,
                            end,
                            at,
                            state,
                        };
                        let numbers = train < 6 && start < 8 && end < 8 && at < 8;
                        let between = (start <= at && at <= end) || (end <= at && at <= start);
                        let standing = state == UnitState::Standing || at != end;
                        assert_eq!(unit::sound(&u), numbers && between && standing);
                    }
                }
            }
        }
    }
}

// The journal's thin functions.

#[test]
fn journal_functions() {
    let r = authority(2, 3, 4, 5);
    let mut journal = vec![Record::BLANK; 256];
    assert_eq!(journal::log(&mut journal, 5, r), 6);
    assert_eq!(journal[5], r);
    assert_eq!(journal::log(&mut journal, 235, r), 236);
    assert_eq!(journal[235], r);
    for past in [236, 237, 254, 255] {
        let before = journal.clone();
        assert_eq!(journal::log(&mut journal, past, r), past);
        assert_eq!(journal, before);
    }
    assert_eq!(journal::log(&mut [], 0, r), 0);
    assert_eq!(journal::written(&journal, 6).len(), 6);
    assert_eq!(journal::written(&journal[..3], 6).len(), 3);
}

// The program.

fn printed(input: &[u8]) -> String {
    program::run(&mut &input[..])
}

fn after_x(rest: &[u8]) -> String {
    printed(&[&X[..], rest].concat())
}

/// A book is two bytes and as many as they name, at most 58 in all, or what there is.
#[test]
fn program_books() {
    assert_eq!(printed(&[]), "book 14\n");
    assert_eq!(printed(&[0]), "book 14\n");
    assert_eq!(printed(&[0, 0]), "book 14\n");
    assert_eq!(printed(&[0, 1, 1, 2, 3]), "book 14\n");
    assert_eq!(printed(&[0, 2, 1, 9]), "book 15\n");
    assert_eq!(printed(&X[..11]), "book 14\n");
    assert_eq!(printed(&[255; 100]), "book 14\n");
    // 57 after the length: 58 bytes are taken, never 59.
    let mut long = vec![0; 120];
    long[..4].copy_from_slice(&[0, 57, 4, 9]);
    assert_eq!(printed(&long), "book 14\n");
    assert_eq!(printed(&long[..59]), "book 14\n");
    long[1] = 56;
    assert_eq!(printed(&long), "book 4\n");
    // A named length below the true one: the book ends where it says.
    let mut short = book(&[1, 1], &[(0, 1), (1, 0)]);
    short[1] = 7;
    short[6] = 1;
    assert_eq!(printed(&short), "end 0 1\n");
}

/// The longest book of each edition is read whole, and a frame after it. At post 1 a parked train
/// has track 1, unless it is put away.
#[test]
fn program_longest_books() {
    let trains = [(0, 7), (7, 0), (3, 4), (4, 3), (1, 1), (6, 6)];
    let positions = [0, 1, 2, 3, 4, 5, 6, 7];
    let edition_3 = |sidings| book_with_positions(&[4; 8], sidings, &positions, &trains);
    for (longest, bytes, track) in [
        (book_of(&[4; 8], None, &trains), 25, 2),
        (book_of(&[4; 8], Some(0), &trains), 26, 2),
        (book_of(&[4; 8], Some(255), &trains), 26, 1),
        (edition_3(0), 58, 2),
        (edition_3(255), 58, 1),
    ] {
        assert_eq!(longest.len(), bytes);
        assert_eq!(printed(&longest), "end 0 0\n");
        let one = [&longest[..], &frame(FA, 0, 0, 1)].concat();
        let granted = format!("0 FA 0 0 1 0\n1 FE 0 0 1 {track}\nend 2 0\n");
        assert_eq!(printed(&one), granted);
    }
}

/// Frames are cut every seven bytes, and a shorter rest is one torn frame.
#[test]
fn program_frames() {
    assert_eq!(after_x(&[]), "end 0 0\n");
    for rest in 1..7 {
        assert_eq!(after_x(&vec![0; rest]), "end 0 1\n");
    }
    assert_eq!(after_x(&[0; 7]), "end 0 1\n");
    assert_eq!(after_x(&[0; 8]), "end 0 2\n");
    assert_eq!(after_x(&[0; 21]), "end 0 3\n");
    let granted = "0 FA 0 0 1 0\n1 FE 0 0 1 1\n";
    let ask = frame(FA, 0, 0, 1);
    let input = [&ask[..], &ask[..5]].concat();
    assert_eq!(after_x(&input), format!("{granted}end 2 1\n"));
    // No search for a start: a stray byte throws all later frames out.
    let input = [&[0][..], &ask, &ask].concat();
    assert_eq!(after_x(&input), "end 0 3\n");
}

/// A reader that gives one byte at a time, fails once and goes on.
struct Fitful<'a> {
    bytes: &'a [u8],
    fail_at: usize,
    given: usize,
}

impl std::io::Read for Fitful<'_> {
    fn read(&mut self, to: &mut [u8]) -> std::io::Result<usize> {
        if self.given == self.fail_at {
            self.fail_at = usize::MAX;
            return Err(std::io::Error::other("torn off"));
        }
        match (self.bytes.get(self.given), to.first_mut()) {
            (Some(byte), Some(place)) => {
                *place = *byte;
                self.given += 1;
                Ok(1)
            }
            _ => Ok(0),
        }
    }
}

/// An error is the end of the input, and stays it.
#[test]
fn program_reading() {
    let ask = frame(FA, 0, 0, 1);
    let bytes = [&X[..], &ask, &ask].concat();
    let granted = "0 FA 0 0 1 0\n1 FE 0 0 1 1\n";
    for fail_at in 0..30 {
        let mut reader = Fitful {
            bytes: &bytes,
            fail_at,
            given: 0,
        };
        let expected = match fail_at {
            0..=11 => "book 14\n".to_string(),
            12 => "end 0 0\n".to_string(),
            13..=18 => "end 0 1\n".to_string(),
            // The second is a repeat, or torn.
            20..=25 => format!("{granted}end 2 1\n"),
            _ => format!("{granted}end 2 0\n"),
        };
        assert_eq!(program::run(&mut reader), expected, "failing at {fail_at}");
    }
}
