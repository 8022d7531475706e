//! The journal that cannot fill up (02, card 7): how many records a run logs at the most, no refusal
//! 13, and counts above 229, which are strange. A test or more for each sentence of the card.

use crate::common::*;
use crate::local_runs::{come_and_go, gang, given, Came};
use crate::runs::Run;
use crate::total::sound_but_for_its_count;
use model::*;
use std::collections::HashMap;

// "Each move logs at most four records, there are at most 42 moves, and local runs add at most 60."

/// Records of a train at the most: four for each post travelled, and of the move that it is about two
/// while it is Asked, three while it is Running.
fn most_of_train(train: &Train) -> usize {
    let of_this_move = match train.standing {
        Standing::Free => 0,
        Standing::Asked(_) => 2,
        Standing::Running(_) => 3,
    };
    4 * usize::from(train.start.abs_diff(train.at)) + of_this_move
}

/// After any list of frames from an opened book the count, with one more for each section that a gang
/// has, is within what trains and local runs log at the most, and that is 228 or less. Only a request
/// that was granted at once, without an AFE, logs less.
pub fn check_count(state: &State, journal: &[Record]) {
    let of_trains: usize = state.present().iter().map(most_of_train).sum();
    let most = of_trains + 3 * usize::from(state.given);
    let gangs = (0..7).filter(|section| state.gang_holds(*section)).count();
    let count = usize::from(state.journal);
    assert!(count + gangs <= most && most <= 228, "{count} {state:?}");
    let logged = |kind: u8| journal[..count].iter().filter(|r| r.kind == kind).count();
    let at_once = logged(FA) - logged(AFE);
    assert_eq!(count + gangs + at_once, most, "{state:?}");
}

/// The kinds of these records are the beginning of such a list, with its first two at the least: a
/// request has its answer in the same frame.
fn begins(kinds: &[u8], list: &[u8]) -> bool {
    kinds.len() >= 2 && list.starts_with(kinds)
}

/// The kinds of the records that each train, and the gangs, have of each two posts, in their order.
fn kinds_logged(log: &[Record]) -> HashMap<(u8, u8, u8), Vec<u8>> {
    let mut logged: HashMap<_, Vec<u8>> = HashMap::new();
    for r in log {
        let kinds = logged.entry((r.train, r.from, r.to)).or_default();
        kinds.push(r.kind);
    }
    logged
}

/// Each move has logged FA, AFE or not, FE and AM, each local run LA, LE and LB, in that order and
/// once each, or the first of them; so no move has more than four and no local run more than three.
/// Gives how many moves and local runs there are.
fn check_log(log: &[Record]) -> (usize, usize) {
    let (mut moves, mut runs) = (0, 0);
    for (of, kinds) in kinds_logged(log) {
        let in_order = if of.0 == GANG {
            runs += kinds.chunks(3).count();
            kinds.chunks(3).all(|run| begins(run, &[LA, LE, LB]))
        } else {
            moves += 1;
            begins(&kinds, &[FA, AFE, FE, AM]) || begins(&kinds, &[FA, FE, AM])
        };
        assert!(in_order, "{of:?} {kinds:?}");
    }
    assert!(moves <= 42 && runs <= 20);
    assert!(log.len() <= 4 * moves + 3 * runs);
    (moves, runs)
}

/// A box from an opened book, and all that was put to it.
struct Desk {
    b: Box,
    said: Vec<[u8; FRAME_BYTES]>,
}

impl Desk {
    fn open(book: &[u8]) -> Desk {
        Desk {
            b: Box::open(book),
            said: vec![],
        }
    }

    /// Puts a frame; the count is within its bound, the state is sound, and neither 1 nor 13 comes.
    fn put(&mut self, f: [u8; FRAME_BYTES]) -> Came {
        let came = self.b.put(&f);
        self.said.push(f);
        assert!(!matches!(came, Err(1 | 13)), "{came:?}");
        assert!(sound(&self.b.state) && self.b.state.journal <= 228);
        check_count(&self.b.state, &self.b.journal);
        came
    }

    fn log(&self) -> &[Record] {
        journal::written(&self.b.journal, self.b.state.journal)
    }

    /// A train's frame for its next move.
    fn of_train(&self, kind: u8, t: u8) -> [u8; FRAME_BYTES] {
        let train = &self.b.state.train[usize::from(t)];
        frame(kind, t, train.at, train.next().unwrap_or(train.at))
    }

    /// The first train that is Running.
    fn running(&self) -> Option<u8> {
        let runs = |t: &Train| matches!(t.standing, Standing::Running(_));
        self.b
            .state
            .present()
            .iter()
            .position(runs)
            .map(|t| t as u8)
    }

    /// A train asks in vain for its next section, which is told.
    fn asks_in_vain(&mut self, t: u8) -> u8 {
        let [.., from, to] = self.of_train(FA, t);
        let declined = Ok(vec![[AFE, t, from, to]]);
        assert_eq!(self.put(frame(FA, t, from, to)), declined);
        from.min(to)
    }

    /// Arrivals until nobody runs any more.
    fn all_arrive(&mut self) {
        while let Some(t) = self.running() {
            assert!(self.put(self.of_train(AM, t)).is_ok());
        }
    }

    /// A gang has the section while these trains ask for it in vain; when it is back they go over it.
    fn over(&mut self, trains: &[u8], section: u8) {
        assert_eq!(self.put(gang(LA, section)), given(section));
        for t in trains {
            assert_eq!(self.asks_in_vain(*t), section);
        }
        assert_eq!(self.put(gang(LB, section)).map(|sent| sent.len()), Ok(1));
        self.all_arrive();
    }

    /// All six trains ask in vain, by a table without bits; then, by one with all, a gang on the
    /// section comes and goes, and they move one post each.
    fn all_move_once(&mut self, section: u8) {
        self.b.table.fill(0);
        for t in 0..6 {
            self.asks_in_vain(t);
        }
        self.b.table.fill(255);
        assert_eq!(self.put(gang(LA, section)), given(section));
        assert!(!self.put(gang(LB, section)).unwrap().is_empty());
        self.all_arrive();
    }

    /// Local runs until twenty are given.
    fn all_runs_given(&mut self) {
        while self.b.state.given < 20 {
            assert_eq!(self.put(gang(LA, 3)), given(3));
            assert_eq!(self.put(gang(LB, 3)), Ok(vec![]));
        }
    }
}

/// Six trains from one end of the longest line to the other.
const SIX: [(u8, u8); 6] = [(0, 7), (0, 7), (0, 7), (7, 0), (7, 0), (7, 0)];
const UP: [u8; 3] = [0, 1, 2];
const DOWN: [u8; 3] = [3, 4, 5];

/// The longest run with sidings at both ends: first the up trains, then the down trains.
fn longest_with_sidings() -> Desk {
    let mut desk = Desk::open(&book_of(&[4; 8], Some(0b1000_0001), &SIX));
    for section in 0..7 {
        desk.over(&UP, section);
    }
    for section in (0..7).rev() {
        desk.over(&DOWN, section);
    }
    desk.all_runs_given();
    desk
}

/// The longest run without sidings: at the last section the up trains meet the down trains.
fn longest_without_sidings() -> Desk {
    let mut desk = Desk::open(&book(&[4; 8], &SIX));
    for section in 0..6 {
        desk.over(&UP, section);
    }
    desk.over(&[0, 1, 2, 3, 4, 5], 6);
    for section in (0..6).rev() {
        desk.over(&DOWN, section);
    }
    desk.all_runs_given();
    desk
}

/// The longest run under altered tables, with sidings at all posts: all six trains go on together.
fn longest_under_altered_tables() -> Desk {
    let mut desk = Desk::open(&book_of(&[4; 8], Some(255), &SIX));
    for section in 0..7 {
        desk.all_move_once(section);
    }
    desk.all_runs_given();
    desk
}

/// Two under the right table, and one under others.
fn longest_runs() -> [Desk; 3] {
    [
        longest_with_sidings(),
        longest_without_sidings(),
        longest_under_altered_tables(),
    ]
}

/// Each of 42 moves declined first and twenty local runs given back: 228 records, as many as there
/// can be.
#[test]
fn the_longest_runs() {
    for desk in longest_runs() {
        assert_eq!(desk.b.state.journal, 228);
        assert_eq!(check_log(desk.log()), (42, 20));
        for (kind, times) in [(FA, 42), (AFE, 42), (FE, 42), (AM, 42)] {
            let of_kind = desk.log().iter().filter(|r| r.kind == kind);
            assert_eq!(of_kind.count(), times);
        }
        assert!(desk.b.journal[228..].iter().all(|r| *r == OLD));
        assert!(desk.b.state.present().iter().all(|t| t.at == t.end));
    }
}

/// What comes of a frame when all trains are home and all local runs are given and back.
fn due_after_all(kind: u8, train: u8, from: u8, to: u8) -> Came {
    let last = if UP.contains(&train) { (6, 7) } else { (1, 0) };
    match (kind, train) {
        (FE | AFE | LE, _) => Err(6),
        (FA | AM, 6..) | (LA | LB, 0..=254) => Err(7),
        (AM, _) if (from, to) == last => Ok(vec![]),
        (FA | AM, _) => Err(8),
        (LA | LB, _) if from > 6 || to != from + 1 => Err(9),
        (LA, _) => Err(26),
        (LB, _) => Err(25),
        _ => Err(5),
    }
}

/// Whatever is said after such a run, nothing is logged; six arrivals are taken once more.
#[test]
fn nothing_is_left_to_be_logged() {
    for mut desk in longest_runs() {
        let (state, journal) = (desk.b.state, desk.b.journal.clone());
        let mut taken = 0;
        for (kind, train) in (0..=8).flat_map(|k| [0, 1, 2, 3, 4, 5, 6, 255].map(|t| (k, t))) {
            for (from, to) in (0..=8).flat_map(|from| (0..=8).map(move |to| (from, to))) {
                let came = desk.put(frame(kind, train, from, to));
                assert_eq!(came, due_after_all(kind, train, from, to));
                assert_eq!((desk.b.state, &desk.b.journal), (state, &journal));
                taken += u32::from(came.is_ok());
            }
        }
        assert_eq!(taken, 6);
    }
}

/// The program prints 228 records, and no frame was refused.
#[test]
fn the_longest_run_printed() {
    let mut input = book(&[4; 8], &SIX);
    input.extend(longest_without_sidings().said.as_flattened());
    let text = program::run(&mut &input[..]);
    assert_eq!(text.lines().count(), 229);
    assert!(text.ends_with("\n227 LB 255 3 4 0\nend 228 0\n"), "{text}");
}

/// Each part of the bound is met: what a train logs of a move, by its standing, and a gang of a run.
#[test]
fn records_of_one_move_and_of_one_run() {
    let mut desk = Desk::open(&book(&[1; 3], &[(0, 2)]));
    let list = [
        (gang(LA, 0), 2),
        (frame(FA, 0, 0, 1), 4),
        (frame(FA, 0, 0, 1), 4),
        (gang(LB, 0), 6),
        (frame(FA, 0, 0, 1), 6),
        (frame(AM, 0, 0, 1), 7),
        (frame(AM, 0, 0, 1), 7),
        // Granted at once: three.
        (frame(FA, 0, 1, 2), 9),
        (frame(AM, 0, 1, 2), 10),
        (frame(AM, 0, 1, 2), 10),
    ];
    for (f, count) in list {
        assert!(desk.put(f).is_ok());
        assert_eq!(desk.b.state.journal, count, "{f:?}");
    }
    assert_eq!(check_log(desk.log()), (2, 1));
}

/// A frame as a crew or a gang might put it, or any.
fn some_frame(desk: &Desk, rng: &mut Rng) -> [u8; FRAME_BYTES] {
    let s = &desk.b.state;
    let t = rng.within(0, s.trains - 1);
    let train = &s.train[usize::from(t)];
    let section = rng.within(0, s.posts - 2);
    match (rng.below(20), train.standing, train.last) {
        (0, _, _) => frame(rng.within(0, 8), t, rng.within(0, 8), rng.within(0, 8)),
        (1, _, _) => gang(rng.within(LA, LB), rng.within(0, 8)),
        (2, _, Some((from, to))) => frame(AM, t, from, to),
        (3..=5, _, _) if s.gang_holds(section) => gang(LB, section),
        (3..=5, _, _) => gang(LA, section),
        (6, _, _) => desk.of_train(AM, t),
        (_, Standing::Running(_), _) => desk.of_train(AM, t),
        (_, _, _) => desk.of_train(FA, t),
    }
}

/// Puts random frames, with the table altered between them or not, and checks the journal at the
/// end. Gives the count.
fn random_run(book: &[u8], frames: usize, is_altered: bool, rng: &mut Rng) -> u8 {
    let mut desk = Desk::open(book);
    for _ in 0..frames {
        if is_altered && rng.chance(20) {
            let byte = [0, 0, 255, rng.byte()][rng.below(4) as usize];
            desk.b.table.fill(byte);
        }
        let f = some_frame(&desk, rng);
        // The refusals of such frames, none by the state or the stores.
        if let Err(number) = desk.put(f) {
            assert!(matches!(number, 5..=9 | 12 | 24..=26), "{number}");
        }
    }
    check_log(desk.log());
    desk.b.state.journal
}

/// The largest book, with and without sidings, under the right table and under altered ones.
#[test]
fn random_runs_of_the_largest_book() {
    let mut rng = Rng(0xC7);
    for sidings in [None, Some(0), Some(255)] {
        let book = book_of(&[4; 8], sidings, &SIX);
        for is_altered in [false, true] {
            let runs = (0..15).map(|_| random_run(&book, 700, is_altered, &mut rng));
            let most = runs.max().unwrap_or(0);
            assert!(
                (205..=228).contains(&most),
                "{most} {sidings:?} {is_altered}"
            );
        }
    }
}

/// Random books under altered tables, with the tally's checks and any bytes for frames.
#[test]
fn random_runs_of_any_book() {
    let mut rng = Rng(0xC70);
    let (mut moves, mut local_runs) = (0, 0);
    for _ in 0..150 {
        let mut run = Run::open(&mut rng);
        run.right_table = false;
        for _ in 0..120 {
            if rng.chance(10) {
                let byte = rng.byte();
                run.table.fill(byte);
            }
            let f = run.random_frame(&mut rng);
            run.put(&f, &mut [0; OUT_BYTES]);
            check_count(&run.state, &run.journal);
        }
        assert_eq!((run.refused[1], run.refused[13]), (0, 0));
        let (of_trains, of_gangs) = check_log(journal::written(&run.journal, run.state.journal));
        moves += of_trains;
        local_runs += of_gangs;
    }
    assert!(moves > 500 && local_runs > 300, "{moves} {local_runs}");
}

// "Show that 13 never occurs after an opened book, and remove it."

/// Frames of all kinds: of trains, of gangs, for another end, unknown, of another edition, torn.
fn any_frames() -> Vec<Vec<u8>> {
    let mut frames: Vec<Vec<u8>> = vec![vec![], vec![0; 6], vec![0, 5, 2, 1, 0, 0, 1]];
    frames.push([&frame(FA, 0, 0, 1)[..], &[0]].concat());
    for (from, to) in [(0, 1), (1, 2), (2, 1), (1, 0), (6, 7), (9, 9)] {
        for kind in [FA, FE, AM, LA, LB, 8] {
            let of = |train: u8| frame(kind, train, from, to).to_vec();
            frames.extend([0, 1, GANG].map(of));
        }
    }
    frames
}

/// A table of ones, two bytes longer than it needs to be.
static ONES: [u8; TABLE_BYTES + 2] = [255; TABLE_BYTES + 2];

/// Sound states of all kinds, each with the lowest count that it can have.
fn sound_states() -> Vec<(State, u8)> {
    let [x, y] = [Box::open(&X).state, Box::open(&Y).state];
    let parked = Box::open(&book_of(&[1; 2], Some(3), &[(0, 0), (1, 1)])).state;
    let home = longest_with_sidings().b.state;
    let waiting = state(
        &[1; 3],
        &[(0, 2, Standing::Asked(5)), (2, 0, Standing::Asked(4))],
        6,
    );
    let running = [(0, 2, Standing::Running(1)), (2, 0, Standing::Running(2))];
    let running = state(&[2; 3], &running, 0);
    let mut under_way = state(
        &[4; 8],
        &[(0, 7, Standing::Free), (7, 0, Standing::Free)],
        0,
    );
    bring(&mut under_way.train[0], 1);
    bring(&mut under_way.train[1], 6);
    let mut gangs = y;
    gangs.possessions = [true, false, true, true, true, true, true];
    gangs.given = 20;
    let mut none_left = x;
    none_left.given = 20;
    let from_0 = [x, y, parked, home, running, under_way, gangs, none_left];
    let mut states = from_0.map(|s| (s, 0)).to_vec();
    states.push((waiting, 6));
    states
}

/// What an answer is: its verdict, the out buffer, the records of a journal from the count on, and
/// the state with its numbers counted from `lowest`.
fn answer_from(s: &State, lowest: u8, f: &[u8]) -> (Verdict, Vec<u8>, Vec<Record>, State) {
    let (mut journal, mut out) = ([OLD; JOURNAL_RECORDS], vec![0x77; OUT_BYTES]);
    let (mut after, verdict) = answer(s, &ONES, &mut journal, f, &mut out);
    let records = journal[usize::from(s.journal)..usize::from(after.journal)].to_vec();
    let logged_at = s.journal;
    after.journal = after.journal - logged_at + lowest;
    for t in after.train.iter_mut() {
        if t.standing == Standing::Asked(logged_at) {
            t.standing = Standing::Asked(lowest);
        }
    }
    (verdict, out, records, after)
}

/// Every frame is answered alike at every count up to 229, but for the place of its records.
#[test]
fn answered_alike_at_every_count() {
    let (mut accepted, mut logged) = (0, 0);
    for (mut s, lowest) in sound_states() {
        for f in any_frames() {
            s.journal = lowest;
            let due = answer_from(&s, lowest, &f);
            assert!(
                !matches!(due.0, Verdict::Refused(1 | 2 | 10 | 11 | 13)),
                "{due:?}"
            );
            accepted += u32::from(matches!(due.0, Verdict::Sent(_)));
            logged += due.2.len();
            for count in (lowest..200).step_by(31).chain(200..=229) {
                s.journal = count;
                assert_eq!(answer_from(&s, lowest, &f), due, "{f:?} at {count}");
            }
        }
    }
    assert_eq!((accepted, logged), (29, 41));
}

// "A state whose journal count is above 229 becomes strange, refusal 1."

/// The verdict on a frame with stores of these lengths. It is a refusal, and nothing has changed.
fn refusal_with(s: &State, f: &[u8], (table, records, out): (usize, usize, usize)) -> u8 {
    let (mut journal, mut out) = (vec![OLD; records], vec![0x77; out]);
    let (after, verdict) = answer(s, &ONES[..table], &mut journal, f, &mut out);
    assert_eq!(after, *s);
    assert!(journal.iter().all(|r| *r == OLD) && out.iter().all(|byte| *byte == 0x77));
    match verdict {
        Verdict::Refused(number) => number,
        Verdict::Sent(_) => panic!("{f:?} was accepted"),
    }
}

/// Stores of which one is short, or all.
const SHORT: [(usize, usize, usize); 4] = [
    (32_767, 236, 42),
    (32_768, 235, 42),
    (32_768, 236, 41),
    (0, 0, 0),
];

/// 0 to 229 are in range, in sound states of all kinds: there a short store is 2.
#[test]
fn in_range_up_to_229() {
    assert_eq!(MOST_COUNTED, 229);
    for (mut s, lowest) in sound_states() {
        for count in lowest..=229 {
            s.journal = count;
            assert!(sound(&s), "{count} {s:?}");
            for (f, stores) in any_frames().iter().zip(SHORT.iter().cycle()) {
                assert_eq!(refusal_with(&s, f, *stores), 2, "{f:?} at {count}");
            }
        }
    }
}

/// 230 to 255 are strange: 1 for every frame, before 2 and so before all others.
#[test]
fn strange_above_229() {
    let stores = [&SHORT[..], &[(32_768, 236, 42), (32_770, 300, 50)]].concat();
    for (mut s, _) in sound_states() {
        for count in 230..=255 {
            s.journal = count;
            assert!(!sound(&s), "{count} {s:?}");
            for f in any_frames() {
                let came = |stores: &_| refusal_with(&s, &f, *stores);
                assert!(stores.iter().map(came).all(|n| n == 1), "{f:?} at {count}");
            }
        }
    }
}

/// Every frame is 1, and nothing changes.
fn nothing_more(b: &mut Box) {
    assert!(!sound(&b.state));
    for f in any_frames() {
        assert_eq!(b.put(&f), Err(1), "{f:?}");
    }
}

/// At 229 a train that can go is granted, with records 229 and 230; then the state is strange, to
/// what is new, to what is said again, to gangs, to what is torn.
#[test]
fn the_last_request() {
    let mut b = Box::open(&X);
    b.state.journal = 229;
    assert_eq!(b.put(&frame(FA, 0, 0, 1)), Ok(vec![[FE, 0, 0, 1]]));
    assert_eq!(b.state.journal, 231);
    assert_eq!(
        b.journal[229..231],
        [record(FA, 0, 0, 1), authority(0, 0, 1, 1)]
    );
    let others = b.journal[..229].iter().chain(&b.journal[231..]);
    assert!(others.clone().all(|r| *r == OLD));
    assert_eq!(b.state.train[0].standing, Standing::Running(1));
    let again_or_new = [frame(FA, 0, 0, 1), frame(AM, 0, 0, 1), frame(FA, 1, 2, 1)];
    for f in again_or_new.into_iter().chain([gang(LA, 1), gang(LB, 0)]) {
        assert_eq!(b.put(&f), Err(1));
    }
    nothing_more(&mut b);
}

/// At 229 a journal of 235 records is short, one of 236 is not.
#[test]
fn a_short_journal_at_229() {
    let mut b = Box::open(&X);
    b.state.journal = 229;
    b.journal.truncate(235);
    assert_eq!(b.put(&frame(FA, 0, 0, 1)), Err(2));
    b.journal.push(OLD);
    assert_eq!(b.put(&frame(FA, 0, 0, 1)), Ok(vec![[FE, 0, 0, 1]]));
}

/// So many trains that wait, each for a section of its own, the last the longest, and perhaps one
/// more beyond them.
fn waiting(n: u8, other: Option<Standing>) -> State {
    let mut trains: Vec<_> = (0..n)
        .map(|t| (t, t + 1, Standing::Asked(100 - t)))
        .collect();
    trains.extend(other.map(|standing| (n, n + 1, standing)));
    state(&[4; 8], &trains, 101)
}

/// The FEs of so many that waited, the last first. On a post where a train stands the next is the
/// second track.
fn authorities(n: u8, is_left: bool) -> Vec<Record> {
    let track = |t: u8| if is_left && t + 1 == n { 1 } else { 2 };
    (0..n)
        .rev()
        .map(|t| authority(t, t, t + 1, track(t)))
        .collect()
}

/// A state, a frame, and the records of that frame's answers under a table of ones.
type Case = (State, [u8; FRAME_BYTES], Vec<Record>);

/// An FA, granted or declined, after so many others that waited: two records and more.
fn requests(n: u8) -> [Case; 2] {
    let free = waiting(n, Some(Standing::Free));
    let mut shut = free;
    shut.possessions[usize::from(n)] = true;
    let asked = frame(FA, n, n, n + 1);
    let granted = [authorities(n, false), vec![authority(n, n, n + 1, 1)]].concat();
    let declined = [authorities(n, false), vec![record(AFE, n, n, n + 1)]].concat();
    [(free, asked, granted), (shut, asked, declined)]
}

/// Frames that log one record to seven.
fn cases() -> Vec<Case> {
    let mut cases: Vec<Case> = (0..=5).flat_map(requests).collect();
    for n in 0..=5 {
        let arrives = waiting(n, Some(Standing::Running(1)));
        cases.push((arrives, frame(AM, n, n, n + 1), authorities(n, true)));
        let mut back = waiting(n, Some(Standing::Free));
        back.possessions[6] = true;
        cases.push((back, gang(LB, 6), authorities(n, false)));
        let asks = waiting(n, Some(Standing::Free));
        cases.push((asks, gang(LA, 6), vec![record(LE, GANG, 6, 7)]));
    }
    let mut back = waiting(6, None);
    back.possessions[6] = true;
    cases.push((back, gang(LB, 6), authorities(6, true)));
    cases
}

/// The records before the count and after those logged are untouched, those logged are all there,
/// and the state is strange exactly if its count is above 229 now.
fn check_case((s, f, answers): &Case, count: u8) -> u8 {
    let mut b = boxed(
        State {
            journal: count,
            ..*s
        },
        vec![255; TABLE_BYTES],
    );
    b.journal = vec![OLD; 240];
    let sent = answers.iter().map(|r| [r.kind, r.train, r.from, r.to]);
    assert_eq!(b.put(f), Ok(sent.collect()), "{f:?} at {count}");

    let records = [&[record(f[3], f[4], f[5], f[6])], &answers[..]].concat();
    let logged = records.len() as u8;
    assert_eq!(b.state.journal, count + logged);
    let mut journal = vec![OLD; 240];
    journal[usize::from(count)..][..records.len()].copy_from_slice(&records);
    assert_eq!(b.journal, journal);

    assert!(sound_but_for_its_count(&b.state));
    let strange = count + logged > 229;
    assert_eq!(sound(&b.state), !strange);
    assert_eq!(b.put(&[]), Err(if strange { 1 } else { 3 }));
    if strange {
        nothing_more(&mut b);
    }
    logged
}

/// From 223 on a frame may leave a strange state: one with seven records from 223, one with a single
/// record from 229. Nothing is lost, up to record 235.
#[test]
fn what_a_frame_leaves() {
    let mut strange = [0; 8];
    for case in cases() {
        for count in (101..200).step_by(33).chain(210..=229) {
            let logged = check_case(&case, count);
            strange[usize::from(logged)] += u32::from(count + logged > 229);
        }
    }
    // Of each number of records there are so many cases, and as many counts as it has records.
    let cases = [0, 2, 10, 4, 4, 4, 4, 3];
    let due: [u32; 8] = std::array::from_fn(|logged| cases[logged] * logged as u32);
    assert_eq!(strange, due);
}

/// Local runs go on up to 229: each logs three records, and the two of an LA or the one of an LB may
/// go beyond 229.
#[test]
fn local_runs_up_to_229() {
    for (count, times) in [(223, 2), (224, 2), (225, 1), (226, 1), (227, 1)] {
        let mut b = Box::open(&X);
        b.state.journal = count;
        come_and_go(&mut b, 1, times);
        assert_eq!(b.state.journal, count + 3 * times);
        let is_sound = count + 3 * times <= 229;
        let came = if is_sound { given(1) } else { Err(1) };
        assert_eq!(b.put(&gang(LA, 1)), came, "{count}");
    }
    for count in [228, 229] {
        let mut b = Box::open(&X);
        b.state.journal = count;
        assert_eq!(b.put(&gang(LA, 1)), given(1));
        assert_eq!(b.state.journal, count + 2);
        assert_eq!(b.put(&gang(LB, 1)), Err(1));
    }
}
