//! Any input gets an answer: garbage states, units, books, frames, stores. No answer is 13.

use crate::common::*;
use crate::place::judged;
use crate::together::{judged as judged_together, tracks_left};
use model::*;
use std::collections::{HashMap, HashSet};
use std::mem::discriminant;

/// A number that is often small, else anything.
fn number(rng: &mut Rng) -> u8 {
    match rng.below(10) {
        0 => rng.byte(),
        1 => 255,
        _ => rng.within(0, 9),
    }
}

fn standing(rng: &mut Rng) -> Standing {
    match rng.below(3) {
        0 => Standing::Free,
        1 => Standing::Asked(rng.byte()),
        _ => Standing::Running(number(rng)),
    }
}

/// A last finished move of any posts, or none.
fn last(rng: &mut Rng) -> Option<(u8, u8)> {
    let posts = (number(rng), number(rng));
    rng.chance(70).then_some(posts)
}

fn garbage(rng: &mut Rng) -> State {
    let mut s = State::EMPTY;
    s.posts = number(rng);
    s.trains = number(rng);
    s.sidings = number(rng);
    for n in s.tracks.iter_mut() {
        *n = number(rng);
    }
    for t in s.train.iter_mut() {
        *t = Train {
            start: number(rng),
            end: number(rng),
            at: number(rng),
            track: number(rng),
            standing: standing(rng),
            last: last(rng),
        };
    }
    for gang in s.possessions.iter_mut() {
        *gang = rng.chance(50);
    }
    s.given = number(rng);
    s.journal = rng.byte();
    s
}

/// A state with numbers in range, sound or not.
fn near(rng: &mut Rng) -> State {
    let mut s = garbage(rng);
    s.posts = rng.within(2, 8);
    s.trains = rng.within(1, 6);
    let named = if rng.chance(90) { s.posts } else { 8 };
    s.sidings = rng.sidings(named.into()).unwrap_or(0);
    for n in s.tracks.iter_mut() {
        *n = rng.within(1, 4);
    }
    for t in s.train.iter_mut() {
        t.start = rng.within(0, s.posts - 1);
        t.end = rng.within(0, s.posts - 1);
        t.at = rng.within(t.start.min(t.end), t.start.max(t.end));
        if t.at == t.end {
            t.standing = Standing::Free;
        }
    }
    if rng.chance(90) {
        give_tracks(&mut s, rng);
    }
    if rng.chance(98) {
        give_moves(&mut s, rng);
    }
    // Few gangs, so that many states are sound; the places that are not read hold anything.
    for gang in s.possessions[..usize::from(s.posts) - 1].iter_mut() {
        *gang = rng.chance(15);
    }
    s.given = rng.within(0, 21);
    // Counts on both sides of 229 more often than by chance.
    if rng.chance(20) {
        s.journal = rng.within(220, 238);
    }
    s
}

/// Gives each train some track that no train before it has at the post, if there is one, and one
/// put away none.
fn give_tracks(s: &mut State, rng: &mut Rng) {
    let mut held = vec![];
    let tracks = s.tracks;
    let mut some = |post: u8| {
        let count = tracks[usize::from(post)];
        let first = rng.within(0, count - 1);
        let mut turned = (0..count).map(|n| (first + n) % count + 1);
        let track = turned.find(|n| !held.contains(&(post, *n))).unwrap_or(1);
        held.push((post, track));
        track
    };
    for t in s.train.iter_mut() {
        t.track = match in_siding(t, s.sidings) {
            true => 0,
            false => some(t.at),
        };
        if let (Standing::Running(_), Some(to)) = (t.standing, t.next()) {
            t.standing = Standing::Running(some(to));
        }
    }
}

/// Gives each train the move that reached its post, or now and then the one back, or the next one.
fn give_moves(s: &mut State, rng: &mut Rng) {
    for t in s.train.iter_mut() {
        bring(t, t.at);
        t.last = match rng.below(300) {
            0 => t.last.map(|(from, to)| (to, from)),
            1 => t.next().map(|to| (t.at, to)),
            _ => t.last,
        };
    }
}

/// Start and end on the line, the present post between them.
fn on_its_way(t: &Train, posts: u8) -> bool {
    let up = t.start <= t.at && t.at <= t.end;
    let down = t.end <= t.at && t.at <= t.start;
    t.start < posts && t.end < posts && (up || down)
}

/// Put away in a siding at its end; its post is one of eight.
fn in_siding(t: &Train, sidings: u8) -> bool {
    t.at == t.end && sidings / 2u8.pow(t.at.into()) % 2 == 1
}

/// Soundness once more, by the paper's words and in another way.
fn sound_again(s: &State) -> bool {
    sound_but_for_its_count(s) && s.journal < 230
}

/// The same for a state of any count.
pub fn sound_but_for_its_count(s: &State) -> bool {
    held_soundly(s) && on_right_tracks(s) && with_right_moves(s)
}

/// Of trains on their ways: with none at its start each, else the one-post move towards its end
/// that reached the present post. It is sought among all moves of the line.
fn with_right_moves(s: &State) -> bool {
    s.train[..usize::from(s.trains)].iter().all(|t| {
        let up = (1..s.posts).map(|post| (post - 1, post));
        let down = (1..s.posts).map(|post| (post, post - 1));
        let mut towards_its_end: Vec<(u8, u8)> = match t.start < t.end {
            true => up.collect(),
            false => down.collect(),
        };
        towards_its_end.retain(|(_, to)| *to == t.at);
        match t.last {
            None => t.at == t.start,
            Some(last) => t.at != t.start && towards_its_end == [last],
        }
    })
}

/// The numbers of the state itself are in their ranges, its count aside.
fn ranges(s: &State) -> bool {
    let line = s.posts >= 2 && s.posts <= 8 && s.trains >= 1 && s.trains <= 6;
    line && s.given <= 20 && u32::from(s.sidings) < 2u32.pow(s.posts.into())
}

/// All but the tracks' numbers, the last moves and the count: each post with the six-bit set of its
/// holders, each section likewise, with a seventh bit for a gang.
fn held_soundly(s: &State) -> bool {
    if !ranges(s) {
        return false;
    }
    let mut posts = [0u8; 8];
    let mut sections = s.possessions.map(|gang| u8::from(gang) << 6);
    sections[usize::from(s.posts) - 1..].fill(0);
    let mut numbers = vec![];
    for (t, train) in s.train[..usize::from(s.trains)].iter().enumerate() {
        if !on_its_way(train, s.posts) {
            return false;
        }
        let (end, at, standing) = (train.end, train.at, train.standing);
        posts[usize::from(at)] |= u8::from(!in_siding(train, s.sidings)) << t;
        match standing {
            Standing::Free => {}
            _ if at == end => return false,
            Standing::Asked(n) => numbers.push(n),
            Standing::Running(_) => {
                let next = if end > at { at + 1 } else { at - 1 };
                posts[usize::from(next)] |= 1 << t;
                sections[usize::from(next.min(at))] |= 1 << t;
            }
        }
    }
    let full = |p: usize| posts[p].count_ones() > u32::from(s.tracks[p]);
    let odd = |p: usize| s.tracks[p] < 1 || s.tracks[p] > 4;
    let distinct = |n: &u8| numbers.iter().filter(|m| *m == n).count() == 1;
    (0..usize::from(s.posts)).all(|p| !full(p) && !odd(p))
        && sections.iter().all(|set| set.count_ones() <= 1)
        && numbers.iter().all(|n| *n < s.journal && distinct(n))
}

/// Of a state that is held soundly: each track that is held, with its post, is one of that post and
/// is held once; one put away has none.
fn on_right_tracks(s: &State) -> bool {
    let mut held = HashSet::new();
    let mut take = |post: u8, track: u8| {
        let there = track >= 1 && track <= s.tracks[usize::from(post)];
        there && held.insert((post, track))
    };
    s.train[..usize::from(s.trains)].iter().all(|t| {
        let here = match in_siding(t, s.sidings) {
            true => t.track == 0,
            false => take(t.at, t.track),
        };
        let ahead = match t.standing {
            Standing::Running(track) if t.end > t.at => take(t.at + 1, track),
            Standing::Running(track) => take(t.at - 1, track),
            _ => true,
        };
        here && ahead
    })
}

/// A frame for one of the trains or sections, or anything.
fn some_frame(s: &State, rng: &mut Rng) -> Vec<u8> {
    if rng.chance(30) {
        let section = rng.within(0, 7);
        let kind = match s.possessions.get(usize::from(section)) {
            Some(true) if rng.chance(80) => LB,
            _ => rng.within(LA, LB),
        };
        return frame(kind, GANG, section, section + 1).to_vec();
    }
    let t = rng.within(0, 6);
    match s.train.get(usize::from(t)) {
        Some(Train {
            last: Some((from, to)),
            ..
        }) if rng.chance(20) => frame(if rng.chance(10) { FA } else { AM }, t, *from, *to).to_vec(),
        Some(train) if rng.chance(80) => {
            let next = train.next().unwrap_or(0);
            frame(if rng.chance(50) { FA } else { AM }, t, train.at, next).to_vec()
        }
        _ => {
            let length = rng.below(10) as usize;
            rng.bytes(length)
        }
    }
}

/// What an accepted frame leaves of gangs: an LA and an LB change the section that they name, an LA
/// the number given besides, and nothing else changes.
fn gangs_due(s: &State, f: &[u8]) -> ([bool; 7], u8) {
    let mut possessions = s.possessions;
    match f[3] {
        LA | LB => possessions[usize::from(f[5])] = f[3] == LA,
        _ => {}
    }
    (possessions, s.given + u8::from(f[3] == LA))
}

/// The answer due to an accepted frame that repeats one of before, as one frame or none; None where
/// the frame is new.
fn repeat_due(s: &State, f: &[u8]) -> Option<Vec<[u8; FRAME_BYTES]>> {
    let train = s.train.get(usize::from(f[4]))?;
    let with = |kind: u8| frame(kind, f[4], f[5], f[6]);
    match (f[3], train.standing) {
        (FA, Standing::Asked(_)) => Some(vec![with(AFE)]),
        (FA, Standing::Running(_)) => Some(vec![with(FE)]),
        (AM, _) if f[6] == train.at => Some(vec![]),
        _ => None,
    }
}

/// What came of a frame: the kind of one that was accepted, and whether as a repeat, or the refusal.
type Came = Result<(u8, bool), u8>;

/// Puts some frame to the state, with stores that may be short, and checks what came of it.
fn put_some_frame(s: &State, table: &[u8], rng: &mut Rng) -> Came {
    let records = JOURNAL_RECORDS - usize::from(!rng.chance(95));
    let mut journal = vec![OLD; records];
    let most = OUT_BYTES as u64;
    let room = if rng.chance(95) {
        most
    } else {
        rng.below(most)
    };
    let mut out = vec![0xCC; room as usize];
    let f = some_frame(s, rng);
    let (after, verdict) = answer(s, table, &mut journal, &f, &mut out);
    match verdict {
        Verdict::Refused(n) => {
            assert_eq!(after, *s);
            assert_eq!(n == 1, !sound(s));
            assert!(matches!(n, 1..=9 | 12 | 24..=26), "{n}");
            assert!(out.iter().all(|b| *b == 0xCC));
            assert!(journal.iter().all(|r| *r == OLD));
            Err(n)
        }
        Verdict::Sent(n) => {
            let (sent, rest) = out.split_at(FRAME_BYTES * n);
            assert!(rest.iter().all(|b| *b == 0xCC));
            Ok((f[3], check_taken(s, &after, &f, sent, &journal)))
        }
    }
}

/// Checks what came of a frame that was accepted, and says whether it was a repeat. The state is left
/// sound, or strange by its count alone.
fn check_taken(s: &State, after: &State, f: &[u8], sent: &[u8], journal: &[Record]) -> bool {
    assert!(sound(s) && sound_but_for_its_count(after));
    assert_eq!(sound(after), after.journal < 230);
    let due = repeat_due(s, f);
    match &due {
        Some(due) => {
            assert_eq!((after, sent), (s, due.as_flattened()));
            assert!(journal.iter().all(|r| *r == OLD));
        }
        None => {
            assert_eq!(logged(s, after, journal), [f, sent].concat());
            assert_eq!((after.possessions, after.given), gangs_due(s, f));
        }
    }
    due.is_some()
}

/// The records between the counts, as frames; all others are as they were.
fn logged(before: &State, after: &State, journal: &[Record]) -> Vec<u8> {
    let (from, to) = (usize::from(before.journal), usize::from(after.journal));
    let others = journal[..from].iter().chain(&journal[to..]);
    assert!(others.clone().all(|r| *r == OLD));
    let as_frame = |r: &Record| frame(r.kind, r.train, r.from, r.to);
    journal[from..to].iter().flat_map(as_frame).collect()
}

/// What the states showed of gangs.
#[derive(Debug, Default)]
struct Gangs {
    /// Sound states with a gang, with a place that is not read, and not sound for a gang alone.
    out: u32,
    unread: u32,
    in_the_way: u32,
    /// LAs and LBs accepted.
    asked: u32,
    back: u32,
}

impl Gangs {
    fn count(&mut self, s: &State, came: Came) {
        let places = s.possessions.split_at(usize::from(s.posts.clamp(1, 8)) - 1);
        self.out += u32::from(sound(s) && places.0.contains(&true));
        self.unread += u32::from(sound(s) && places.1.contains(&true));
        let without = State {
            possessions: [false; 7],
            ..*s
        };
        self.in_the_way += u32::from(!sound(s) && sound(&without));
        self.asked += u32::from(came == Ok((LA, false)));
        self.back += u32::from(came == Ok((LB, false)));
    }
}

/// What the states showed of repeats.
#[derive(Debug, Default)]
struct Repeats {
    /// Not sound for a last finished move alone.
    other_move: u32,
    /// FAs and AMs that were taken as repeats.
    asked: u32,
    arrived: u32,
}

impl Repeats {
    fn count(&mut self, s: &State, came: Came) {
        let strange = held_soundly(s) && on_right_tracks(s) && s.journal < 230 && !sound(s);
        self.other_move += u32::from(strange);
        self.asked += u32::from(came == Ok((FA, true)));
        self.arrived += u32::from(came == Ok((AM, true)));
    }
}

/// What the states showed of counts.
#[derive(Debug, Default)]
struct Counts {
    /// Not sound for the count alone.
    above: u32,
    /// New frames and repeats that were taken at 223 to 229, from where a frame may leave a count
    /// above 229.
    new: u32,
    again: u32,
}

impl Counts {
    fn count(&mut self, s: &State, came: Came) {
        let above = sound_but_for_its_count(s) && s.journal > 229;
        assert!(!above || came == Err(1));
        self.above += u32::from(above);
        let high = (223..=229).contains(&s.journal);
        self.new += u32::from(high && matches!(came, Ok((_, false))));
        self.again += u32::from(high && matches!(came, Ok((_, true))));
    }
}

#[test]
fn states_of_all_sorts() {
    let mut rng = Rng(0x5EED);
    let table: Vec<u8> = rng.bytes(TABLE_BYTES);
    let (mut good, mut strange, mut answered, mut crowded, mut off_track) = (0, 0, 0, 0, 0);
    let mut gangs = Gangs::default();
    let mut repeats = Repeats::default();
    let mut counts = Counts::default();
    for round in 0..80_000 {
        let s = match round % 4 {
            0 => garbage(&mut rng),
            _ => near(&mut rng),
        };
        assert_eq!(sound(&s), sound_again(&s), "{s:?}");
        let came = put_some_frame(&s, &table, &mut rng);
        strange += u32::from(came == Err(1));
        answered += u32::from(came.is_ok());
        gangs.count(&s, came);
        repeats.count(&s, came);
        counts.count(&s, came);
        good += u32::from(sound(&s));
        crowded += u32::from(sound(&s) && !held_soundly(&State { sidings: 0, ..s }));
        off_track += u32::from(held_soundly(&s) && !on_right_tracks(&s));
    }
    assert!(
        good > 3000 && strange > 10_000 && answered > 500 && crowded > 500 && off_track > 500,
        "{good} {strange} {answered} {crowded} {off_track}"
    );
    assert!(gangs.out > 500 && gangs.unread > 500, "{gangs:?}");
    assert!(gangs.in_the_way > 500, "{gangs:?}");
    assert!(gangs.asked > 300 && gangs.back > 300, "{gangs:?}");
    assert!(repeats.other_move > 500, "{repeats:?}");
    assert!(repeats.asked > 200 && repeats.arrived > 200, "{repeats:?}");
    assert!(counts.above > 500, "{counts:?}");
    assert!(counts.new > 100 && counts.again > 50, "{counts:?}");
}

fn some_unit(rng: &mut Rng) -> Unit {
    Unit {
        train: number(rng),
        start: number(rng),
        end: number(rng),
        at: number(rng),
        state: STATES[rng.below(6) as usize],
    }
}

#[test]
fn units_of_all_sorts() {
    let mut rng = Rng(0x0417);
    for _ in 0..100_000 {
        let u = some_unit(&mut rng);
        let button = BUTTONS[rng.below(5) as usize];
        let (after, refusal, sent) = unit::press(&u, button);
        assert!(matches!(refusal, 0 | 1 | 8 | 21), "{refusal}");
        assert_eq!(refusal == 1, !unit::sound(&u));
        assert!(button != Button::Again || (after == u && sent.is_some() == (refusal == 0)));
        assert!(refusal == 0 || (after == u && sent.is_none()));
        assert!(refusal != 0 || unit::sound(&after));
        let f = frame(rng.within(0, 8), number(&mut rng), u.at, number(&mut rng));
        let f = &f[..FRAME_BYTES - usize::from(!rng.chance(95))];
        let (after, refusal) = unit::hear(&u, f);
        assert!(matches!(refusal, 0 | 1 | 3..=6 | 22), "{refusal}");
        assert_eq!(refusal == 1, !unit::sound(&u));
        assert!(refusal == 0 || after == u);
        assert!(refusal != 0 || unit::sound(&after));
        assert!(after == u || matches!(f[3], FE | AFE));
    }
}

/// A unit for the train that may know what the dispatcher knows of it, or any unit.
fn unit_beside(t: u8, train: &Train, rng: &mut Rng) -> Unit {
    let any = some_unit(rng);
    if rng.chance(5) {
        return any;
    }
    let at = match train.next() {
        Some(next) if rng.chance(20) => next,
        _ => train.at,
    };
    let state = match train.standing {
        Standing::Free | Standing::Asked(_) if rng.chance(90) => UnitState::Standing,
        _ => any.state,
    };
    let (made, _) = unit::make(t, train.start, train.end);
    Unit { at, state, ..made }
}

/// Any state and any units, more or fewer than there are trains: the fault, or none, as judged.
#[test]
fn pairs_of_all_sorts() {
    let mut rng = Rng(0xCAB);
    let mut met = HashMap::new();
    for round in 0..60_000 {
        let s = match round % 6 {
            0 => garbage(&mut rng),
            _ => near(&mut rng),
        };
        let count = rng.below(7) as usize;
        let beside = |(t, train)| unit_beside(t, train, &mut rng);
        let units: Vec<Unit> = (0..).zip(&s.train[..count]).map(beside).collect();
        let came = fault(&s, &units);
        assert_eq!(came, judged_together(&s, &units), "{s:?} {units:?}");
        *met.entry(came.map(|f| discriminant(&f))).or_insert(0) += 1;
    }
    assert_eq!(met.len(), 7, "{met:?}");
    assert!(met.values().all(|n| *n > 100), "{met:?}");
}

/// A unit that has heard, or not yet heard, what the dispatcher knows of its train.
fn unit_known(t: u8, train: &Train, rng: &mut Rng) -> Unit {
    let (made, _) = unit::make(t, train.start, train.end);
    let waits = match train.at == train.end {
        true => UnitState::Standing,
        false => STATES[rng.below(3) as usize],
    };
    let (at, state) = match (train.standing, train.next()) {
        (Standing::Running(_), Some(next)) if rng.chance(30) => (next, UnitState::Standing),
        (Standing::Running(_), _) if rng.chance(80) => {
            (train.at, STATES[rng.within(3, 5) as usize])
        }
        _ => (train.at, waits),
    };
    Unit { at, state, ..made }
}

/// Units that are where a sound state has their trains, and have no more than its authorities: no
/// fault. Many posts are full by them.
#[test]
fn units_that_the_dispatcher_knows() {
    let mut rng = Rng(0xFE11);
    let (mut tried, mut full, mut put_away) = (0, 0, 0);
    for _ in 0..60_000 {
        let s = near(&mut rng);
        if !sound(&s) {
            continue;
        }
        let known = |(t, train)| unit_known(t, train, &mut rng);
        let units: Vec<Unit> = (0..).zip(s.present()).map(known).collect();
        assert_eq!(fault(&s, &units), None, "{s:?} {units:?}");
        assert_eq!(judged_together(&s, &units), None);
        let left = tracks_left(&s, &units);
        tried += 1;
        full += u32::from(left[..usize::from(s.posts)].contains(&0));
        put_away += u32::from(s.present().iter().any(|t| in_siding(t, s.sidings)));
    }
    assert!(tried > 3000 && full > 1000, "{tried} {full}");
    assert!(put_away > 500, "{put_away}");
}

/// A book of a random line, of any edition.
fn whole_book(rng: &mut Rng) -> Vec<u8> {
    let (tracks, trains) = rng.line(4, 3, 4);
    match rng.sidings(tracks.len()) {
        Some(sidings) if rng.chance(60) => {
            let positions = rng.positions(tracks.len());
            book_with_positions(&tracks, sidings, &positions, &trains)
        }
        sidings => book_of(&tracks, sidings, &trains),
    }
}

/// A book of a random line, as it is, with one or two bytes altered, or of another length.
fn some_book(rng: &mut Rng) -> Vec<u8> {
    let mut b = whole_book(rng);
    let altered = match rng.below(4) {
        0 => 0,
        1 => 1,
        2 => {
            let length = rng.below(40) as usize;
            b.resize(length, 1);
            if length >= 2 && rng.chance(70) {
                b[0] = 0;
                b[1] = length as u8 - 2;
            }
            0
        }
        _ => 2,
    };
    for _ in 0..altered {
        let at = rng.below(b.len() as u64) as usize;
        b[at] = number(rng);
    }
    b
}

/// A book read is the book of its line, byte for byte, and other places are 0.
fn is_book_of(b: &[u8], line: &Line) -> bool {
    let p = usize::from(line.posts);
    let t = usize::from(line.trains);
    let pairs: Vec<(u8, u8)> = (0..t).map(|t| (line.starts[t], line.ends[t])).collect();
    let unread = [&line.tracks[p..], &line.starts[t..], &line.ends[t..]].concat();
    let tracks = &line.tracks[..p];
    let again = match b[2] {
        1 => {
            assert_eq!(line.sidings, 0);
            book_of(tracks, None, &pairs)
        }
        2 => book_of(tracks, Some(line.sidings), &pairs),
        _ => {
            let (same, positions) = read_book_with_positions(b).unwrap();
            assert_eq!(same, *line);
            assert!(positions[p..].iter().all(|metres| *metres == 0));
            book_with_positions(tracks, line.sidings, &positions[..p], &pairs)
        }
    };
    again == b && unread.iter().all(|n| *n == 0)
}

/// Random books: each is refused by the first check it fails.
#[test]
fn books_of_all_sorts() {
    let mut rng = Rng(0xB00C);
    let mut met = [0u32; 28];
    let mut table = vec![0; TABLE_BYTES];
    let journal = [Record::BLANK; JOURNAL_RECORDS];
    for _ in 0..20_000 {
        let b = some_book(&mut rng);
        let (state, refusal) = open(&b, &mut table, &journal);
        assert_eq!(refusal == 0, sound(&state));
        assert!(refusal != 27 || b[2] == 3, "{b:?}");
        met[usize::from(refusal)] += 1;
        match read_book(&b) {
            Ok(line) => {
                assert!(matches!(refusal, 0 | 19 | 20));
                assert!(is_book_of(&b, &line), "{b:?} {line:?}");
            }
            Err(n) => assert_eq!(refusal, n),
        }
    }
    for (n, times) in met.iter().enumerate() {
        let meets = matches!(n, 0 | 4 | 14..=20 | 23 | 27);
        assert_eq!(*times > 0, meets, "{n}: {met:?}");
    }
}

/// The position of a post in a book of edition 3, its four bytes found by their place.
fn metres_of(b: &[u8], post: u8) -> u64 {
    let at = 5 + usize::from(b[3]) + 4 * usize::from(post);
    let worth = [1 << 24, 1 << 16, 1 << 8, 1];
    (0..4).map(|n| worth[n] * u64::from(b[at + n])).sum()
}

/// In order and each once they are the same, from 0, and so none is above the last.
fn rises_from_0(positions: &[u64]) -> bool {
    let mut sorted = positions.to_vec();
    sorted.sort();
    sorted.dedup();
    sorted == positions && sorted[0] == 0 && sorted[sorted.len() - 1] < 1 << 23
}

/// The refusal of a book of edition 3 once more, all bytes found by their place; 0 if none.
fn refusal_due(b: &[u8]) -> u8 {
    let n = b.len();
    let at = |place: usize| usize::from(b[place]);
    if n < 4 || at(0) * 256 + at(1) + 2 != n {
        return 14;
    }
    if b[2] != 3 {
        return 4;
    }
    let p = at(3);
    if !(2..=8).contains(&p) {
        return 15;
    }
    if n < 6 + 5 * p {
        return 14;
    }
    let positions: Vec<u64> = (0..b[3]).map(|post| metres_of(b, post)).collect();
    match at(5 + 5 * p) {
        _ if (4..4 + p).any(|place| at(place) < 1 || at(place) > 4) => 16,
        _ if at(4 + p) >= 1 << p => 23,
        _ if !rises_from_0(&positions) => 27,
        0 | 7.. => 17,
        t if n != 6 + 5 * p + 2 * t => 14,
        _ if (6 + 5 * p..n).any(|place| at(place) >= p) => 18,
        _ => 0,
    }
}

/// A speed that is mostly allowed, else anything.
fn some_speed(rng: &mut Rng) -> u32 {
    match rng.below(10) {
        0 => rng.word() as u32,
        1 => rng.below(600) as u32,
        _ => rng.within(1, 160).into(),
    }
}

/// Asks for a running time, and checks what came of it by the card's words. Gives the refusal.
fn ask_for_time(b: &[u8], rng: &mut Rng) -> u8 {
    let (one, any, speed) = (rng.within(0, 4), number(rng), some_speed(rng));
    let (from, to) = if rng.chance(50) {
        (one, any)
    } else {
        (any, one)
    };
    let due = match refusal_due(b) {
        0 if from.max(to) >= b[3] => 9,
        0 if speed == 0 || speed > 160 => 28,
        number => number,
    };
    match running_time(b, from, to, speed) {
        Ok((q, r)) => {
            let [q, r, v] = [q, r, speed].map(u64::from);
            let way = 18 * metres_of(b, from).abs_diff(metres_of(b, to));
            assert!(way == 5 * v * q + r && r < 5 * v, "{b:?} {from} {to} {v}");
            assert_eq!(due, 0);
        }
        Err(number) => assert_eq!(number, due, "{b:?} {from} {to} {speed}"),
    }
    due
}

/// Random questions for a running time: each is refused by the first check it fails.
#[test]
fn questions_of_all_sorts() {
    let mut rng = Rng(0x71E);
    let mut met = [0u32; 29];
    for _ in 0..40_000 {
        let b = some_book(&mut rng);
        met[usize::from(ask_for_time(&b, &mut rng))] += 1;
        if b.get(2) == Some(&3) {
            assert_eq!(read_book(&b).err().unwrap_or(0), refusal_due(&b), "{b:?}");
        }
    }
    for (n, times) in met.iter().enumerate() {
        let meets = matches!(n, 0 | 4 | 9 | 14..=18 | 23 | 27 | 28);
        assert_eq!(*times > 50, meets, "{n}: {met:?}");
        assert!(meets || *times == 0, "{n}: {met:?}");
    }
}

/// A place report of any sort; its metres are any bits, or half metres that may be on the line.
fn some_report(rng: &mut Rng) -> Report {
    match rng.below(4) {
        0 => Report::Missing,
        1 => Report::Post(number(rng)),
        2 => Report::Metres(f32::from_bits(rng.word() as u32)),
        _ => {
            let farthest = [30, 10_000, 1 << 24][rng.below(3) as usize];
            Report::Metres(rng.below(farthest) as f32 / 2.0)
        }
    }
}

/// Asks for a place, and checks what came of it. Gives the refusal.
fn ask_for_place(b: &[u8], rng: &mut Rng) -> u8 {
    let report = some_report(rng);
    let due = match refusal_due(b) {
        0 => {
            let posts: Vec<u32> = (0..b[3]).map(|post| metres_of(b, post) as u32).collect();
            judged(&posts, report)
        }
        number => Err(number),
    };
    assert_eq!(place(b, report), due, "{b:?} {report:?}");
    due.err().unwrap_or(0)
}

/// Random place reports: each is refused by the first check it fails.
#[test]
fn reports_of_all_sorts() {
    let mut rng = Rng(0x97ACE);
    let mut met = [0u32; 30];
    for _ in 0..40_000 {
        let b = some_book(&mut rng);
        met[usize::from(ask_for_place(&b, &mut rng))] += 1;
    }
    for (n, times) in met.iter().enumerate() {
        let meets = matches!(n, 0 | 4 | 9 | 14..=18 | 23 | 27 | 29);
        assert_eq!(*times > 50, meets, "{n}: {met:?}");
        assert!(meets || *times == 0, "{n}: {met:?}");
    }
}

/// Noise, often with the length that a book of its bytes would have.
#[test]
fn noise_of_all_lengths() {
    let mut rng = Rng(0x2015E);
    for _ in 0..20_000 {
        let length = rng.below(60) as usize;
        let mut noise = rng.bytes(length);
        let named = length >= 4 && rng.chance(50);
        if named {
            noise[..2].copy_from_slice(&[0, length as u8 - 2]);
            if rng.chance(50) {
                noise[2] = rng.within(0, 4);
            }
        }
        match read_book(&noise) {
            Ok(line) => assert!(is_book_of(&noise, &line)),
            Err(number) => {
                let other = named && !matches!(noise[2], 1..=3);
                assert_eq!(number == 4, other, "{noise:?}");
            }
        }
        let other = named && noise[2] != 3;
        assert_eq!(ask_for_time(&noise, &mut rng) == 4, other, "{noise:?}");
        assert_eq!(ask_for_place(&noise, &mut rng) == 4, other, "{noise:?}");
        let whole = length == FRAME_BYTES && noise[..2] == [0, 5];
        assert_eq!(read_frame(&noise) == Err(3), !whole);
        assert!(program::run(&mut &noise[..]).ends_with('\n'));
    }
}
