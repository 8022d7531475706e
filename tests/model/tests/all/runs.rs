//! Random runs: demand 3 told by a tally that reads book, frames, answers and
//! refusals only; each refusal and each answer against the tally as well.
//! Crews and track gangs send the frames, crews some of them again.

use crate::common::*;
use crate::counts::check_count;
use crate::tally::{Has, Tally};
use model::*;

/// A run from an opened book, with everything that is checked after a frame.
pub struct Run {
    pub state: State,
    pub table: Vec<u8>,
    pub journal: Vec<Record>,
    pub tally: Tally,
    /// The record of every FE that went out for the first time, in order.
    pub authorities: Vec<Record>,
    /// The frames that were taken as repeats, and every FE that went out again.
    pub repeats: Vec<Vec<u8>>,
    pub again: Vec<Record>,
    pub right_table: bool,
    /// Of a hundred random frames so many are a gang's.
    gangs: u64,
    pub refused: [u64; 27],
    accepted: u64,
    most_sent: usize,
    /// LBs that let several trains go.
    several_back: u64,
    /// Frames after which all trains short of their ends waited.
    stuck: u64,
}

impl Run {
    /// A random book that opens.
    pub fn open(rng: &mut Rng) -> Run {
        loop {
            let tracks = rng.within(1, 4);
            let (tracks, trains) = rng.line(8, 6, tracks);
            let sidings = rng.sidings(tracks.len());
            // Small lines open far more often: pass most of them over.
            if tracks.len() + trains.len() < 10 && rng.chance(90) {
                continue;
            }
            let (mut table, journal) = Run::stores(rng);
            let before = journal.clone();
            let book = book_of(&tracks, sidings, &trains);
            let (state, refusal) = open(&book, &mut table, &journal);
            assert_eq!(journal, before);
            if refusal == 0 {
                assert_eq!(state.journal, 0);
                return Run {
                    state,
                    table,
                    journal,
                    tally: Tally::new(&tracks, sidings.unwrap_or(0), &trains),
                    authorities: vec![],
                    repeats: vec![],
                    again: vec![],
                    right_table: true,
                    gangs: [0, 0, 10, 70][rng.below(4) as usize],
                    refused: [0; 27],
                    accepted: 0,
                    most_sent: 0,
                    several_back: 0,
                    stuck: 0,
                };
            }
            assert!(matches!(refusal, 19 | 20));
            assert_eq!(state, State::EMPTY);
        }
    }

    /// A table and a journal with anything in them, some longer than they need to be.
    fn stores(rng: &mut Rng) -> (Vec<u8>, Vec<Record>) {
        let mut table = rng.bytes(TABLE_BYTES.min(64));
        table.resize(TABLE_BYTES + rng.below(3) as usize, 0x5A);
        let extra = rng.below(3) as usize;
        let some = |_| Record {
            track: rng.byte(),
            ..record(rng.byte(), rng.byte(), rng.byte(), rng.byte())
        };
        let journal = (0..JOURNAL_RECORDS + extra).map(some).collect();
        (table, journal)
    }

    /// Puts a frame with an out buffer and checks all that is due. Gives the answers.
    pub fn put(&mut self, frame: &[u8], out: &mut [u8]) -> Vec<u8> {
        let journal = self.journal.clone();
        let buffer = out.to_vec();
        let (after, verdict) = answer(&self.state, &self.table, &mut self.journal, frame, out);
        let (due, sent) = match verdict {
            Verdict::Refused(number) => (number, 0),
            Verdict::Sent(sent) => (0, sent),
        };
        assert_eq!(due, self.tally.refusal(frame, out.len()));
        let (answers, rest) = out.split_at(FRAME_BYTES * sent);
        assert_eq!(rest, &buffer[answers.len()..]);
        if due == 0 {
            match self.tally.repeat_due(frame) {
                Some(due) => self.accept_repeat(frame, after, answers, &due, &journal),
                None => self.accept(frame, after, answers, journal),
            }
        } else {
            assert_eq!(after, self.state);
            assert_eq!(self.journal, journal);
            self.refused[usize::from(due)] += 1;
        }
        self.check();
        self.stuck += u64::from(self.tally.standstill());
        answers.to_vec()
    }

    /// The answers to a repeat are those due, and neither state nor journal changed. The tally takes
    /// the frame and its FE as any other, with the track of that FE's record which is there already,
    /// and stays as it was.
    fn accept_repeat(
        &mut self,
        taken: &[u8],
        after: State,
        answers: &[u8],
        due: &[Record],
        journal: &[Record],
    ) {
        assert_eq!(answers, frames_of(due).as_flattened());
        assert_eq!(after, self.state);
        assert_eq!(self.journal, journal);

        let before = self.tally.clone();
        self.tally.take(taken);
        for fe in due.iter().filter(|r| r.kind == FE) {
            let of_it = |r: &&Record| Record { track: 0, ..**r } == Record { track: 0, ..*fe };
            let track = self.log().iter().find(of_it).expect("its record").track;
            self.tally.hear(fe, track);
            self.again.push(*fe);
        }
        assert_eq!(self.tally, before);
        self.repeats.push(taken.to_vec());
    }

    /// The answers to a new frame are those due, and are logged with it, each FE with the track due;
    /// nothing else in the journal changed.
    fn accept(&mut self, taken: &[u8], after: State, answers: &[u8], mut journal: Vec<Record>) {
        let count = usize::from(self.state.journal);
        let logged = &self.journal[count + 1..usize::from(after.journal)];
        self.tally.take(taken);
        let due = self.tally.answers_due(taken, &self.table, logged);
        assert_eq!(answers, frames_of(&due).as_flattened());

        journal[count] = record(taken[3], taken[4], taken[5], taken[6]);
        journal[count + 1..][..due.len()].copy_from_slice(&due);
        assert_eq!(self.journal, journal);
        assert_eq!(usize::from(after.journal), count + 1 + due.len());
        self.most_sent = self.most_sent.max(due.len());
        self.several_back += u64::from(taken[3] == LB && due.len() > 1);
        self.authorities.extend(due.iter().filter(|r| r.kind == FE));
        self.state = after;
        self.accepted += 1;
    }

    /// Demand 3, card 2's clause and the FE counts, after any list of frames.
    fn check(&self) {
        self.tally.check_holding();
        self.tally.check_tracks();
        if self.right_table {
            self.tally.check_standstill();
        }
        assert!(sound(&self.state));
        check_count(&self.state, &self.journal);
        self.check_free_tracks();
        self.check_gangs();

        // Every authority written has its logged request, also one that is written again.
        let log = self.log();
        for fe in self.authorities.iter().chain(&self.again) {
            let fa = record(FA, fe.train, fe.from, fe.to);
            let logged = |n: usize| log[n] == *fe && log[..n].contains(&fa);
            assert!((0..log.len()).any(logged));
        }
        for t in 0..self.tally.trains() {
            self.check_train(t);
        }
    }

    /// The records below the count.
    fn log(&self) -> &[Record] {
        &self.journal[..usize::from(self.state.journal)]
    }

    /// Some track of a post is unheld exactly where fewer trains hold the post than it has tracks.
    fn check_free_tracks(&self) {
        for (post, count) in (0..).zip(&self.tally.tracks) {
            let fewer = self.tally.holders(post) < usize::from(*count);
            for up in [false, true] {
                assert_eq!(self.state.free_track(post, up).is_some(), fewer);
            }
        }
    }

    /// State and tally tell the same of gangs; of sections that the line has not nothing is told.
    /// The LE records number the local runs given.
    fn check_gangs(&self) {
        let out = |section| self.tally.gangs.get(section).is_some_and(|n| *n > 0);
        assert_eq!(self.state.possessions, std::array::from_fn(out));
        assert_eq!(self.state.given, self.tally.given);
        let les = self.log().iter().filter(|r| r.kind == LE).count();
        assert_eq!(les, usize::from(self.tally.given));
    }

    /// State and tally tell the same of a train, and its FEs number its posts travelled, plus one
    /// while it is Running.
    fn check_train(&self, t: usize) {
        let train = &self.state.train[t];
        assert_eq!(train.at, self.tally.post[t]);
        assert_eq!(train.last, self.tally.finished(t));
        assert_eq!(train.track, self.tally.here[t]);
        let running = match (train.standing, self.tally.has[t]) {
            (Standing::Free, Has::Nothing) => 0,
            (Standing::Asked(number), Has::Asked) => {
                let fa = record(FA, t as u8, train.at, self.tally.next(t));
                assert_eq!(self.log()[usize::from(number)], fa);
                0
            }
            (Standing::Running(ahead), Has::Authority(_, _)) => {
                assert_eq!(ahead, self.tally.ahead[t]);
                1
            }
            (standing, has) => panic!("{standing:?} {has:?}"),
        };
        let is_its = |r: &&Record| r.kind == FE && usize::from(r.train) == t;
        let fes = self.log().iter().filter(is_its).count();
        assert_eq!(fes, usize::from(train.at.abs_diff(train.start)) + running);
    }

    /// A gang's frame: mostly it asks where none is out and gives back where one is.
    fn gang_frame(&self, rng: &mut Rng) -> [u8; FRAME_BYTES] {
        let section = rng.below(self.tally.gangs.len() as u64) as u8;
        let kind = match self.tally.gangs[usize::from(section)] {
            _ if rng.chance(30) => rng.within(LA, LB),
            0 => LA,
            _ => LB,
        };
        frame(kind, GANG, section, section + 1)
    }

    /// A train's frame: mostly it asks, or reports where it has an authority, or says once more what
    /// it said.
    fn crew_frame(&self, rng: &mut Rng) -> [u8; FRAME_BYTES] {
        if let Some(again) = said_again(&self.tally, rng).filter(|_| rng.chance(15)) {
            return again;
        }
        let t = rng.below(self.tally.trains() as u64) as usize;
        let sensible = match self.tally.has[t] {
            Has::Authority(_, _) => 4,
            _ => 1,
        };
        let kind = if rng.chance(90) {
            sensible
        } else {
            rng.within(0, 8)
        };
        frame(kind, t as u8, self.tally.post[t], self.tally.next(t))
    }

    /// A frame as crews and gangs might send it, sensible or not.
    pub fn random_frame(&self, rng: &mut Rng) -> Vec<u8> {
        let mut f = if rng.chance(self.gangs) {
            self.gang_frame(rng).to_vec()
        } else {
            self.crew_frame(rng).to_vec()
        };
        match rng.below(40) {
            0 => {
                let length = rng.below(20) as usize;
                f = rng.bytes(length);
            }
            1 => f.truncate(rng.below(7) as usize),
            2 => f.push(rng.byte()),
            3 => {
                let at = rng.below(7) as usize;
                f[at] = rng.byte();
            }
            4 => f[4] = rng.within(0, 7),
            5 => f[5] = rng.within(0, 8),
            6 => f[6] = rng.within(0, 8),
            7 => f.swap(5, 6),
            _ => {}
        }
        f
    }

    pub fn random_out(rng: &mut Rng) -> Vec<u8> {
        let length = if rng.chance(3) {
            rng.below(OUT_BYTES as u64)
        } else {
            OUT_BYTES as u64 + rng.below(9)
        };
        let fill = rng.byte();
        vec![fill; length as usize]
    }
}

/// The frames of these records.
fn frames_of(records: &[Record]) -> Vec<[u8; FRAME_BYTES]> {
    let frame_of = |r: &Record| frame(r.kind, r.train, r.from, r.to);
    records.iter().map(frame_of).collect()
}

/// Three thousand runs of any frames under the right table.
#[test]
fn demand_three() {
    let mut rng = Rng(0xD3);
    let mut refused = [0u64; 27];
    let (mut accepted, mut repeats, mut again) = (0, [0; 8], 0);
    let (mut home, mut crowded, mut stuck) = (0, 0, 0);
    for _ in 0..3000 {
        let mut run = Run::open(&mut rng);
        run.check();
        for _ in 0..rng.below(140) {
            let f = run.random_frame(&mut rng);
            let mut out = Run::random_out(&mut rng);
            run.put(&f, &mut out);
        }
        for (sum, n) in refused.iter_mut().zip(run.refused) {
            *sum += n;
        }
        accepted += run.accepted;
        for f in &run.repeats {
            repeats[usize::from(f[3])] += 1;
        }
        again += run.again.len();
        home += u32::from((0..run.tally.trains()).all(|t| !run.tally.short_of_end(t)));
        crowded += u32::from(run.tally.crowded());
        stuck += u32::from(run.stuck > 0);
    }
    // The runs meet every refusal that a run can meet, and no other: never 13, which is gone, and
    // never 1, however many records there are.
    for (number, n) in refused.iter().enumerate() {
        let meets = matches!(number, 2..=9 | 12 | 24..=26);
        assert_eq!(*n > 0, meets, "refusal {number}: {n}");
    }
    assert!(accepted > 30_000, "{accepted}");
    // An FA that is repeated gets an AFE or an FE.
    let [fas, ams] = [FA, AM].map(|kind| repeats[usize::from(kind)]);
    assert!(
        ams > 3000 && again > 500 && fas > again + 500,
        "{repeats:?} {again}"
    );
    // Only where a gang is out can all trains wait.
    assert!(
        home > 300 && crowded > 300 && stuck > 200,
        "{home} {crowded} {stuck}"
    );
}

/// What a crew that is not waiting says next, or none where there is no such crew.
fn next_of_crews(tally: &Tally, rng: &mut Rng) -> Option<[u8; FRAME_BYTES]> {
    let able: Vec<usize> = (0..tally.trains())
        .filter(|t| tally.short_of_end(*t) && tally.has[*t] != Has::Asked)
        .collect();
    if able.is_empty() {
        return None;
    }
    let t = able[rng.below(able.len() as u64) as usize];
    let kind = match tally.has[t] {
        Has::Authority(_, _) => AM,
        _ => FA,
    };
    Some(frame(kind, t as u8, tally.post[t], tally.next(t)))
}

/// What a gang says of some section: that it is given back, or where no one holds it an LA while
/// one is left; none otherwise.
fn next_of_gangs(tally: &Tally, rng: &mut Rng) -> Option<[u8; FRAME_BYTES]> {
    let section = rng.below(tally.gangs.len() as u64) as u8;
    let kind = match tally.section_holders(section) {
        _ if tally.gangs[usize::from(section)] > 0 => LB,
        0 if tally.given < LOCAL_RUNS => LA,
        _ => return None,
    };
    Some(frame(kind, GANG, section, section + 1))
}

/// What some crew may say once more: the FA where it waits or has an authority, or that it arrived
/// where it is; none otherwise.
pub fn said_again(tally: &Tally, rng: &mut Rng) -> Option<[u8; FRAME_BYTES]> {
    let t = rng.below(tally.trains() as u64) as usize;
    if tally.has[t] != Has::Nothing && rng.chance(50) {
        return Some(frame(FA, t as u8, tally.post[t], tally.next(t)));
    }
    let (from, to) = tally.finished(t)?;
    Some(frame(AM, t as u8, from, to))
}

/// Crews and gangs say what they have to say, in any order, a gang with this percentage, until no
/// crew has anything to say and no gang is out. In between crews say again what they said, with the
/// other percentage. Nothing is refused.
fn until_all_is_said(run: &mut Run, percent: u64, again: u64, rng: &mut Rng) {
    loop {
        if let Some(f) = said_again(&run.tally, rng).filter(|_| rng.chance(again)) {
            run.put(&f, &mut [0; OUT_BYTES]);
        }
        let crew = next_of_crews(&run.tally, rng);
        if crew.is_none() && !run.tally.gang_is_out() {
            break;
        }
        let said = match crew {
            Some(f) if !rng.chance(percent) => Some(f),
            _ => next_of_gangs(&run.tally, rng),
        };
        if let Some(f) = said {
            run.put(&f, &mut [0; OUT_BYTES]);
        }
    }
    assert_eq!(run.refused, [0; 27]);
}

/// Crews that ask and report in any order all come home, within 168 records.
#[test]
fn all_come_home() {
    let mut rng = Rng(0xAB);
    let mut most = 0;
    for _ in 0..600 {
        let mut run = Run::open(&mut rng);
        until_all_is_said(&mut run, 0, 0, &mut rng);
        assert!((0..run.tally.trains()).all(|t| !run.tally.short_of_end(t)));
        most = most.max(run.state.journal);
        assert!(run.repeats.is_empty());
    }
    assert!((60..=168).contains(&most), "{most}");
}

/// However much is said again: all come home, within as many records, and more frames are taken than
/// the journal has places for.
#[test]
fn all_come_home_with_repeats() {
    let mut rng = Rng(0xAA);
    let (mut most, mut repeats) = (0, 0);
    for round in 0..300 {
        let mut run = Run::open(&mut rng);
        until_all_is_said(&mut run, 0, [50, 95][round % 2], &mut rng);
        assert!((0..run.tally.trains()).all(|t| !run.tally.short_of_end(t)));
        // Now each crew can only say once more that it is there.
        for _ in 0..300 {
            if let Some(f) = said_again(&run.tally, &mut rng) {
                run.put(&f, &mut [0; OUT_BYTES]);
            }
        }
        most = most.max(run.state.journal);
        repeats = repeats.max(run.repeats.len());
    }
    assert!((60..=168).contains(&most), "{most}");
    assert!(repeats > 300, "{repeats}");
}

/// With gangs in between that give back what they were given, and with repeats: all come home too,
/// within 228 records, though here and there all trains had to wait for a gang.
#[test]
fn all_come_home_after_the_gangs() {
    let mut rng = Rng(0xAC);
    let (mut most, mut stuck, mut twenty) = (0, 0, 0);
    for round in 0..600 {
        let mut run = Run::open(&mut rng);
        until_all_is_said(&mut run, [10, 30, 60][round % 3], 30, &mut rng);
        assert!((0..run.tally.trains()).all(|t| !run.tally.short_of_end(t)));
        most = most.max(run.state.journal);
        stuck += u32::from(run.stuck > 0);
        twenty += u32::from(run.tally.given == LOCAL_RUNS);
    }
    assert!((130..=228).contains(&most), "{most}");
    assert!(stuck > 200 && twenty > 200, "{stuck} {twenty}");
}

/// Tables altered at will: answers as the bits handed in say; all of demand 3
/// but the standstill still holds.
#[test]
fn altered_tables() {
    let mut rng = Rng(0xA17);
    let (mut several, mut several_back) = (0, 0);
    for _ in 0..700 {
        let mut run = Run::open(&mut rng);
        run.right_table = false;
        for _ in 0..rng.below(100) {
            if rng.chance(30) {
                let byte = match rng.below(4) {
                    0 => 255,
                    1 => 0,
                    _ => rng.byte(),
                };
                run.table.fill(byte);
                for _ in 0..rng.below(2000) {
                    let at = rng.below(TABLE_BYTES as u64) as usize;
                    run.table[at] = rng.byte();
                }
            }
            let f = run.random_frame(&mut rng);
            let mut out = Run::random_out(&mut rng);
            run.put(&f, &mut out);
        }
        several += u32::from(run.most_sent > 1);
        several_back += run.several_back;
    }
    assert!(
        several > 50 && several_back > 10,
        "{several} {several_back}"
    );
}

/// All units hear a frame, and none refuses it.
fn all_hear(units: &mut [Unit], frame: &[u8]) {
    for u in units.iter_mut() {
        let (after, refusal) = unit::hear(u, frame);
        assert_eq!(refusal, 0);
        *u = after;
    }
}

/// A crew presses some button, or a gang says what it has to say, which the units hear; then what
/// is sent to the dispatcher.
fn next_of_both(run: &Run, units: &mut [Unit], rng: &mut Rng) -> Option<[u8; FRAME_BYTES]> {
    if rng.chance(10) {
        let said = next_of_gangs(&run.tally, rng)?;
        all_hear(units, &said);
        return Some(said);
    }
    let t = rng.below(units.len() as u64) as usize;
    let button = BUTTONS[rng.below(5) as usize];
    let (after, refusal, sent) = unit::press(&units[t], button);
    assert!(matches!(refusal, 0 | 8 | 21));
    units[t] = after;
    sent
}

/// Both ends together: a unit for each train, gangs between them, answers heard by all units. Again
/// is pressed as often as any button, and nothing comes of it where no frame was lost.
#[test]
fn both_ends() {
    let mut rng = Rng(0xBE);
    let (mut given, mut repeats) = (0, 0);
    for _ in 0..300 {
        let mut run = Run::open(&mut rng);
        let mut units: Vec<Unit> = (0..run.tally.trains())
            .map(|t| unit::make(t as u8, run.tally.starts[t], run.tally.ends[t]).0)
            .collect();
        for _ in 0..20_000 {
            if units.iter().all(|u| u.at == u.end) {
                break;
            }
            let Some(f) = next_of_both(&run, &mut units, &mut rng) else {
                continue;
            };
            let answers = run.put(&f, &mut [0; OUT_BYTES]);
            for a in answers.chunks(FRAME_BYTES) {
                all_hear(&mut units, a);
            }
            for (t, u) in units.iter().enumerate() {
                assert!(run.tally.agrees_with(t, u), "{u:?}");
            }
        }
        assert!(units.iter().all(|u| u.at == u.end));
        assert_eq!(run.refused, [0; 27]);
        given += u32::from(run.tally.given);
        assert!(run.again.is_empty());
        repeats += run.repeats.len();
    }
    assert!(given > 2000 && repeats > 2000, "{given} {repeats}");
}
