//! The paper's tally: who asked and who holds, told by book, frames, answers and refusals only. For
//! the clause on tracks alone it has tracks too, at opening by the rule, then from each FE's record.
//! A second part of it has the gangs.

use crate::common::*;
use model::*;
use std::collections::HashSet;

#[derive(Debug, Clone, Copy, PartialEq)]
pub enum Has {
    Nothing,
    Asked,
    Authority(u8, u8),
}

/// The tally; `order` is the trains asked, oldest first. `here` is each train's track at its post, 0
/// for one put away, and `ahead` the one where it has an authority to go. `gangs` is how many
/// gangs are out on each section, from each LE written to an LB accepted, `given` all LEs written.
#[derive(Debug, Clone, PartialEq)]
pub struct Tally {
    pub tracks: Vec<u8>,
    pub sidings: u8,
    pub starts: Vec<u8>,
    pub ends: Vec<u8>,
    pub post: Vec<u8>,
    pub has: Vec<Has>,
    pub order: Vec<u8>,
    pub here: Vec<u8>,
    pub ahead: Vec<u8>,
    pub gangs: Vec<u8>,
    pub given: u8,
}

impl Tally {
    /// Each train at its start with nothing. In number order those not put away take a track.
    pub fn new(tracks: &[u8], sidings: u8, trains: &[(u8, u8)]) -> Tally {
        let mut tally = Tally {
            tracks: tracks.to_vec(),
            sidings,
            starts: trains.iter().map(|t| t.0).collect(),
            ends: trains.iter().map(|t| t.1).collect(),
            post: trains.iter().map(|t| t.0).collect(),
            has: vec![Has::Nothing; trains.len()],
            order: vec![],
            here: vec![0; trains.len()],
            ahead: vec![0; trains.len()],
            gangs: vec![0; tracks.len() - 1],
            given: 0,
        };
        for (t, (start, _)) in trains.iter().enumerate() {
            if !tally.put_away(t) {
                tally.here[t] = tally.track_due(t, *start);
            }
        }
        tally
    }

    pub fn trains(&self) -> usize {
        self.post.len()
    }

    pub fn short_of_end(&self, t: usize) -> bool {
        self.post[t] != self.ends[t]
    }

    /// The next post, or the present one at the end.
    pub fn next(&self, t: usize) -> u8 {
        match self.post[t].cmp(&self.ends[t]) {
            std::cmp::Ordering::Less => self.post[t] + 1,
            std::cmp::Ordering::Equal => self.post[t],
            std::cmp::Ordering::Greater => self.post[t] - 1,
        }
    }

    /// The last move that the train finished, by its start and post: the way to its post runs over
    /// the one before it, on the side of its start.
    pub fn finished(&self, t: usize) -> Option<(u8, u8)> {
        let (start, post) = (i16::from(self.starts[t]), i16::from(self.post[t]));
        let before = post - (post - start).signum();
        (before != post).then_some((before as u8, self.post[t]))
    }

    /// At its end, where that has a siding.
    pub fn put_away(&self, t: usize) -> bool {
        !self.short_of_end(t) && self.sidings >> self.post[t] & 1 == 1
    }

    /// Posts held by a train, from the move it has an authority for.
    pub fn posts_held(&self, t: usize) -> Vec<u8> {
        match self.has[t] {
            Has::Authority(from, to) => vec![from, to],
            _ if self.put_away(t) => vec![],
            _ => vec![self.post[t]],
        }
    }

    /// Posts held by a train, each with its track there.
    pub fn tracks_held(&self, t: usize) -> Vec<(u8, u8)> {
        let tracks = [self.here[t], self.ahead[t]];
        self.posts_held(t).into_iter().zip(tracks).collect()
    }

    /// The track of the post that is due to the train: of those that no train has, the largest for
    /// one whose end is below its start, else the smallest.
    pub fn track_due(&self, t: usize, post: u8) -> u8 {
        let trains = 0..self.trains();
        let held: Vec<(u8, u8)> = trains.flat_map(|u| self.tracks_held(u)).collect();
        let count = self.tracks[usize::from(post)];
        let mut unheld = (1..=count).filter(|track| !held.contains(&(post, *track)));
        let due = if self.ends[t] < self.starts[t] {
            unheld.next_back()
        } else {
            unheld.next()
        };
        due.expect("a track of the post is unheld")
    }

    /// Some post has more trains standing at it than tracks: no more than the tracks hold one.
    pub fn crowded(&self) -> bool {
        let standing = |p: u8| self.post.iter().filter(|at| **at == p).count();
        (0..)
            .zip(&self.tracks)
            .any(|(p, tracks)| standing(p) > usize::from(*tracks))
    }

    pub fn holders(&self, post: u8) -> usize {
        (0..self.trains())
            .filter(|t| self.posts_held(*t).contains(&post))
            .count()
    }

    /// Trains with an authority over the section between two posts.
    pub fn over(&self, p: u8, q: u8) -> usize {
        (0..self.trains())
            .filter(|t| {
                self.has[*t] == Has::Authority(p, q) || self.has[*t] == Has::Authority(q, p)
            })
            .count()
    }

    /// Holders of a section of the line, trains and gangs counted together.
    pub fn section_holders(&self, section: u8) -> usize {
        let gangs = self.gangs[usize::from(section)];
        self.over(section, section + 1) + usize::from(gangs)
    }

    /// Some gang is out.
    pub fn gang_is_out(&self) -> bool {
        self.gangs.iter().any(|n| *n > 0)
    }

    /// A train that asked can be granted, by the tally and the table's bits.
    pub fn grantable(&self, t: usize, table: &[u8]) -> bool {
        let mut code = 0u64;
        for u in 0..self.trains() {
            let ahead = u == t || matches!(self.has[u], Has::Authority(_, _));
            let at = if ahead { self.next(u) } else { self.post[u] };
            code += u64::from(at.abs_diff(self.starts[u])) * 8u64.pow(u as u32);
        }
        let next = self.next(t);
        self.section_holders(next.min(self.post[t])) == 0
            && self.holders(next) < usize::from(self.tracks[usize::from(next)])
            && table[(code / 8) as usize] >> (code % 8) & 1 == 1
    }

    /// The refusal due for a frame, by the list of checks; 0 if none.
    pub fn refusal(&self, frame: &[u8], out: usize) -> u8 {
        if out < 42 {
            return 2;
        }
        if frame.len() != 7 || frame[0] != 0 || frame[1] != 5 {
            return 3;
        }
        if frame[2] != 1 {
            return 4;
        }
        match frame[3] {
            1 | 4 => self.refusal_of_train(frame),
            2 | 3 | 6 => 6,
            5 | 7 => self.refusal_of_gang(frame),
            _ => 5,
        }
    }

    /// The refusal due for an FA or AM, from 7 on.
    fn refusal_of_train(&self, frame: &[u8]) -> u8 {
        let t = usize::from(frame[4]);
        if t >= self.trains() {
            return 7;
        }
        if frame[3] == 4 && self.finished(t) == Some((frame[5], frame[6])) {
            return 0;
        }
        if !self.short_of_end(t) {
            return 8;
        }
        if frame[5] != self.post[t] || frame[6] != self.next(t) {
            return 9;
        }
        match (frame[3], self.has[t]) {
            (4, Has::Nothing | Has::Asked) => 12,
            _ => 0,
        }
    }

    /// The refusal due for an LA or LB, from 7 on: it is of no train, and names two posts of the
    /// line, the second right after the first.
    fn refusal_of_gang(&self, frame: &[u8]) -> u8 {
        let (from, to) = (usize::from(frame[5]), usize::from(frame[6]));
        if frame[4] != 255 {
            return 7;
        }
        if to >= self.tracks.len() || to == 0 || from != to - 1 {
            return 9;
        }
        match frame[3] {
            5 if self.section_holders(frame[5]) != 0 => 24,
            5 if self.given > 19 => 26,
            7 if self.gangs[from] == 0 => 25,
            _ => 0,
        }
    }

    /// The answers due to an accepted frame that repeats one of before: an FA gets its AFE or FE
    /// again, an AM nothing. None for a frame that is new.
    pub fn repeat_due(&self, frame: &[u8]) -> Option<Vec<Record>> {
        let t = usize::from(frame[4]);
        let has = self.has.get(t)?;
        match (frame[3], has) {
            (1, Has::Asked) => Some(vec![record(AFE, frame[4], frame[5], frame[6])]),
            (1, Has::Authority(from, to)) => {
                Some(vec![authority(frame[4], *from, *to, self.ahead[t])])
            }
            (4, _) if self.finished(t) == Some((frame[5], frame[6])) => Some(vec![]),
            _ => None,
        }
    }

    /// The effect of an accepted frame itself, new or not: an FA makes its train asked, one that
    /// waits keeps its turn. A gang is out only with its LE.
    pub fn take(&mut self, frame: &[u8]) {
        match frame[3] {
            1 => {
                self.has[usize::from(frame[4])] = Has::Asked;
                if !self.order.contains(&frame[4]) {
                    self.order.push(frame[4]);
                }
            }
            4 => self.take_arrival(frame),
            7 => self.gangs[usize::from(frame[5])] -= 1,
            _ => {}
        }
    }

    fn take_arrival(&mut self, frame: &[u8]) {
        let t = usize::from(frame[4]);
        if self.has[t] == Has::Authority(frame[5], frame[6]) {
            self.post[t] = frame[6];
            self.has[t] = Has::Nothing;
            self.here[t] = if self.put_away(t) { 0 } else { self.ahead[t] };
        }
    }

    /// The effect of an LE that was written: one more gang is out there.
    fn hear_given(&mut self, le: &Record) {
        self.gangs[usize::from(le.from)] += 1;
        self.given += 1;
    }

    /// The effect of an FE that was written, with the track of its record.
    pub fn hear(&mut self, fe: &Record, track: u8) {
        let t = usize::from(fe.train);
        self.has[t] = Has::Authority(fe.from, fe.to);
        self.ahead[t] = track;
        self.order.retain(|t| *t != fe.train);
    }

    /// The records due for the answers to a new frame after `take`, with the tally brought to them.
    /// The tally has each FE's track from the record that was logged.
    pub fn answers_due(&mut self, frame: &[u8], table: &[u8], logged: &[Record]) -> Vec<Record> {
        let mut due: Vec<Record> = vec![];
        if frame[3] == 5 {
            let le = record(LE, frame[4], frame[5], frame[6]);
            self.hear_given(&le);
            return vec![le];
        }
        'again: loop {
            for t in self.order.clone() {
                let u = usize::from(t);
                if self.grantable(u, table) {
                    let to = self.next(u);
                    let fe = authority(t, self.post[u], to, self.track_due(u, to));
                    self.hear(&fe, logged.get(due.len()).map_or(0, |r| r.track));
                    due.push(fe);
                    continue 'again;
                }
            }
            break;
        }
        if frame[3] == 1 && self.has[usize::from(frame[4])] == Has::Asked {
            due.push(record(AFE, frame[4], frame[5], frame[6]));
        }
        due
    }

    /// Demand 3's clauses on holding.
    pub fn check_holding(&self) {
        for p in 0..self.tracks.len() as u8 {
            assert!(self.holders(p) <= usize::from(self.tracks[usize::from(p)]));
        }
        // In the section clause a gang is a holder.
        for section in 0..self.gangs.len() as u8 {
            assert!(self.section_holders(section) <= 1, "section {section}");
        }
        // An authority is for the one move from the post to the next.
        for t in 0..self.trains() {
            if let Has::Authority(from, to) = self.has[t] {
                assert_eq!((from, to), (self.post[t], self.next(t)));
                assert!(self.short_of_end(t));
            }
        }
    }

    /// Card 2's clause: no track has two trains, and each is one of its post's.
    pub fn check_tracks(&self) {
        let mut seen = HashSet::new();
        for (post, track) in (0..self.trains()).flat_map(|t| self.tracks_held(t)) {
            assert!((1..=self.tracks[usize::from(post)]).contains(&track));
            assert!(seen.insert((post, track)), "track {track} of post {post}");
        }
    }

    /// A train's unit knows what the tally knows of it.
    pub fn agrees_with(&self, t: usize, unit: &Unit) -> bool {
        let same = match self.has[t] {
            Has::Nothing => unit.state == UnitState::Standing,
            Has::Asked => unit.state == UnitState::Declined,
            Has::Authority(_, _) => matches!(
                unit.state,
                UnitState::Granted | UnitState::UnderWay | UnitState::Arrived
            ),
        };
        same && unit.at == self.post[t] && unit::sound(unit)
    }

    /// Trains are short of their ends, and all of these wait.
    pub fn standstill(&self) -> bool {
        let mut short = (0..self.trains())
            .filter(|t| self.short_of_end(*t))
            .peekable();
        short.peek().is_some() && short.all(|t| self.has[t] == Has::Asked)
    }

    /// Demand 3's standstill clause, for lists after which no gang holds a section.
    pub fn check_standstill(&self) {
        assert!(self.gang_is_out() || !self.standstill());
    }
}
