//! The dispatcher: its state, what makes a state sound, the opening of a
//! book, and the answer to a frame (refusals 1 to 9, 12, 19, 20, 24 to 26).

use crate::frame::{read_frame, write_frame, Message, Move, FRAME_BYTES, GANG};
use crate::journal::{log, Record, JOURNAL_RECORDS, MOST_COUNTED};
use crate::line::{has_siding, on_the_line, read_book, Line};
use crate::table::{bit, code, fill, lawful, TABLE_BYTES};

/// Bytes an out buffer must have: six frames.
pub const OUT_BYTES: usize = 6 * FRAME_BYTES;

/// Local runs that are given from an opening on, at the most.
pub const LOCAL_RUNS: u8 = 20;

/// What a train is about; an Asked train has the journal number of its FA, a
/// Running train its track at the post it runs to.
#[derive(Debug, Clone, Copy, PartialEq, Eq, Hash)]
pub enum Standing {
    Free,
    Asked(u8),
    Running(u8),
}

/// A train's record: start, end and present post, its track there, from 1 (0
/// for a train put away), its standing, and its last finished move, from and
/// to post, or none.
#[derive(Debug, Clone, Copy, PartialEq, Eq, Hash)]
pub struct Train {
    pub start: u8,
    pub end: u8,
    pub at: u8,
    pub track: u8,
    pub standing: Standing,
    pub last: Option<(u8, u8)>,
}

/// The dispatcher's state. Places for posts from `posts` on, trains from
/// `trains` on and sections from `posts` - 1 on are not read.
#[derive(Debug, Clone, Copy, PartialEq, Eq, Hash)]
pub struct State {
    pub posts: u8,
    pub tracks: [u8; 8],
    /// The bit of value 2^i says that post i has a siding.
    pub sidings: u8,
    pub trains: u8,
    pub train: [Train; 6],
    /// A track gang has section i.
    pub possessions: [bool; 7],
    /// Local runs given since the opening.
    pub given: u8,
    pub journal: u8,
}

/// What came of a frame: a refusal's number, or how many frames went out.
#[derive(Debug, Clone, Copy, PartialEq, Eq)]
pub enum Verdict {
    Refused(u8),
    Sent(usize),
}

impl Train {
    /// All 0 and Free, and no move finished.
    pub const EMPTY: Train = Train {
        start: 0,
        end: 0,
        at: 0,
        track: 0,
        standing: Standing::Free,
        last: None,
    };

    /// An up train's end is above its start; parked trains count as up.
    pub fn is_up(&self) -> bool {
        self.start <= self.end
    }

    /// The train stands at its end, whose siding it is put away in if the byte
    /// names one there. Such a train holds no track.
    pub fn is_put_away(&self, sidings: u8) -> bool {
        self.at == self.end && has_siding(sidings, self.at)
    }

    /// The next post towards the end; none at the end.
    pub fn next(&self) -> Option<u8> {
        if self.at < self.end {
            Some(self.at + 1)
        } else if self.at > self.end {
            Some(self.at - 1)
        } else {
            None
        }
    }

    /// The one-post move towards the end that reached the present post; none
    /// at the start. In a sound state it is the last finished move.
    pub fn reached_by(&self) -> Option<(u8, u8)> {
        if self.at > self.start {
            Some((self.at - 1, self.at))
        } else if self.at < self.start {
            Some((self.at + 1, self.at))
        } else {
            None
        }
    }

    /// The section a Running train holds.
    fn held_section(&self) -> Option<u8> {
        match self.standing {
            Standing::Running(_) => self.next().map(|to| section(self.at, to)),
            Standing::Free | Standing::Asked(_) => None,
        }
    }

    /// The track that the train has at the post, if it holds that post: at its
    /// present post unless it is put away, and where it runs to.
    fn track_at(&self, post: u8, sidings: u8) -> Option<u8> {
        match self.standing {
            Standing::Running(ahead) if self.next() == Some(post) => Some(ahead),
            _ if self.at == post && !self.is_put_away(sidings) => Some(self.track),
            _ => None,
        }
    }
}

impl State {
    /// The empty state, all 0 and Free. It is not sound.
    pub const EMPTY: State = State {
        posts: 0,
        tracks: [0; 8],
        sidings: 0,
        trains: 0,
        train: [Train::EMPTY; 6],
        possessions: [false; 7],
        given: 0,
        journal: 0,
    };

    /// The trains below T (no more than there are places).
    pub fn present(&self) -> &[Train] {
        &self.train[..usize::from(self.trains).min(6)]
    }

    /// The tracks that the trains which hold the post have there.
    pub fn tracks_held(&self, post: u8) -> impl Iterator<Item = u8> + '_ {
        let track = move |t: &Train| t.track_at(post, self.sidings);
        self.present().iter().filter_map(track)
    }

    /// How many trains hold the post.
    pub fn holders_of_post(&self, post: u8) -> usize {
        self.tracks_held(post).count()
    }

    /// How many trains have this track of the post.
    fn holders_of_track(&self, post: u8, track: u8) -> usize {
        self.tracks_held(post).filter(|held| *held == track).count()
    }

    /// The track that a train would get at the post, if one there is unheld:
    /// the smallest such for an up train, the largest for a down train.
    pub fn free_track(&self, post: u8, up: bool) -> Option<u8> {
        let count = *self.tracks.get(usize::from(post))?;
        let mut unheld = (1..=count).filter(|track| self.holders_of_track(post, *track) == 0);
        if up {
            unheld.next()
        } else {
            unheld.next_back()
        }
    }

    /// The line has the section: both its posts are below P.
    fn has_section(&self, section: u8) -> bool {
        section < self.posts.saturating_sub(1)
    }

    /// A gang holds the section. Places of sections that the line has not are
    /// not read.
    pub fn gang_holds(&self, section: u8) -> bool {
        let place = self.possessions.get(usize::from(section));
        self.has_section(section) && place == Some(&true)
    }

    /// How many hold the section, trains and a gang counted together.
    pub fn holders_of_section(&self, section: u8) -> usize {
        let holds = |t: &&Train| t.held_section() == Some(section);
        let trains = self.present().iter().filter(holds).count();
        trains + usize::from(self.gang_holds(section))
    }
}

/// The section between two neighbouring posts has the lower one's number.
pub(crate) fn section(p: u8, q: u8) -> u8 {
    p.min(q)
}

/// The state is sound, whatever numbers are handed in.
pub fn sound(state: &State) -> bool {
    let ranges = (2..=8).contains(&state.posts)
        && (1..=6).contains(&state.trains)
        && on_the_line(state.sidings, state.posts)
        && state.given <= LOCAL_RUNS
        && usize::from(state.journal) <= MOST_COUNTED;
    if !ranges {
        return false;
    }

    for t in state.present() {
        let on_line = t.start < state.posts && t.end < state.posts;
        let between = t.start.min(t.end) <= t.at && t.at <= t.start.max(t.end);
        let still = t.standing == Standing::Free;
        if !on_line || !between || (t.at == t.end && !still) {
            return false;
        }
        if t.is_put_away(state.sidings) && t.track != 0 {
            return false;
        }
        if t.last != t.reached_by() {
            return false;
        }
    }

    for post in 0..state.posts {
        let count = state.tracks[usize::from(post)];
        let alone = |held| (1..=count).contains(&held) && state.holders_of_track(post, held) == 1;
        // No more trains hold the post than it has tracks, since theirs differ and are in its count.
        if !(1..=4).contains(&count) || !state.tracks_held(post).all(alone) {
            return false;
        }
    }
    for section in 0..state.posts - 1 {
        if state.holders_of_section(section) > 1 {
            return false;
        }
    }
    requests_in_order(state)
}

/// FA numbers are distinct and below the journal's count.
fn requests_in_order(state: &State) -> bool {
    let mut seen = Vec::new();
    for t in state.present() {
        if let Standing::Asked(number) = t.standing {
            if number >= state.journal || seen.contains(&number) {
                return false;
            }
            seen.push(number);
        }
    }
    true
}

/// Opens a book: reads it, places the trains, fills the table. Gives the
/// state and 0, or the empty state and the refusal. The journal is lent, but
/// its records are not touched; the table is filled for 0 and for 20.
pub fn open(book: &[u8], table: &mut [u8], journal: &[Record]) -> (State, u8) {
    if table.len() < TABLE_BYTES || journal.len() < JOURNAL_RECORDS {
        return (State::EMPTY, 2);
    }
    let line = match read_book(book) {
        Ok(line) => line,
        Err(number) => return (State::EMPTY, number),
    };
    let start = [0; 6];
    if !lawful(&line, &start) {
        return (State::EMPTY, 19);
    }
    fill(&line, table);
    if !bit(table, code(&start)) {
        return (State::EMPTY, 20);
    }
    (place(&line), 0)
}

/// Every train of the line Free at its start, with no move finished, count 0,
/// all other places 0. In number order the trains take their tracks, put away
/// ones none. For a line whose start placing is lawful: then a track is left
/// for each.
fn place(line: &Line) -> State {
    let mut state = State {
        posts: line.posts,
        tracks: line.tracks,
        sidings: line.sidings,
        ..State::EMPTY
    };
    for t in 0..usize::from(line.trains) {
        let mut train = Train {
            start: line.starts[t],
            end: line.ends[t],
            at: line.starts[t],
            ..Train::EMPTY
        };
        if !train.is_put_away(line.sidings) {
            train.track = state.free_track(train.at, train.is_up()).unwrap_or(0);
        }
        state.train[t] = train;
        state.trains += 1;
    }
    state
}

/// What a frame that is not refused is to the state.
enum Accepted {
    /// New: it is logged, has its effect and is answered.
    New(Message),
    /// A repeat of one that was taken before. It gets the answer to that one
    /// again, an FA its AFE or FE, an AM none, and nothing else comes of it.
    Repeat(Option<Message>),
}

/// The checks from 3 on of a frame put to a sound state: what passes is an FA
/// or an AM of one of its trains, or an LA or an LB for one of its sections.
fn accept(state: &State, frame: &[u8]) -> Result<Accepted, u8> {
    let message = read_frame(frame)?;
    match message {
        Message::Fe(_) | Message::Afe(_) | Message::Le(_) => Err(6),
        Message::Fa(_) | Message::Am(_) => check_train(state, message),
        Message::La(_) | Message::Lb(_) => check_gang(state, message),
    }
}

/// The checks 7, 8, 9 and 12 of an FA or an AM. "The test for a finished move
/// comes before 8"; an FA that passes 9 is a repeat where its train is not Free.
fn check_train(state: &State, message: Message) -> Result<Accepted, u8> {
    let m = message.movement();
    let Some(train) = state.present().get(usize::from(m.train)) else {
        return Err(7);
    };
    if matches!(message, Message::Am(_)) && train.last == Some((m.from, m.to)) {
        return Ok(Accepted::Repeat(None));
    }
    let Some(next) = train.next() else {
        return Err(8);
    };
    if m.from != train.at || m.to != next {
        return Err(9);
    }
    match (message, train.standing) {
        (Message::Fa(_), Standing::Asked(_)) => Ok(Accepted::Repeat(Some(Message::Afe(m)))),
        (Message::Fa(_), Standing::Running(_)) => Ok(Accepted::Repeat(Some(Message::Fe(m)))),
        (Message::Fa(_), Standing::Free) | (_, Standing::Running(_)) => Ok(Accepted::New(message)),
        (_, _) => Err(12),
    }
}

/// The checks 7, 9 and 24 to 26 of an LA or an LB. It names its section by the
/// two neighbouring posts, the lower first.
fn check_gang(state: &State, message: Message) -> Result<Accepted, u8> {
    let m = message.movement();
    if m.train != GANG {
        return Err(7);
    }
    if !state.has_section(m.from) || m.to != m.from + 1 {
        return Err(9);
    }
    match message {
        Message::La(_) if state.holders_of_section(m.from) > 0 => Err(24),
        Message::La(_) if state.given >= LOCAL_RUNS => Err(26),
        Message::Lb(_) if !state.gang_holds(m.from) => Err(25),
        _ => Ok(Accepted::New(message)),
    }
}

/// The move a train of the state is about to make or makes.
fn move_of(state: &State, t: usize) -> Option<Move> {
    let train = &state.train[t];
    train.next().map(|to| Move {
        train: t as u8,
        from: train.at,
        to,
    })
}

/// The code of the placing in which every Running train, and train `mover`,
/// has reached its next post, and all others stand where they are.
fn code_ahead(state: &State, mover: usize) -> u64 {
    let mut placing = [0; 6];
    for (t, train) in state.present().iter().enumerate() {
        let ahead = t == mover || matches!(train.standing, Standing::Running(_));
        let travelled = train.start.abs_diff(train.at);
        placing[t] = travelled + u8::from(ahead);
    }
    code(&placing)
}

/// The track at its next post with which the train can be granted under the
/// table handed in; none where it is not Asked or cannot be granted.
fn grantable_on(state: &State, table: &[u8], t: usize) -> Option<u8> {
    let train = &state.train[t];
    let (Standing::Asked(_), Some(to)) = (train.standing, train.next()) else {
        return None;
    };
    let track = state.free_track(to, train.is_up())?;
    let section_free = state.holders_of_section(section(train.at, to)) == 0;
    (section_free && bit(table, code_ahead(state, t))).then_some(track)
}

/// The Asked train with the lowest FA number among those that can be granted,
/// and the track that it gets.
fn oldest_grantable(state: &State, table: &[u8]) -> Option<(usize, u8)> {
    let mut asked: Vec<(u8, usize)> = Vec::new();
    for (t, train) in state.present().iter().enumerate() {
        if let Standing::Asked(number) = train.standing {
            asked.push((number, t));
        }
    }
    asked.sort();
    asked
        .into_iter()
        .find_map(|(_, t)| Some((t, grantable_on(state, table, t)?)))
}

/// The effect of a new frame itself.
fn take(state: &mut State, message: Message) {
    match message {
        Message::La(m) => {
            state.possessions[usize::from(m.from)] = true;
            state.given += 1;
        }
        Message::Lb(m) => state.possessions[usize::from(m.from)] = false,
        _ => take_of_train(state, message),
    }
}

/// The effect of a new FA or AM itself. At the post it ran to a train has the
/// track that it ran to, or none where it is put away, and the move is its last
/// finished one.
fn take_of_train(state: &mut State, message: Message) {
    let m = message.movement();
    let train = &mut state.train[usize::from(m.train)];
    match (message, train.standing) {
        (Message::Am(_), Standing::Running(ahead)) => {
            train.at = m.to;
            train.last = Some((m.from, m.to));
            train.standing = Standing::Free;
            let put_away = train.is_put_away(state.sidings);
            train.track = if put_away { 0 } else { ahead };
        }
        _ => train.standing = Standing::Asked(state.journal),
    }
}

/// Granting, again from the oldest until none can be granted: an FE for each,
/// with its track. Whoever asked with this message and was not granted gets an
/// AFE, last; it has no track.
fn grant(state: &mut State, table: &[u8], message: Message) -> Vec<(Message, u8)> {
    let mut answers = Vec::new();
    while let Some((t, track)) = oldest_grantable(state, table) {
        answers.extend(move_of(state, t).map(|m| (Message::Fe(m), track)));
        state.train[t].standing = Standing::Running(track);
    }
    if let Message::Fa(m) = message {
        if let Standing::Asked(_) = state.train[usize::from(m.train)].standing {
            answers.push((Message::Afe(m), 0));
        }
    }
    answers
}

/// Writes the frames of the messages at the head of `out`, which has room for
/// six, and says how many.
fn send(messages: &[Message], out: &mut [u8]) -> Verdict {
    for (message, place) in messages.iter().zip(out.chunks_exact_mut(FRAME_BYTES)) {
        place.copy_from_slice(&write_frame(*message));
    }
    Verdict::Sent(messages.len())
}

/// The dispatcher's answer to a frame. Refused: state and buffers as before.
/// Otherwise the new state and the number of frames at the head of `out`; the
/// frame and its answers are logged at the journal's count. The count of a sound
/// state leaves room for all of them. Near 229 the new state may be strange, by
/// its count alone; after an opened book it never is. A repeat is answered with
/// state and journal as before.
pub fn answer(
    state: &State,
    table: &[u8],
    journal: &mut [Record],
    frame: &[u8],
    out: &mut [u8],
) -> (State, Verdict) {
    if !sound(state) {
        return (*state, Verdict::Refused(1));
    }
    if table.len() < TABLE_BYTES || journal.len() < JOURNAL_RECORDS || out.len() < OUT_BYTES {
        return (*state, Verdict::Refused(2));
    }
    let message = match accept(state, frame) {
        Ok(Accepted::New(message)) => message,
        Ok(Accepted::Repeat(again)) => return (*state, send(again.as_slice(), out)),
        Err(number) => return (*state, Verdict::Refused(number)),
    };

    let mut after = *state;
    take(&mut after, message);
    let answers = match message {
        // A gang that asks is given its section, and nobody else is looked at.
        Message::La(m) => vec![(Message::Le(m), 0)],
        _ => grant(&mut after, table, message),
    };
    after.journal = log(journal, after.journal, Record::of(message, 0));
    for (sent, track) in &answers {
        after.journal = log(journal, after.journal, Record::of(*sent, *track));
    }
    let messages: Vec<Message> = answers.iter().map(|(sent, _)| *sent).collect();
    (after, send(&messages, out))
}
