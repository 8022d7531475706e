//! Runs as crews make them, alone, with track gangs or over bad radio, with the answers of the model.

use crate::frames::{frame, local_run, AFE, AM, FA, KIND_AT, LA, LB};
use crate::random::Random;
use crate::sizes::{FRAME_BYTES, JOURNAL_RECORDS, OUT_BYTES, TABLE_BYTES};
use model::{Record, Standing, State, Train, Verdict};

const JOURNAL: [Record; JOURNAL_RECORDS] = [Record::BLANK; JOURNAL_RECORDS];

/// What the model makes of a book that it accepts.
pub struct Opened {
    pub state: State,
    pub table: Vec<u8>,
}

pub fn open(book: &[u8]) -> Option<Opened> {
    let mut table = vec![0; TABLE_BYTES];
    let (state, refusal) = model::open(book, &mut table, &JOURNAL);
    (refusal == 0).then_some(Opened { state, table })
}

/// The state after a frame, and what is sent.
pub fn answer(state: &State, table: &[u8], frame: &[u8]) -> (State, Vec<u8>) {
    let (mut journal, mut out) = (JOURNAL, [0; OUT_BYTES]);
    let (after, verdict) = model::answer(state, table, &mut journal, frame, &mut out);
    let sent = match verdict {
        Verdict::Refused(_) => 0,
        Verdict::Sent(frames) => FRAME_BYTES * frames,
    };
    (after, out[..sent].to_vec())
}

/// The request would get its AFE.
pub fn is_declined(state: &State, table: &[u8], request: &[u8]) -> bool {
    let (_, sent) = answer(state, table, request);
    let last = sent.chunks_exact(FRAME_BYTES).last();
    last.is_some_and(|last| last[KIND_AT] == AFE)
}

/// The frames of a kind for the next moves of these trains.
pub fn next_frames(state: &State, kind: u8, sends: fn(&Train) -> bool) -> Vec<[u8; FRAME_BYTES]> {
    let trains = state.present().iter().enumerate();
    let of_train = |(t, train): (usize, &Train)| {
        let to = train.next().filter(|_| sends(train))?;
        Some(frame(kind, t as u8, train.at, to))
    };
    trains.filter_map(of_train).collect()
}

pub fn is_free(train: &Train) -> bool {
    train.standing == Standing::Free
}

pub fn is_under_way(train: &Train) -> bool {
    matches!(train.standing, Standing::Running(_))
}

/// A frame with the state that it meets and what comes of it.
pub struct Turn {
    pub state: State,
    pub frame: [u8; FRAME_BYTES],
    pub verdict: Verdict,
    pub out: [u8; OUT_BYTES],
    /// It was accepted and changed nothing: a new frame is logged.
    pub is_repeat: bool,
}

/// Who sends in a run.
#[derive(Debug, Clone, Copy)]
pub enum Senders {
    Crews,
    CrewsAndGangs,
    /// Crews that send again what may have been lost.
    CrewsOverBadRadio,
}

/// The frames of crews that ask and report in a random order, among altered ones, until all trains are at their ends.
/// Gangs among them ask for sections and give them back, or crews repeat what they sent.
pub fn run<'a>(
    opened: &'a Opened,
    senders: Senders,
    random: &'a mut Random,
) -> impl Iterator<Item = Turn> + 'a {
    let mut state = opened.state;
    let mut journal = JOURNAL;
    std::iter::from_fn(move || {
        if all_home(&state) {
            return None;
        }
        let frame = some_frame(&state, senders, random);
        let mut out = [0; OUT_BYTES];
        let (after, verdict) = model::answer(&state, &opened.table, &mut journal, &frame, &mut out);
        let before = std::mem::replace(&mut state, after);
        Some(Turn {
            state: before,
            frame,
            verdict,
            out,
            is_repeat: after == before && matches!(verdict, Verdict::Sent(_)),
        })
    })
}

/// What is sent next: mostly what should be, but every eighth frame or so has one byte altered.
fn some_frame(state: &State, senders: Senders, random: &mut Random) -> [u8; FRAME_BYTES] {
    let mut frame = match senders {
        Senders::CrewsAndGangs if random.one_in(4) => of_some_gang(state, random),
        Senders::CrewsOverBadRadio if random.one_in(2) => once_more(state, random),
        _ => of_some_crew(state, random),
    };
    if random.one_in(8) {
        let byte = random.byte();
        frame[random.below(FRAME_BYTES)] = byte;
    }
    frame
}

/// What a crew should send next.
fn of_some_crew(state: &State, random: &mut Random) -> [u8; FRAME_BYTES] {
    let t = random.below(state.trains.into());
    let train = state.train[t];
    let kind = match train.standing {
        Standing::Running(_) => AM,
        Standing::Free | Standing::Asked(_) => FA,
    };
    let to = train.next().unwrap_or(train.at);
    frame(kind, t as u8, train.at, to)
}

/// What some crew sends again: the FA where it waits or has an authority, or the AM of its last move. One that has sent
/// nothing yet begins.
fn once_more(state: &State, random: &mut Random) -> [u8; FRAME_BYTES] {
    let t = random.below(state.trains.into());
    let train = state.train[t];
    let next = train.next().filter(|_| train.standing != Standing::Free);
    let request = next.map(|to| frame(FA, t as u8, train.at, to));
    let arrival = train.last.map(|(from, to)| frame(AM, t as u8, from, to));
    match (request, arrival) {
        (Some(request), Some(arrival)) => random.pick(&[request, arrival]),
        (Some(sent), None) | (None, Some(sent)) => sent,
        (None, None) => of_some_crew(state, random),
    }
}

/// A section that a gang has comes back, another is asked for; every eighth time it is the other way round.
fn of_some_gang(state: &State, random: &mut Random) -> [u8; FRAME_BYTES] {
    let section = random.between(0, state.posts - 2);
    let comes_back = state.gang_holds(section) != random.one_in(8);
    local_run(if comes_back { LB } else { LA }, section)
}

fn all_home(state: &State) -> bool {
    state.present().iter().all(|train| train.at == train.end)
}

#[cfg(test)]
mod tests {
    use super::*;
    use crate::books::{book, X};
    use crate::frames::FE;

    #[test]
    fn next_moves_and_whether_they_are_declined() {
        let Opened { mut state, table } = open(&X).unwrap();
        let [first, second] = [frame(FA, 0, 0, 1), frame(FA, 1, 2, 1)];
        assert_eq!(next_frames(&state, FA, is_free), [first, second]);
        assert!(next_frames(&state, AM, is_under_way).is_empty());
        assert!(!is_declined(&state, &table, &first));
        state = answer(&state, &table, &local_run(LA, 0)).0;
        assert!(is_declined(&state, &table, &first));
        assert!(!is_declined(&state, &table, &second));
        state = answer(&state, &table, &second).0;
        assert_eq!(next_frames(&state, FA, is_free), [first]);
        let arrival = frame(AM, 1, 2, 1);
        assert_eq!(next_frames(&state, AM, is_under_way), [arrival]);
        // Refused, since the train is not there.
        assert!(!is_declined(&state, &table, &frame(FA, 2, 0, 1)));
    }

    /// The frames of some runs, long enough for twenty gangs.
    fn turns(senders: Senders) -> Vec<Turn> {
        let both_ways = [[0, 7], [7, 0], [0, 7], [7, 0]];
        let opened = open(&book(&[2; 8], &both_ways)).unwrap();
        let mut turns = vec![];
        for seed in 1..=20 {
            let random = &mut Random::of_stored_runs(seed);
            turns.extend(run(&opened, senders, random));
        }
        turns
    }

    /// The kind and the outcome of each frame.
    fn outcomes(senders: Senders) -> Vec<(u8, Verdict)> {
        let outcome = |turn: &Turn| (turn.frame[KIND_AT], turn.verdict);
        turns(senders).iter().map(outcome).collect()
    }

    #[test]
    fn gangs_get_sections_and_give_them_back_and_are_refused_by_every_number() {
        let outcomes = outcomes(Senders::CrewsAndGangs);
        let refused = |kind, numbers: &[u8]| {
            let outcome = |number: &u8| (kind, Verdict::Refused(*number));
            numbers.iter().map(outcome).collect::<Vec<_>>()
        };
        let given_and_back = [
            (LA, Verdict::Sent(1)),
            (LB, Verdict::Sent(0)),
            (LB, Verdict::Sent(1)),
        ];
        let due = [
            given_and_back.to_vec(),
            refused(LA, &[7, 9, 24, 26]),
            refused(LB, &[7, 9, 25]),
        ];
        for outcome in due.concat() {
            assert!(outcomes.contains(&outcome), "{outcome:?}");
        }
    }

    #[test]
    fn crews_alone_ask_for_no_section() {
        let outcomes = outcomes(Senders::Crews);
        let answered = |outcome: &(u8, Verdict)| matches!(outcome, (LA | LB, Verdict::Sent(_)));
        assert!(!outcomes.iter().any(answered));
    }

    #[test]
    fn crews_over_bad_radio_repeat_requests_and_arrivals() {
        let turns = turns(Senders::CrewsOverBadRadio);
        let came = |kind, sent: &[u8]| {
            let repeats = |turn: &&Turn| {
                let kinds = turn.out.chunks_exact(FRAME_BYTES).map(|f| f[KIND_AT]);
                let verdict = Verdict::Sent(sent.len());
                let as_said = (turn.frame[KIND_AT], turn.verdict) == (kind, verdict);
                turn.is_repeat && as_said && kinds.take(sent.len()).eq(sent.iter().copied())
            };
            turns.iter().filter(repeats).count()
        };
        let [declined, granted, arrived] =
            [(FA, &[AFE][..]), (FA, &[FE]), (AM, &[])].map(|(kind, sent)| came(kind, sent));
        assert!(declined > 100 && granted > 100 && arrived > 100);
        let repeats = turns.iter().filter(|turn| turn.is_repeat).count();
        assert_eq!(declined + granted + arrived, repeats);
    }
}
