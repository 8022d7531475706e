//! What came of events over a channel: of a frame at the box and at a unit, of box and units after an event, and of the
//! frames sent.

use crate::cases::{shown, ChannelCase};
use crate::claim::Both;
use crate::repeats::{is_earlier, is_last};
use inputs::crews::is_under_way;
use inputs::frames::{AM, FA, FE, KIND_AT, LB};
use inputs::sizes::FRAME_BYTES;
use model::{Message, Move, Train, Unit, UnitState};

/// Who sent a frame.
#[derive(Debug, Clone, Copy, PartialEq, Eq)]
pub enum Sender {
    /// The unit of this number.
    Unit(usize),
    /// The box, in answer to a frame of this kind.
    Desk(u8),
    Anybody,
}

/// A frame that was sent, and how it fared since.
#[derive(Debug, Clone, Copy)]
pub struct Sent {
    pub frame: [u8; FRAME_BYTES],
    pub by: Sender,
    /// The number of the event that it came of.
    pub event: usize,
    /// How often it was delivered.
    pub times: usize,
    /// At the box last it was 2.
    pub short: bool,
}

/// A frame is delivered at an event: its number among those sent, how it fared before, and the number that it gets.
#[derive(Debug, Clone, Copy)]
pub struct Delivery {
    pub event: usize,
    pub number: usize,
    pub sent: Sent,
    pub refusal: u8,
}

/// What is kept of a run, to tell what comes after what.
#[derive(Default)]
pub struct Watch {
    /// How many frames were sent up to the latest that an end got: of the box, then of the units.
    latest: [usize; 7],
    /// Trains whose next FA was at the box before the AM.
    asked_early: [bool; 6],
}

impl Watch {
    /// Of a frame at the box, with box and units before it.
    pub fn at_the_box(&mut self, before: &Both, delivery: &Delivery) -> Vec<ChannelCase> {
        let Delivery { sent, refusal, .. } = *delivery;
        let mut cases = shown([
            (self.is_overtaken(0, delivery), ChannelCase::OvertakenToBox),
            (sent.times == 2, ChannelCase::Thrice),
            (sent.short && refusal == 0, ChannelCase::ShortThenAgain),
        ]);
        match (model::read_frame(&sent.frame), refusal) {
            (Ok(Message::Fe(_)), 6) => cases.push(ChannelCase::FeAtBox),
            (Ok(Message::Afe(_)), 6) => cases.push(ChannelCase::AfeAtBox),
            (Ok(Message::Le(_)), 6) => cases.push(ChannelCase::LeAtBox),
            (Ok(Message::Fa(m)), _) => cases.extend(self.of_request(before, m, refusal)),
            (Ok(Message::Am(m)), _) => cases.extend(self.of_arrival(before, m, refusal)),
            (Ok(message), _) => cases.extend(of_gang(before, message, delivery)),
            _ => {}
        }
        cases
    }

    /// An end, the box or a unit after it, got one before that was sent later.
    fn is_overtaken(&mut self, end: usize, delivery: &Delivery) -> bool {
        let latest = &mut self.latest[end];
        let is_overtaken = delivery.number + 1 < *latest;
        *latest = (*latest).max(delivery.number + 1);
        is_overtaken
    }

    fn of_request(&mut self, before: &Both, m: Move, refusal: u8) -> Vec<ChannelCase> {
        let Some((train, unit)) = of_number(before, m.train) else {
            return vec![];
        };
        let runs = is_under_way(train);
        let early = refusal == 9 && runs && train.next() == Some(m.from);
        self.asked_early[usize::from(m.train)] |= early;
        let is_over = is_last(train, m) || is_earlier(train, m);
        let again = refusal == 0 && runs && waits(unit);
        shown([
            (again, ChannelCase::AskedAgain),
            (early, ChannelCase::AskedEarly),
            (is_over && refusal == 9, ChannelCase::OldRequest),
            (is_over && refusal == 8, ChannelCase::OldRequestHome),
        ])
    }

    fn of_arrival(&mut self, before: &Both, m: Move, refusal: u8) -> Vec<ChannelCase> {
        let Some((train, unit)) = of_number(before, m.train) else {
            return vec![];
        };
        let again = refusal == 0 && is_last(train, m);
        let early = &mut self.asked_early[usize::from(m.train)];
        let late = refusal == 0 && !again && std::mem::take(early);
        let earlier = is_earlier(train, m);
        let not_here = earlier && refusal == 9;
        let under_way = is_authorised(unit);
        shown([
            (late, ChannelCase::ArrivedLate),
            (again, ChannelCase::ArrivedAgain),
            (again && under_way, ChannelCase::ArrivedAgainUnderWay),
            (not_here, ChannelCase::Earlier),
            (not_here && under_way, ChannelCase::EarlierUnderWay),
            (earlier && refusal == 8, ChannelCase::EarlierHome),
        ])
    }

    /// Of a frame that this unit hears, with box and units before it.
    pub fn at_unit(&mut self, t: usize, before: &Both, delivery: &Delivery) -> Vec<ChannelCase> {
        let Delivery { sent, refusal, .. } = *delivery;
        let unit = &before.units[t];
        let mut cases = shown([
            (
                self.is_overtaken(t + 1, delivery),
                ChannelCase::OvertakenToUnit,
            ),
            (sent.times == 2, ChannelCase::Thrice),
            (
                refusal == 6 && sent.by == Sender::Unit(t),
                ChannelCase::OwnFrame,
            ),
        ]);
        match (model::read_frame(&sent.frame), refusal) {
            (Ok(Message::Fa(_)), 6) => cases.push(ChannelCase::FaAtUnit),
            (Ok(Message::Am(_)), 6) => cases.push(ChannelCase::AmAtUnit),
            (Ok(Message::La(_)), 0) => cases.push(ChannelCase::LaAtUnit),
            (Ok(Message::Le(_)), 0) => cases.push(ChannelCase::LeAtUnit),
            (Ok(Message::Lb(_)), 0) => cases.push(ChannelCase::LbAtUnit),
            (Ok(Message::Fe(m)), 0) if m.train == unit.train => {
                cases.extend(of_granted(unit, delivery));
            }
            (Ok(Message::Fe(m)), 22) => cases.push(of_not_awaited(unit, m)),
            (Ok(Message::Fe(m)), 0) => cases.extend(of_anothers(unit, m)),
            (Ok(Message::Afe(m)), 0) => cases.extend(of_declined(unit, m)),
            _ => {}
        }
        cases
    }
}

/// The train of this number and its unit.
fn of_number(both: &Both, train: u8) -> Option<(&Train, &Unit)> {
    let t = usize::from(train);
    both.state.present().get(t).zip(both.units.get(t))
}

/// It waits for an answer.
fn waits(unit: &Unit) -> bool {
    matches!(unit.state, UnitState::Asked | UnitState::Declined)
}

/// It is Granted, Under way or Arrived.
fn is_authorised(unit: &Unit) -> bool {
    !waits(unit) && unit.state != UnitState::Standing
}

/// Of an LA or LB at the box.
fn of_gang(before: &Both, message: Message, delivery: &Delivery) -> Option<ChannelCase> {
    let again = delivery.sent.times > 0;
    match (message, delivery.refusal) {
        (Message::La(m), 24) => of_taken(before, m.from),
        (Message::La(_), 0) if again => Some(ChannelCase::LentAgain),
        (Message::Lb(_), 0) if again => Some(ChannelCase::BackAgain),
        (_, 7 | 9) => Some(ChannelCase::Misnamed),
        _ => None,
    }
}

/// Of an LA for a section that is taken, where a train has it.
fn of_taken(before: &Both, section: u8) -> Option<ChannelCase> {
    let holds = |train: &Train| {
        let to = train.next().filter(|_| is_under_way(train));
        to.is_some_and(|to| train.at.min(to) == section)
    };
    let mut pairs = before.state.present().iter().zip(&before.units);
    let (train, unit) = pairs.find(|(train, _)| holds(train))?;
    if unit.at != train.at {
        Some(ChannelCase::TakenNotReported)
    } else if waits(unit) {
        Some(ChannelCase::TakenNotHeard)
    } else {
        (unit.state == UnitState::UnderWay).then_some(ChannelCase::TakenUnderWay)
    }
}

/// Of the FE that a unit awaits.
fn of_granted(unit: &Unit, delivery: &Delivery) -> Vec<ChannelCase> {
    let Sent { event, by, .. } = delivery.sent;
    let declined = unit.state == UnitState::Declined;
    shown([
        (delivery.event > event + 1, ChannelCase::Late),
        (declined, ChannelCase::LateDeclined),
        (by == Sender::Desk(AM), ChannelCase::AuthorityOfAm),
        (by == Sender::Desk(LB), ChannelCase::AuthorityOfLb),
    ])
}

/// Of an FE for the unit's train that was refused by 22.
fn of_not_awaited(unit: &Unit, m: Move) -> ChannelCase {
    match unit.state {
        UnitState::Standing => ChannelCase::OldStanding,
        UnitState::Asked | UnitState::Declined => ChannelCase::OldWaiting,
        _ if unit.own_move() == Some(m) => ChannelCase::HeardAgain,
        _ => ChannelCase::OldUnderWay,
    }
}

/// Of an FE for another train.
fn of_anothers(unit: &Unit, m: Move) -> Vec<ChannelCase> {
    let awaited = unit.own_move().filter(|_| waits(unit));
    let same_posts = awaited.is_some_and(|own| (own.from, own.to) == (m.from, m.to));
    shown([
        (true, ChannelCase::AnothersAuthority),
        (same_posts, ChannelCase::AnothersAwaited),
    ])
}

/// Of an AFE.
fn of_declined(unit: &Unit, m: Move) -> Vec<ChannelCase> {
    let of_another = m.train != unit.train;
    let own = unit.own_move() == Some(m);
    let old = !of_another && !own && waits(unit);
    shown([
        (of_another, ChannelCase::AnothersDeclined),
        (own && is_authorised(unit), ChannelCase::DeclinedAfter),
        (old, ChannelCase::OldDeclined),
    ])
}

/// Of a press.
pub fn of_press(unit: &Unit) -> Vec<ChannelCase> {
    shown([(unit.start == unit.end, ChannelCase::ParkedPressed)])
}

/// Of box and units after an event, where all is as it is claimed: each unit that is under way has its Running train,
/// and no two have one section.
pub fn of_both(both: &Both) -> Vec<ChannelCase> {
    let among = |state| both.units.iter().filter(|unit| unit.state == state).count();
    let pairs = || both.state.present().iter().zip(&both.units);
    let is_ahead = |train: &Train, unit: &Unit| unit.at != train.at;
    let mut ahead = pairs().filter(|(train, unit)| is_ahead(train, unit));
    shown([
        (among(UnitState::Granted) > 0, ChannelCase::Granted),
        (among(UnitState::UnderWay) > 0, ChannelCase::UnderWay),
        (among(UnitState::Arrived) > 0, ChannelCase::Arrived),
        (among(UnitState::UnderWay) > 1, ChannelCase::TwoUnderWay),
        (ahead.clone().count() > 0, ChannelCase::Ahead),
        (
            ahead.any(|(_, unit)| waits(unit)),
            ChannelCase::AheadAndAsks,
        ),
    ])
}

/// Of all that was sent in a run, at its end.
pub fn of_lost(sent: &[Sent]) -> Vec<ChannelCase> {
    let is_lost = |kind| {
        let mut lost = sent.iter().filter(|sent| sent.times == 0);
        lost.any(|sent| sent.frame[KIND_AT] == kind)
    };
    shown([
        (is_lost(FA), ChannelCase::LostFa),
        (is_lost(FE), ChannelCase::LostFe),
        (is_lost(AM), ChannelCase::LostAm),
    ])
}

#[cfg(test)]
mod tests {
    use super::*;
    use crate::state_moves::bring;
    use crate::tests::reply_of;
    use inputs::frames::{frame, local_run, AFE, LA, LE};
    use inputs::sizes::{JOURNAL_RECORDS, OUT_BYTES, TABLE_BYTES};
    use model::{unit, Record, Standing};
    use ChannelCase::*;

    type Change = fn(&mut Both);
    type Frame = [u8; FRAME_BYTES];

    /// Four posts with four tracks each, two trains up, one down and a parked one.
    fn line_with(change: Change) -> Both {
        let mut both = Both::opened(&[4; 4], &[[0, 3], [0, 3], [3, 0], [3, 3]]);
        change(&mut both);
        assert_eq!(both.hold(), Ok(()));
        both
    }

    fn sent(frame: Frame) -> Sent {
        Sent {
            frame,
            by: Sender::Anybody,
            event: 8,
            times: 0,
            short: false,
        }
    }

    /// The frame is delivered after the one that was sent before it, at the event after its own.
    fn delivery(sent: Sent, refusal: u8) -> Delivery {
        Delivery {
            event: 9,
            number: 4,
            sent,
            refusal,
        }
    }

    /// Of a frame at the box of that line, changed.
    fn at_the_box(watch: &mut Watch, change: Change, sent: Sent) -> Vec<ChannelCase> {
        let both = line_with(change);
        let table = vec![255; TABLE_BYTES];
        let mut journal = [Record::BLANK; JOURNAL_RECORDS];
        let mut out = [0; OUT_BYTES];
        let (_, verdict) = model::answer(&both.state, &table, &mut journal, &sent.frame, &mut out);
        watch.at_the_box(&both, &delivery(sent, reply_of(verdict).refusal))
    }

    fn told(change: Change, frame: Frame) -> Vec<ChannelCase> {
        at_the_box(&mut Watch::default(), change, sent(frame))
    }

    /// Of a frame that unit 0 of that line, changed, hears.
    fn heard(change: Change, sent: Sent, event: usize) -> Vec<ChannelCase> {
        let both = line_with(change);
        let (_, refusal) = unit::hear(&both.units[0], &sent.frame);
        let delivery = Delivery {
            event,
            ..delivery(sent, refusal)
        };
        Watch::default().at_unit(0, &both, &delivery)
    }

    /// Train 0 and its unit are at post 2.
    fn at_post_2(b: &mut Both) {
        bring(&mut b.state.train[0], 2);
        b.units[0].at = 2;
    }

    fn home(b: &mut Both) {
        bring(&mut b.state.train[0], 3);
        (b.state.train[0].track, b.units[0].at) = (3, 3);
    }

    /// The unit has asked.
    fn asks(b: &mut Both) {
        b.units[0].state = UnitState::Asked;
    }

    /// Train 0 has its authority, and the unit has not heard of it.
    fn runs(b: &mut Both) {
        let ahead = if b.state.train[0].at == 2 { 2 } else { 1 };
        b.state.train[0].standing = Standing::Running(ahead);
        asks(b);
    }

    /// The unit is under way.
    fn goes(b: &mut Both) {
        runs(b);
        b.units[0].state = UnitState::UnderWay;
    }

    /// Both are at post 2, and the unit has asked for its next move.
    fn asks_next(b: &mut Both) {
        at_post_2(b);
        asks(b);
    }

    /// Both are at post 2, and the unit is under way from there.
    fn goes_on(b: &mut Both) {
        at_post_2(b);
        goes(b);
    }

    /// The unit has reported, and its AM was not at the box yet.
    fn reports(b: &mut Both) {
        runs(b);
        (b.units[0].at, b.units[0].state) = (b.units[0].at + 1, UnitState::Standing);
    }

    /// And it has asked for its next move.
    fn asks_ahead(b: &mut Both) {
        reports(b);
        asks(b);
    }

    #[test]
    fn requests_at_the_box_are_told() {
        let ask = frame(FA, 0, 0, 1);
        assert_eq!(told(|_| (), ask), []);
        assert_eq!(told(runs, ask), [AskedAgain]);
        assert_eq!(told(goes, ask), []);
        assert_eq!(told(asks_ahead, frame(FA, 0, 1, 2)), [AskedEarly]);
        assert_eq!(told(at_post_2, frame(FA, 0, 1, 2)), [OldRequest]);
        assert_eq!(told(at_post_2, ask), [OldRequest]);
        assert_eq!(told(home, ask), [OldRequestHome]);
        assert_eq!(told(|_| (), frame(FA, 0, 1, 2)), []);
    }

    #[test]
    fn arrivals_at_the_box_are_told() {
        let cases: [(Change, [u8; 2], &[ChannelCase]); 7] = [
            (reports, [0, 1], &[]),
            (at_post_2, [1, 2], &[ArrivedAgain]),
            (goes_on, [1, 2], &[ArrivedAgain, ArrivedAgainUnderWay]),
            (at_post_2, [0, 1], &[Earlier]),
            (goes_on, [0, 1], &[Earlier, EarlierUnderWay]),
            (home, [2, 3], &[ArrivedAgain]),
            (home, [1, 2], &[EarlierHome]),
        ];
        for (number, (change, [from, to], expected)) in cases.into_iter().enumerate() {
            let told = told(change, frame(AM, 0, from, to));
            assert_eq!(told, expected, "case {number}");
        }
        let watch = &mut Watch::default();
        let [next_ask, arrival] = [frame(FA, 0, 1, 2), frame(AM, 0, 0, 1)].map(sent);
        assert_eq!(at_the_box(watch, reports, next_ask), [AskedEarly]);
        assert_eq!(at_the_box(watch, reports, arrival), [ArrivedLate]);
        assert_eq!(at_the_box(watch, reports, arrival), []);
    }

    #[test]
    fn frames_of_gangs_at_the_box_are_told() {
        let [la, lb] = [LA, LB].map(|kind| local_run(kind, 0));
        let gang: Change = |b| (b.state.possessions[0], b.state.given) = (true, 1);
        assert_eq!(told(|_| (), la), []);
        assert_eq!(told(runs, la), [TakenNotHeard]);
        assert_eq!(told(goes, la), [TakenUnderWay]);
        assert_eq!(told(reports, la), [TakenNotReported]);
        assert_eq!(told(gang, la), []);
        assert_eq!(told(gang, lb), []);
        let again = |change, frame| {
            let (times, sent) = (1, sent(frame));
            at_the_box(&mut Watch::default(), change, Sent { times, ..sent })
        };
        assert_eq!(again(|_| (), la), [LentAgain]);
        assert_eq!(again(gang, lb), [BackAgain]);
        for [train, from, to] in [[0, 0, 1], [255, 1, 0], [255, 3, 4]] {
            assert_eq!(told(|_| (), frame(LA, train, from, to)), [Misnamed]);
            assert_eq!(told(|_| (), frame(LB, train, from, to)), [Misnamed]);
        }
    }

    #[test]
    fn frames_at_the_wrong_end_are_told() {
        assert_eq!(told(runs, frame(FE, 0, 0, 1)), [FeAtBox]);
        assert_eq!(told(runs, frame(AFE, 0, 0, 1)), [AfeAtBox]);
        assert_eq!(told(runs, local_run(LE, 0)), [LeAtBox]);
        for (kind, case) in [(FA, FaAtUnit), (AM, AmAtUnit)] {
            let from = |by| {
                let sent = sent(frame(kind, 0, 0, 1));
                heard(runs, Sent { by, ..sent }, 9)
            };
            assert_eq!(from(Sender::Unit(0)), [OwnFrame, case]);
            assert_eq!(from(Sender::Unit(1)), [case]);
        }
        for (kind, case) in [(LA, LaAtUnit), (LE, LeAtUnit), (LB, LbAtUnit)] {
            assert_eq!(heard(runs, sent(local_run(kind, 0)), 9), [case]);
        }
    }

    #[test]
    fn authorities_at_a_unit_are_told() {
        let granted = sent(frame(FE, 0, 0, 1));
        let declined: Change = |b| {
            runs(b);
            b.units[0].state = UnitState::Declined;
        };
        assert_eq!(heard(runs, granted, 9), []);
        assert_eq!(heard(runs, granted, 10), [Late]);
        assert_eq!(heard(declined, granted, 9), [LateDeclined]);
        for (kind, case) in [(AM, AuthorityOfAm), (LB, AuthorityOfLb)] {
            let by = Sender::Desk(kind);
            assert_eq!(heard(runs, Sent { by, ..granted }, 9), [case]);
        }
        assert_eq!(heard(goes, granted, 9), [HeardAgain]);
        assert_eq!(heard(at_post_2, granted, 9), [OldStanding]);
        assert_eq!(heard(asks_next, granted, 9), [OldWaiting]);
        assert_eq!(heard(goes_on, granted, 9), [OldUnderWay]);
        let anothers = |from, to| heard(runs, sent(frame(FE, 1, from, to)), 9);
        assert_eq!(anothers(1, 2), [AnothersAuthority]);
        assert_eq!(anothers(0, 1), [AnothersAuthority, AnothersAwaited]);
    }

    #[test]
    fn declined_requests_at_a_unit_are_told() {
        let declined = sent(frame(AFE, 0, 0, 1));
        assert_eq!(heard(runs, declined, 9), []);
        assert_eq!(heard(goes, declined, 9), [DeclinedAfter]);
        assert_eq!(heard(asks_next, declined, 9), [OldDeclined]);
        let anothers = sent(frame(AFE, 1, 0, 1));
        assert_eq!(heard(runs, anothers, 9), [AnothersDeclined]);
    }

    #[test]
    fn what_comes_after_what_is_told() {
        let watch = &mut Watch::default();
        let mut at = |number, times, short| {
            let (both, sent) = (line_with(|_| ()), sent(frame(FA, 0, 0, 1)));
            let delivery = Delivery {
                number,
                ..delivery(
                    Sent {
                        times,
                        short,
                        ..sent
                    },
                    0,
                )
            };
            let mut cases = watch.at_the_box(&both, &delivery);
            cases.extend(watch.at_unit(0, &both, &delivery));
            cases
        };
        assert_eq!(at(4, 0, false), []);
        assert_eq!(at(5, 0, true), [ShortThenAgain]);
        assert_eq!(at(5, 1, false), []);
        assert_eq!(at(4, 2, false)[..2], [OvertakenToBox, Thrice]);
        assert_eq!(at(4, 2, false)[2..], [OvertakenToUnit, Thrice]);
        assert_eq!(at(6, 3, false), []);
    }

    #[test]
    fn box_and_units_after_an_event_are_told() {
        let of = |change| of_both(&line_with(change));
        assert_eq!(of(|_| ()), []);
        assert_eq!(of(runs), []);
        assert_eq!(of(goes), [ChannelCase::UnderWay]);
        for (state, case) in [
            (UnitState::Granted, ChannelCase::Granted),
            (UnitState::Arrived, ChannelCase::Arrived),
        ] {
            let mut both = line_with(goes);
            both.units[0].state = state;
            assert_eq!(of_both(&both), [case]);
        }
        assert_eq!(of(reports), [Ahead]);
        assert_eq!(of(asks_ahead), [Ahead, AheadAndAsks]);
        let two: Change = |b| {
            goes(b);
            b.state.train[2].standing = Standing::Running(4);
            b.units[2].state = UnitState::UnderWay;
        };
        assert_eq!(of(two), [ChannelCase::UnderWay, TwoUnderWay]);
        let units = line_with(|_| ()).units;
        assert_eq!(of_press(&units[2]), []);
        assert_eq!(of_press(&units[3]), [ParkedPressed]);
    }

    #[test]
    fn lost_frames_are_told() {
        let all = [FA, FE, AFE, AM].map(|kind| sent(frame(kind, 0, 0, 1)));
        assert_eq!(of_lost(&all), [LostFa, LostFe, LostAm]);
        assert_eq!(of_lost(&all[2..3]), []);
        let delivered = all.map(|sent| Sent { times: 1, ..sent });
        assert_eq!(of_lost(&delivered), []);
    }
}
