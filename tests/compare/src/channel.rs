//! Runs from an opened book over a channel that loses, repeats, delays and reorders frames, with a unit for each train.
//! Every frame that was sent stays deliverable, to the box or to any unit, any number of times.

use crate::channel_cases::{self as cases, Delivery, Sender, Sent, Watch};
use crate::claim::{is_none_of, Both, NEVER_AT_A_UNIT, NEVER_AT_THE_BOX};
use crate::desk::Desk;
use crate::lent::Lent;
use crate::openings::Opened;
use crate::pair::{Compared, Difference, Pair};
use crate::radio::Radio;
use crate::{frames, runs, stores};
use inputs::encoding::{is_home, trains_in, PHASE_AT};
use inputs::frames::{AFE, FE, KIND_AT, LE, TRAIN_AT};
use inputs::random::Random;
use inputs::sizes::{FRAME_BYTES, TABLE_BYTES};

/// Events of one run at the most: mostly enough for all to get home.
const LONGEST_RUN: usize = 1_200;

/// Once all are home, one event in so many is the last.
const EVENTS_AFTER: usize = 24;

/// While a gang is out, one event in so many is an LA or LB.
const GANGS_OUT: usize = 8;

/// What happens. A delivery has the frame's number among those sent.
#[derive(Debug, Clone, Copy)]
enum Event {
    Press { unit: usize, button: u8 },
    Gang([u8; FRAME_BYTES]),
    ToTheBox(usize),
    ToUnit(usize, usize),
}

impl Event {
    fn kind(self) -> &'static str {
        match self {
            Event::Press { .. } => "channel: a press",
            Event::Gang(_) => "channel: an LA or LB put to the box",
            Event::ToTheBox(_) => "channel: a frame delivered to the box",
            Event::ToUnit(..) => "channel: a frame delivered to a unit",
        }
    }

    fn is_at_the_box(self) -> bool {
        matches!(self, Event::Gang(_) | Event::ToTheBox(_))
    }
}

/// How a channel is in one run.
struct Weather {
    /// Mostly one of the latest so many frames is delivered.
    reach: usize,
    /// One delivery in so many is of a frame that was not delivered yet.
    delayed: usize,
    /// One delivery in so many, after a frame's first, goes to any end, others to that which they are meant for.
    astray: usize,
    /// While no gang is out, one event in so many is an LA or LB.
    gangs: usize,
}

impl Weather {
    fn some(random: &mut Random) -> Weather {
        Weather {
            reach: random.pick(&[1, 2, 6, 20]),
            delayed: random.pick(&[1, 2, 4, 12]),
            astray: random.pick(&[3, 8, 24]),
            gangs: random.pick(&[10, 30, 100]),
        }
    }
}

/// Box and units, and all frames that were sent.
struct Channel<'a> {
    weather: Weather,
    table: &'a Lent,
    desk: Desk,
    units: Vec<Lent>,
    /// Both as they are now.
    now: Both,
    sent: Vec<Sent>,
    events: Vec<Event>,
    watch: Watch,
}

/// A run until all trains are home, at the box and in the cabs, and some events after that.
pub fn whole(pair: &mut Pair, opened: &Opened, random: &mut Random) -> Compared<()> {
    count_inputs(pair, opened);
    let mut channel = Channel::opened(pair, opened, random)?;
    for _ in 0..LONGEST_RUN {
        channel.step(pair, random)?;
        if channel.all_home() && random.one_in(EVENTS_AFTER) {
            pair.counts.input("channel: a run until all are home");
            break;
        }
    }
    pair.counts.cases(cases::of_lost(&channel.sent));
    pair.unchanged(&opened.table)
}

fn count_inputs(pair: &mut Pair, opened: &Opened) {
    pair.counts.input("channel: a run");
    pair.counts.input(match opened.edition {
        1 => "channel: a book of edition 1",
        2 => "channel: a book of edition 2",
        _ => "channel: a book of edition 3",
    });
    pair.counts.input(match opened.table.bytes().len() {
        TABLE_BYTES => "channel: a table of 32,768 bytes",
        _ => "channel: a longer table",
    });
}

impl<'a> Channel<'a> {
    /// The box is opened with the book, and a unit is made for each train.
    fn opened(pair: &mut Pair, opened: &'a Opened, random: &mut Random) -> Compared<Channel<'a>> {
        let desk = Desk::opened(&opened.state, stores::journal(random), random);
        let units = runs::make_units(pair, &opened.state, random)?;
        let now = Both::of(desk.state(), &units).map_err(Difference)?;
        now.hold().map_err(Difference)?;
        Ok(Channel {
            weather: Weather::some(random),
            table: &opened.table,
            desk,
            units,
            now,
            sent: vec![],
            events: vec![],
            watch: Watch::default(),
        })
    }

    /// All trains are at their ends at the box, and so are all units.
    fn all_home(&self) -> bool {
        trains_in(self.desk.state()).all(is_home)
            && self.now.units.iter().all(|unit| unit.at == unit.end)
    }

    /// One event, and what is claimed after it.
    fn step(&mut self, pair: &mut Pair, random: &mut Random) -> Compared<()> {
        let event = self.some_event(random);
        self.events.push(event);
        match event {
            Event::Press { unit, button } => self.press(pair, unit, button, random)?,
            Event::Gang(frame) => {
                self.send(frame, Sender::Anybody);
                self.reach_the_box(pair, self.sent.len() - 1, random)?;
            }
            Event::ToTheBox(number) => self.reach_the_box(pair, number, random)?,
            Event::ToUnit(number, unit) => self.reach_unit(pair, number, unit, random)?,
        }
        pair.counts.event(event.kind(), event.is_at_the_box());
        let now = Both::of(self.desk.state(), &self.units);
        self.now = now.map_err(|found| self.report(&found))?;
        self.now.hold().map_err(|found| self.report(&found))?;
        pair.counts.cases(cases::of_both(&self.now));
        Ok(())
    }

    fn some_event(&self, random: &mut Random) -> Event {
        let gangs = if self.now.state.possessions.contains(&true) {
            GANGS_OUT
        } else {
            self.weather.gangs
        };
        if random.one_in(gangs) {
            return Event::Gang(frames::by_anybody(self.desk.state(), random));
        }
        if self.sent.is_empty() || random.below(8) < 3 {
            let unit = self.some_unit(random);
            let phase = self.units[unit].bytes()[PHASE_AT];
            let button = runs::some_button(phase, Radio::Bad, random);
            return Event::Press { unit, button };
        }
        self.some_delivery(random)
    }

    /// To the end that the frame is meant for, or to any. The first time it goes astray less often.
    fn some_delivery(&self, random: &mut Random) -> Event {
        let number = self.some_number(random);
        let astray = match self.sent[number].times {
            0 => 4 * self.weather.astray,
            _ => self.weather.astray,
        };
        if !random.one_in(astray) {
            return self.as_meant(number, random);
        }
        match random.below(self.units.len() + 1) {
            0 => Event::ToTheBox(number),
            after => Event::ToUnit(number, after - 1),
        }
    }

    /// Some unit, mostly one that has to go on.
    fn some_unit(&self, random: &mut Random) -> usize {
        let units = &self.now.units;
        let unit = random.below(units.len());
        if units[unit].at == units[unit].end && !random.one_in(4) {
            return random.below(units.len());
        }
        unit
    }

    /// A frame of those sent: any, or one that was not delivered yet, but mostly one of the latest.
    fn some_number(&self, random: &mut Random) -> usize {
        let any = random.below(self.sent.len());
        if random.one_in(8) {
            return any;
        }
        if random.one_in(self.weather.delayed) {
            let delayed = self.sent[any..].iter().position(|sent| sent.times == 0);
            return any + delayed.unwrap_or(0);
        }
        let reach = self.sent.len().min(self.weather.reach);
        self.sent.len() - 1 - random.below(reach)
    }

    /// To the end that the frame is meant for; an LE to any unit.
    fn as_meant(&self, number: usize, random: &mut Random) -> Event {
        let frame = self.sent[number].frame;
        match frame[KIND_AT] {
            FE | AFE => {
                let unit = usize::from(frame[TRAIN_AT]) % self.units.len();
                Event::ToUnit(number, unit)
            }
            LE => Event::ToUnit(number, random.below(self.units.len())),
            _ => Event::ToTheBox(number),
        }
    }

    fn press(
        &mut self,
        pair: &mut Pair,
        unit: usize,
        button: u8,
        random: &mut Random,
    ) -> Compared<()> {
        pair.counts.cases(cases::of_press(&self.now.units[unit]));
        let (refusal, frame) = runs::press(pair, &mut self.units[unit], button, random)?;
        if let Some(frame) = frame {
            self.send(frame, Sender::Unit(unit));
        }
        is_none_of(NEVER_AT_A_UNIT, refusal).map_err(|found| self.report(&found))
    }

    /// A frame reaches the box, and what answers it is sent.
    fn reach_the_box(
        &mut self,
        pair: &mut Pair,
        number: usize,
        random: &mut Random,
    ) -> Compared<()> {
        let sent = self.sent[number];
        let reply = self.desk.put(pair, self.table, &sent.frame, random)?;
        let answers = self.desk.answers(reply.sent);
        let delivery = self.delivered(number, reply.refusal);
        let cases = self.watch.at_the_box(&self.now, &delivery);
        pair.counts.cases(cases);
        self.sent[number].short = reply.refusal == 2;
        for answer in answers {
            self.send(answer, Sender::Desk(sent.frame[KIND_AT]));
        }
        is_none_of(NEVER_AT_THE_BOX, reply.refusal).map_err(|found| self.report(&found))
    }

    /// A frame reaches a unit.
    fn reach_unit(
        &mut self,
        pair: &mut Pair,
        number: usize,
        unit: usize,
        random: &mut Random,
    ) -> Compared<()> {
        let heard = Lent::new(&self.sent[number].frame, random);
        let reply = pair.hear(&mut self.units[unit], &heard)?;
        let delivery = self.delivered(number, reply.refusal);
        let cases = self.watch.at_unit(unit, &self.now, &delivery);
        pair.counts.cases(cases);
        is_none_of(NEVER_AT_A_UNIT, reply.refusal).map_err(|found| self.report(&found))
    }

    fn send(&mut self, frame: [u8; FRAME_BYTES], by: Sender) {
        self.sent.push(Sent {
            frame,
            by,
            event: self.events.len(),
            times: 0,
            short: false,
        });
    }

    /// A frame was delivered, and got this number.
    fn delivered(&mut self, number: usize, refusal: u8) -> Delivery {
        let sent = self.sent[number];
        self.sent[number].times += 1;
        Delivery {
            event: self.events.len(),
            number,
            sent,
            refusal,
        }
    }

    /// What was found, box and units as they were last looked at, and all that happened.
    fn report(&self, found: &str) -> Difference {
        let mut text = format!("{found}\n{:?}\n", self.now);
        for (number, sent) in self.sent.iter().enumerate() {
            text += &format!("sent {number}: {:?}\n", sent.frame);
        }
        for event in &self.events {
            text += &format!("{event:?}\n");
        }
        Difference(text)
    }
}
