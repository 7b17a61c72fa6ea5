//! Runs the device's steps in rounds until none has anything to do.

use crate::answers::event_of;
use crate::card::Card;
use crate::error::Error;
use crate::event::{Event, Side, Step};
use crate::nic_device::{self, Dir, Group, Reply, MAX_VFS, QUEUES};

/// The number of interrupt groups: one for the physical function and one for each virtual function.
const GROUPS: u16 = MAX_VFS as u16 + 1;
/// `settle` starts a new round after this many events.
const ROOM: usize = 256;

/// A position in the rounds of `settle`: the next step of the current round. A round serves the queues below `queues`.
#[derive(Debug)]
pub(crate) struct Place {
    queues: u16,
    at: u16,
}

/// The result of a step.
pub(crate) enum Made {
    /// It did something.
    Event(Event),
    /// It had nothing to do.
    Idle,
    /// No queue has this number.
    NoQueue,
    /// No interrupt group has this number or a higher one.
    NoGroup,
}

/// The device event that runs a step.
fn event_that_makes(step: Step) -> nic_device::Event {
    match step {
        Step::Queue(Side::Rx, queue) => nic_device::Event::QueueStep(Dir::Rx, queue),
        Step::Queue(Side::Tx, queue) => nic_device::Event::QueueStep(Dir::Tx, queue),
        Step::Eeprom => nic_device::Event::EepromStep,
        Step::Tx(queue) => nic_device::Event::TxStep(queue),
        Step::Rx => nic_device::Event::RxStep,
        Step::Int(None) => nic_device::Event::IntStep(Group::Pf),
        Step::Int(Some(function)) => nic_device::Event::IntStep(Group::Vf(function)),
    }
}

/// Runs a step.
pub(crate) fn make(card: &mut Card, step: Step) -> Result<Made, Error> {
    let reply = card.make(event_that_makes(step)).map_err(|_| Error::OutOfMemory)?;
    let side = if step == Step::Rx { Side::Rx } else { Side::Tx };
    Ok(match reply {
        Reply::Idle => Made::Idle,
        Reply::NoQueue => Made::NoQueue,
        Reply::NoGroup => Made::NoGroup,
        Reply::Done => Made::Event(switched(step)),
        reply => Made::Event(event_of(side, &reply).expect("every other reply to a step is an event")),
    })
}

/// The event of a step with the reply `Done`, which only says that the step did something.
fn switched(step: Step) -> Event {
    match step {
        Step::Queue(side, queue) => Event::Switched { side, queue },
        _ => Event::EepromAnswered,
    }
}

impl Place {
    /// The start of a round.
    pub(crate) fn new(queues: u16) -> Place {
        Place { queues, at: 0 }
    }

    /// The number of steps in a round.
    fn steps(&self) -> u16 {
        3 * self.queues + 2 + GROUPS
    }

    /// The step at this position. A round consists of the receive and transmit enable steps of each queue; the EEPROM
    /// step; a transmit step for each queue; a receive step; an interrupt step for each group.
    fn step(&self) -> Step {
        let (enables, at) = (2 * self.queues, self.at);
        if at < enables {
            return Step::Queue(if at % 2 == 0 { Side::Rx } else { Side::Tx }, at / 2);
        }
        match at - enables {
            0 => Step::Eeprom,
            tx if tx <= self.queues => Step::Tx(tx - 1),
            other => match other - self.queues - 1 {
                0 => Step::Rx,
                1 => Step::Int(None),
                group => Step::Int(Some((group - 2) as u8)),
            },
        }
    }

    /// Runs the next step that has something to do. Returns `None` if a whole round has nothing to do.
    pub(crate) fn next(&mut self, card: &mut Card) -> Result<Option<Event>, Error> {
        let mut idle = 0;
        while idle < self.steps() {
            self.at %= self.steps();
            match make(card, self.step())? {
                Made::Event(event) => {
                    self.at += 1;
                    return Ok(Some(event));
                }
                Made::NoGroup => {
                    idle += self.steps() - self.at;
                    self.at = self.steps();
                }
                Made::Idle | Made::NoQueue => {
                    idle += 1;
                    self.at += 1;
                }
            }
        }
        self.at = 0;
        Ok(None)
    }
}

/// Runs steps until none has anything to do. A new round begins after every 256 events.
pub(crate) fn settle(card: &mut Card, queues: u16) -> Result<Vec<Event>, Error> {
    if queues > QUEUES {
        return Err(Error::NoQueue);
    }
    let (mut events, mut place) = (Vec::new(), Place::new(queues));
    while let Some(event) = place.next(card)? {
        events.push(event);
        if events.len() % ROOM == 0 {
            place.at = 0;
        }
    }
    Ok(events)
}
