//! Runs the device's steps until none has anything to do.

use std::iter::FusedIterator;
use std::vec::IntoIter;

use crate::error::Error;
use crate::event::Event;
use crate::handle::Place;
use crate::nic::Nic;

/// The number of queues.
const QUEUES: u16 = 128;

/// The events of [`Nic::settle`], in order.
#[derive(Clone, Debug)]
pub struct Settled {
    events: IntoIter<Event>,
}

impl Settled {
    pub(crate) fn of(nic: &Nic, queues: u16) -> Result<Settled, Error> {
        Ok(Settled { events: nic.handle().settle(queues)?.into_iter() })
    }

    /// Returns the events that the iterator hasn't yielded yet.
    pub fn as_slice(&self) -> &[Event] {
        self.events.as_slice()
    }
}

impl Iterator for Settled {
    type Item = Event;

    fn next(&mut self) -> Option<Event> {
        self.events.next()
    }

    fn size_hint(&self) -> (usize, Option<usize>) {
        self.events.size_hint()
    }
}

impl DoubleEndedIterator for Settled {
    fn next_back(&mut self) -> Option<Event> {
        self.events.next_back()
    }
}

impl ExactSizeIterator for Settled {}

impl FusedIterator for Settled {}

/// An iterator that runs a step of [`Nic::steps`] for each event that you request.
///
/// ```
/// use nic82599::{regs, Event, Nic, Sizes};
///
/// let nic = Nic::open(Sizes::default())?;
/// nic.write(regs::IVAR_MISC, regs::ivar_misc::INT_ALLOC_1.is(3) | regs::ivar_misc::INT_ALLOC_VAL_1);
/// nic.write(regs::EIMS, 1 << 20);
/// nic.write(regs::EICS, 1 << 20);
/// for event in nic.steps(1)? {
///     if let Event::Message { vector, .. } = event? {
///         nic.write(regs::EIMC, 1 << 20); // the handler masks its cause before the device continues
///         nic.write(regs::EICR, 1 << 20);
///         assert_eq!(vector, 3);
///     }
/// }
/// # Ok::<(), nic82599::Error>(())
/// ```
#[derive(Debug)]
#[must_use = "the device takes only requested steps"]
pub struct Steps<'a> {
    nic: &'a Nic,
    place: Place,
    is_over: bool,
}

impl<'a> Steps<'a> {
    pub(crate) fn of(nic: &'a Nic, queues: u16) -> Result<Steps<'a>, Error> {
        if queues > QUEUES {
            return Err(Error::NoQueue);
        }
        Ok(Steps { nic, place: Place::new(queues), is_over: false })
    }
}

impl Iterator for Steps<'_> {
    type Item = Result<Event, Error>;

    fn next(&mut self) -> Option<Result<Event, Error>> {
        if self.is_over {
            return None;
        }
        let step = self.nic.handle().next_step(&mut self.place).transpose();
        self.is_over = !matches!(step, Some(Ok(_)));
        step
    }
}

impl FusedIterator for Steps<'_> {}
