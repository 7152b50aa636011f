//! The numbers that a world draws for its calls: objects of its own, values near a limit, patterns that are met and missed.
//! All come from the world's one generator of random numbers.

use crate::gen::{World, LIMITS};
use crate::rng::Rng;
use crate::services::*;

impl World {
    pub fn wild_number(&mut self) -> u32 {
        match self.rng.below(4) {
            0 => self.rng.any() as u32,
            1 => self.rng.from(0, 31),
            _ => self.rng.pick(&LIMITS),
        }
    }

    pub(crate) fn task_create(&mut self, task: u32) -> Call {
        let option = u32::from(self.rng.percent(self.eager));
        Call::of(CREATE, task, self.level(), option)
    }

    pub(crate) fn sem_create(&mut self, semaphore: u32) -> Call {
        let maximum = self.rng.pick(&[1, 1, 1, 2, 3, 65_535]);
        let start = match self.rng.below(4) {
            0 => maximum,
            1 => maximum - 1,
            _ => 0,
        };
        Call::of(SEM_CREATE, semaphore, start, maximum)
    }

    pub(crate) fn event_create(&mut self, flag: u32) -> Call {
        let attributes = self.rng.pick(&[0, 0, 1, 3]);
        let bits = if self.rng.percent(60) { 0 } else { self.pattern() };
        Call::of(EVENT_CREATE, flag, attributes, bits)
    }

    /// Mostly small, so that it is soon full; and now and then the largest of all.
    pub(crate) fn queue_create(&mut self, queue: u32) -> Call {
        let capacity = if self.rng.percent(10) { 16 } else { self.rng.from(0, self.largest) };
        Call::of(QUEUE_CREATE, queue, capacity, 0)
    }

    /// Any element is allowed, 0 too; a few are drawn again and again, so that equal ones meet.
    pub(crate) fn element(&mut self) -> u32 {
        match self.rng.below(6) {
            0 => 0,
            1 => self.rng.pick(&[1, 7, u32::MAX, 1 << 31]),
            _ => self.rng.from(1, 999),
        }
    }

    /// A few low bits, so that waits are met and missed; now and then all bits or the highest.
    pub(crate) fn pattern(&mut self) -> u32 {
        match self.rng.below(12) {
            0 => self.rng.pick(&[0, u32::MAX, 1 << 31, 6 << 29]),
            _ => self.rng.from(1, 7),
        }
    }

    pub(crate) fn mode(&mut self) -> u32 {
        self.rng.from(0, 1)
    }

    pub(crate) fn flag(&mut self) -> u32 {
        self.rng.pick(&self.flags)
    }

    pub(crate) fn task(&mut self) -> u32 {
        self.rng.pick(&self.tasks)
    }

    pub(crate) fn level(&mut self) -> u32 {
        self.rng.pick(&self.levels)
    }

    pub(crate) fn semaphore(&mut self) -> u32 {
        self.rng.pick(&self.semaphores)
    }

    pub(crate) fn queue(&mut self) -> u32 {
        self.rng.pick(&self.queues)
    }

    pub(crate) fn timeout(&mut self) -> u32 {
        if self.rng.percent(self.patient) {
            return self.rng.pick(&[u32::MAX, u32::MAX, 65_535, 65_536, u32::MAX - 1, 0]);
        }
        match self.rng.below(10) {
            0 | 1 => self.rng.from(5, 40),
            _ => self.rng.from(1, 4),
        }
    }
}

/// From one to `most` different numbers of 1..=`last`; all of them if there are not so many.
pub(crate) fn some(rng: &mut Rng, last: u32, most: u32) -> Vec<u32> {
    let mut numbers: Vec<u32> = (1..=last).collect();
    for place in 0..numbers.len() {
        let other = place + rng.below(numbers.len() - place);
        numbers.swap(place, other);
    }
    numbers.truncate(rng.from(1, most) as usize);
    numbers
}
