//! What the kernel keeps of each task, level, semaphore, flag and data queue, and what a task may wait for.
//! A record knows itself alone; the kernel keeps the queues in step with the records.

use crate::queue::Queue;
use std::collections::VecDeque;

#[derive(Clone, Copy, PartialEq, Eq, Debug)]
pub enum Wait {
    Nothing,
    Sleep,
    Semaphore(u8),
    /// The flag, and what is asked of it.
    Flag(u8, Asked),
    /// The data queue, and the element that is to go in.
    Send(u8, u32),
    /// The data queue from which an element is to come.
    Receive(u8),
}

/// The bits that a wait or poll asks for: all of them, or any.
#[derive(Clone, Copy, PartialEq, Eq, Debug)]
pub struct Asked {
    pub pattern: u32,
    pub all: bool,
}

impl Asked {
    pub fn is_met_by(&self, bits: u32) -> bool {
        if self.all {
            bits | self.pattern == bits
        } else {
            (0..32).any(|bit| (bits >> bit) & (self.pattern >> bit) & 1 == 1)
        }
    }
}

#[derive(Clone, Copy, PartialEq, Eq, Debug)]
pub struct Task {
    /// The priority at creation; 0: not created.
    pub base: u8,
    pub priority: u8,
    /// Created and not dormant.
    pub active: bool,
    pub suspended: bool,
    pub wait: Wait,
    pub wakeups: u8,
    pub activations: u8,
    pub wait_code: i8,
    pub remaining: u32,
    /// The bits, or the element, that the last wait handed over.
    pub handed: u32,
    /// The ticks of its slice that it has used; only the first of a level has any.
    pub charge: u16,
    /// The time at which it last entered its level; 0 while dormant.
    pub entered: u32,
}

impl Task {
    pub const NONE: Task = Task::dormant(0);

    pub const fn dormant(base: u8) -> Task {
        Task {
            base,
            priority: base,
            active: false,
            suspended: false,
            wait: Wait::Nothing,
            wakeups: 0,
            activations: 0,
            wait_code: 0,
            remaining: 0,
            handed: 0,
            charge: 0,
            entered: 0,
        }
    }

    pub fn is_waiting(&self) -> bool {
        self.wait != Wait::Nothing
    }

    pub fn is_runnable(&self) -> bool {
        self.active && !self.suspended && !self.is_waiting()
    }
}

#[derive(Clone, Copy, PartialEq, Eq, Debug)]
pub struct Level {
    pub queue: Queue,
    pub slice: u16,
}

#[derive(Clone, Copy, PartialEq, Eq, Debug)]
pub struct Semaphore {
    pub queue: Queue,
    pub count: u16,
    /// 0: not created.
    pub maximum: u16,
}

impl Semaphore {
    pub const NONE: Semaphore = Semaphore { queue: Queue::EMPTY, count: 0, maximum: 0 };
}

#[derive(Clone, Copy, PartialEq, Eq, Debug)]
pub struct Flag {
    pub queue: Queue,
    pub created: bool,
    /// One waiter at most.
    pub single: bool,
    /// The bits are zeroed whenever a wait or poll is met.
    pub clr: bool,
    pub bits: u32,
}

impl Flag {
    pub const NONE: Flag = Flag { queue: Queue::EMPTY, created: false, single: false, clr: false, bits: 0 };
}

/// A data queue has two queues of tasks, as in document 000: those whose element found no room, and those who found no element.
#[derive(Clone, PartialEq, Eq, Debug)]
pub struct DataQueue {
    pub created: bool,
    pub capacity: usize,
    /// The elements inside, the oldest first.
    pub stored: VecDeque<u32>,
    pub senders: Queue,
    pub receivers: Queue,
}

impl DataQueue {
    pub const NONE: DataQueue = DataQueue {
        created: false,
        capacity: 0,
        stored: VecDeque::new(),
        senders: Queue::EMPTY,
        receivers: Queue::EMPTY,
    };

    pub fn has_room(&self) -> bool {
        self.stored.len() < self.capacity
    }
}
