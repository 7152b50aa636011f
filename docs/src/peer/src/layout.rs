//! The byte layout of the library's State, field by field.
//! The way to it and back from the peer's own state is in convert.rs.

pub use crate::convert::{call, load, store};
use crate::kernel::{FLAGS, LARGEST_CAPACITY, SEMAPHORES};
use crate::queue::PLACES;
use std::mem::{offset_of, size_of};

pub const TASK_PLACES: usize = 25;
pub const LEVEL_PLACES: usize = 31;
pub const SEMAPHORE_PLACES: usize = 13;
pub const FLAG_PLACES: usize = 9;
pub const QUEUE_PLACES: usize = 9;
/// The places for the elements of one data queue.
pub const ELEMENTS: usize = LARGEST_CAPACITY as usize;
/// The rows of those who wait: none, those of the 12 semaphores, those of the 8 flags, those of the 8 data queues.
pub const WAIT_ROWS: usize = 29;

#[repr(C)]
#[derive(Clone, Copy, PartialEq, Eq, Debug)]
pub struct Wait {
    pub kind: u8,
    pub object: u8,
    pub mode: u8,
    pub spare: u8,
    pub remaining: u32,
    pub pattern: u32,
}

#[repr(C)]
#[derive(Clone, Copy, PartialEq, Eq, Debug)]
pub struct Task {
    pub base: u8,
    pub priority: u8,
    pub active: u8,
    pub suspended: u8,
    pub wakeups: u8,
    pub activations: u8,
    pub code: u8,
    pub spare: u8,
    pub wait: Wait,
    pub handed: u32,
    pub charge: u32,
    pub entered: u32,
}

#[repr(C)]
#[derive(Clone, Copy, PartialEq, Eq, Debug)]
pub struct Queue {
    pub places: [u8; PLACES],
}

#[repr(C)]
#[derive(Clone, Copy, PartialEq, Eq, Debug)]
pub struct Numbers {
    pub slices: [u32; LEVEL_PLACES],
    pub counts: [u32; SEMAPHORE_PLACES],
    pub maxima: [u32; SEMAPHORE_PLACES],
    /// The attributes plus 1; 0: not created.
    pub attributes: [u32; FLAG_PLACES],
    pub bits: [u32; FLAG_PLACES],
    pub time: u32,
    /// The capacity plus 1; 0: not created.
    pub capacities: [u32; QUEUE_PLACES],
    /// How many elements are stored.
    pub taken: [u32; QUEUE_PLACES],
    /// The oldest first.
    pub elements: [[u32; ELEMENTS]; QUEUE_PLACES],
}

#[repr(C)]
#[derive(Clone, Copy, PartialEq, Eq, Debug)]
pub struct State {
    pub tasks: [Task; TASK_PLACES],
    pub levels: [Queue; LEVEL_PLACES],
    pub waits: [Queue; WAIT_ROWS],
    pub numbers: Numbers,
}

const _: () = assert!(size_of::<Task>() == 32 && offset_of!(Task, wait) == 8 && offset_of!(Task, handed) == 20);
const _: () = assert!(offset_of!(Task, charge) == 24 && offset_of!(Task, entered) == 28 && size_of::<Numbers>() == 952);
const _: () = assert!(size_of::<State>() == 3192 && offset_of!(State, numbers) == 2240);
const _: () = assert!(size_of::<Reply>() == 3204 && offset_of!(Reply, state) == 12);

#[repr(C)]
#[derive(Clone, Copy, PartialEq, Eq, Debug)]
pub struct Reply {
    pub code: i32,
    pub running: u32,
    pub value: u32,
    pub state: State,
}

impl Wait {
    pub const NONE: Wait = Wait { kind: 0, object: 0, mode: 0, spare: 0, remaining: 0, pattern: 0 };
}

impl Task {
    pub const NONE: Task = Task {
        base: 0,
        priority: 0,
        active: 0,
        suspended: 0,
        wakeups: 0,
        activations: 0,
        code: 0,
        spare: 0,
        wait: Wait::NONE,
        handed: 0,
        charge: 0,
        entered: 0,
    };
}

impl Queue {
    pub const EMPTY: Queue = Queue { places: [0; PLACES] };
}

impl State {
    pub const FRESH: State = State {
        tasks: [Task::NONE; TASK_PLACES],
        levels: [Queue::EMPTY; LEVEL_PLACES],
        waits: [Queue::EMPTY; WAIT_ROWS],
        numbers: Numbers {
            slices: [0; LEVEL_PLACES],
            counts: [0; SEMAPHORE_PLACES],
            maxima: [0; SEMAPHORE_PLACES],
            attributes: [0; FLAG_PLACES],
            bits: [0; FLAG_PLACES],
            time: 0,
            capacities: [0; QUEUE_PLACES],
            taken: [0; QUEUE_PLACES],
            elements: [[0; ELEMENTS]; QUEUE_PLACES],
        },
    };

    pub fn level(&self, level: usize) -> &[u8] {
        &self.levels[level].places
    }

    /// Those who wait on a semaphore; row 0 is nobody's.
    pub fn waiters(&self, semaphore: usize) -> &[u8] {
        &self.waits[semaphore].places
    }

    /// Those who wait on a flag, from 1.
    pub fn flag_waiters(&self, flag: usize) -> &[u8] {
        self.waiters(flag + SEMAPHORES as usize)
    }

    /// Those who wait on a data queue, from 1: to send or to receive.
    pub fn queue_waiters(&self, queue: usize) -> &[u8] {
        self.flag_waiters(queue + FLAGS as usize)
    }
}
