//! Every number in the library's State by one running index, to damage any of them and to name the first that differs.
//! No byte of it is without a number.

use crate::layout::{
    Queue, State, ELEMENTS, FLAG_PLACES, LEVEL_PLACES, QUEUE_PLACES, SEMAPHORE_PLACES, TASK_PLACES, WAIT_ROWS,
};
use crate::queue::PLACES;

#[rustfmt::skip]
pub const TASK_FIELDS: [&str; 17] = [
    "base", "priority", "active", "suspended", "wakeups", "activations", "code", "spare",
    "wait.kind", "wait.object", "wait.mode", "wait.spare", "wait.remaining", "wait.pattern", "handed", "charge", "entered",
];

const LEVELS_AT: usize = TASK_PLACES * TASK_FIELDS.len();
const WAITS_AT: usize = LEVELS_AT + LEVEL_PLACES * PLACES;
const SLICES_AT: usize = WAITS_AT + WAIT_ROWS * PLACES;
const COUNTS_AT: usize = SLICES_AT + LEVEL_PLACES;
const MAXIMA_AT: usize = COUNTS_AT + SEMAPHORE_PLACES;
const ATTRIBUTES_AT: usize = MAXIMA_AT + SEMAPHORE_PLACES;
const BITS_AT: usize = ATTRIBUTES_AT + FLAG_PLACES;
const TIME_AT: usize = BITS_AT + FLAG_PLACES;
const CAPACITIES_AT: usize = TIME_AT + 1;
const TAKEN_AT: usize = CAPACITIES_AT + QUEUE_PLACES;
const ELEMENTS_AT: usize = TAKEN_AT + QUEUE_PLACES;

/// Where the tables begin, which follow the tasks.
pub const TABLES: [usize; 10] = [
    LEVELS_AT,
    WAITS_AT,
    SLICES_AT,
    COUNTS_AT,
    MAXIMA_AT,
    ATTRIBUTES_AT,
    BITS_AT,
    CAPACITIES_AT,
    TAKEN_AT,
    ELEMENTS_AT,
];

/// How many numbers a State holds.
pub const SLOTS: usize = ELEMENTS_AT + QUEUE_PLACES * ELEMENTS;
/// The system time.
pub const TIME: usize = TIME_AT;
/// Those that are places of queues.
pub const ROWS: std::ops::Range<usize> = LEVELS_AT..SLICES_AT;

/// The charge of a task.
pub fn charge_of(task: usize) -> usize {
    task * TASK_FIELDS.len() + TASK_FIELDS.len() - 2
}

/// The time at which a task entered its level.
pub fn entered_of(task: usize) -> usize {
    task * TASK_FIELDS.len() + TASK_FIELDS.len() - 1
}

/// The capacity of a data queue, plus 1.
pub fn capacity_of(queue: usize) -> usize {
    CAPACITIES_AT + queue
}

/// How many elements a data queue has stored.
pub fn taken_of(queue: usize) -> usize {
    TAKEN_AT + queue
}

/// A place for an element of a data queue.
pub fn element_of(queue: usize, place: usize) -> usize {
    ELEMENTS_AT + queue * ELEMENTS + place
}

/// The kind of a task's wait.
pub fn kind_of(task: usize) -> usize {
    task * TASK_FIELDS.len() + 8
}

/// One number of a State, at its own width.
enum Place<'a> {
    Byte(&'a mut u8),
    Word(&'a mut u32),
}

fn place(state: &mut State, slot: usize) -> Place<'_> {
    let numbers = &mut state.numbers;
    match slot {
        0..LEVELS_AT => {
            let task = &mut state.tasks[slot / TASK_FIELDS.len()];
            match slot % TASK_FIELDS.len() {
                0 => Place::Byte(&mut task.base),
                1 => Place::Byte(&mut task.priority),
                2 => Place::Byte(&mut task.active),
                3 => Place::Byte(&mut task.suspended),
                4 => Place::Byte(&mut task.wakeups),
                5 => Place::Byte(&mut task.activations),
                6 => Place::Byte(&mut task.code),
                7 => Place::Byte(&mut task.spare),
                8 => Place::Byte(&mut task.wait.kind),
                9 => Place::Byte(&mut task.wait.object),
                10 => Place::Byte(&mut task.wait.mode),
                11 => Place::Byte(&mut task.wait.spare),
                12 => Place::Word(&mut task.wait.remaining),
                13 => Place::Word(&mut task.wait.pattern),
                14 => Place::Word(&mut task.handed),
                15 => Place::Word(&mut task.charge),
                _ => Place::Word(&mut task.entered),
            }
        }
        LEVELS_AT..WAITS_AT => queue_place(&mut state.levels, slot - LEVELS_AT),
        WAITS_AT..SLICES_AT => queue_place(&mut state.waits, slot - WAITS_AT),
        SLICES_AT..COUNTS_AT => Place::Word(&mut numbers.slices[slot - SLICES_AT]),
        COUNTS_AT..MAXIMA_AT => Place::Word(&mut numbers.counts[slot - COUNTS_AT]),
        MAXIMA_AT..ATTRIBUTES_AT => Place::Word(&mut numbers.maxima[slot - MAXIMA_AT]),
        ATTRIBUTES_AT..BITS_AT => Place::Word(&mut numbers.attributes[slot - ATTRIBUTES_AT]),
        BITS_AT..TIME_AT => Place::Word(&mut numbers.bits[slot - BITS_AT]),
        TIME_AT => Place::Word(&mut numbers.time),
        CAPACITIES_AT..TAKEN_AT => Place::Word(&mut numbers.capacities[slot - CAPACITIES_AT]),
        TAKEN_AT..ELEMENTS_AT => Place::Word(&mut numbers.taken[slot - TAKEN_AT]),
        _ => {
            let at = slot - ELEMENTS_AT;
            Place::Word(&mut numbers.elements[at / ELEMENTS][at % ELEMENTS])
        }
    }
}

fn queue_place(queues: &mut [Queue], at: usize) -> Place<'_> {
    Place::Byte(&mut queues[at / PLACES].places[at % PLACES])
}

pub fn get(state: &State, slot: usize) -> u32 {
    let mut copy = *state;
    match place(&mut copy, slot) {
        Place::Byte(n) => u32::from(*n),
        Place::Word(n) => *n,
    }
}

/// Writes the number, cut to the width of its place.
pub fn set(state: &mut State, slot: usize, value: u32) {
    match place(state, slot) {
        Place::Byte(n) => *n = value as u8,
        Place::Word(n) => *n = value,
    }
}

/// How many bits the number has.
pub fn width(slot: usize) -> u32 {
    match place(&mut { State::FRESH }, slot) {
        Place::Byte(_) => u8::BITS,
        Place::Word(_) => u32::BITS,
    }
}

pub fn name(slot: usize) -> String {
    match slot {
        0..LEVELS_AT => format!("tasks[{}].{}", slot / TASK_FIELDS.len(), TASK_FIELDS[slot % TASK_FIELDS.len()]),
        LEVELS_AT..WAITS_AT => row("level", slot - LEVELS_AT),
        WAITS_AT..SLICES_AT => row("row of waiters", slot - WAITS_AT),
        SLICES_AT..COUNTS_AT => format!("slices[{}]", slot - SLICES_AT),
        COUNTS_AT..MAXIMA_AT => format!("counts[{}]", slot - COUNTS_AT),
        MAXIMA_AT..ATTRIBUTES_AT => format!("maxima[{}]", slot - MAXIMA_AT),
        ATTRIBUTES_AT..BITS_AT => format!("attributes[{}]", slot - ATTRIBUTES_AT),
        BITS_AT..TIME_AT => format!("bits[{}]", slot - BITS_AT),
        TIME_AT => "time".to_string(),
        CAPACITIES_AT..TAKEN_AT => format!("capacities[{}]", slot - CAPACITIES_AT),
        TAKEN_AT..ELEMENTS_AT => format!("taken[{}]", slot - TAKEN_AT),
        _ => format!("elements[{}][{}]", (slot - ELEMENTS_AT) / ELEMENTS, (slot - ELEMENTS_AT) % ELEMENTS),
    }
}

fn row(what: &str, at: usize) -> String {
    format!("{what} {}, place {}", at / PLACES, at % PLACES)
}

/// The numbers in which two states differ, as text; empty if they are equal.
pub fn differences(ours: &State, theirs: &State) -> Vec<String> {
    (0..SLOTS)
        .filter(|&slot| get(ours, slot) != get(theirs, slot))
        .map(|slot| format!("{}: peer {}, library {}", name(slot), get(ours, slot), get(theirs, slot)))
        .collect()
}
