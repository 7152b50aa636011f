//! The test of 'A sound state' on the library's layout, sentence by sentence, with what requests P1, P3, P10 and P11 make of it.
//! It holds on any bytes: nothing is indexed by a number that was not tested before.

use crate::kernel::{
    Asked, FLAGS, LARGEST_CAPACITY, LARGEST_MAXIMUM, LARGEST_SLICE, LEVELS, QUEUES, SEMAPHORES, TASKS,
};
use crate::layout::{State, Task, Wait};

pub fn is_sound(s: &State) -> bool {
    nothing_at_place_zero(s)
        && (1..=TASKS as usize).all(|t| task_is_sound(s, &s.tasks[t]) && charge_is_sound(s, t))
        && (1..=LEVELS as usize).all(|p| level_is_sound(s, p))
        && (1..=SEMAPHORES as usize).all(|k| semaphore_is_sound(s, k))
        && (1..=FLAGS as usize).all(|f| flag_is_sound(s, f))
        && (1..=QUEUES as usize).all(|q| queue_is_sound(s, q))
}

/// Tasks, levels, semaphores, flags and data queues begin at 1; place 0 of every table is all zeros.
fn nothing_at_place_zero(s: &State) -> bool {
    s.tasks[0] == Task::NONE
        && s.level(0).iter().all(|&t| t == 0)
        && s.waiters(0).iter().all(|&t| t == 0)
        && s.numbers.slices[0] == 0
        && s.numbers.counts[0] == 0
        && s.numbers.maxima[0] == 0
        && s.numbers.attributes[0] == 0
        && s.numbers.bits[0] == 0
        && s.numbers.capacities[0] == 0
        && s.numbers.taken[0] == 0
        && s.numbers.elements[0].iter().all(|&e| e == 0)
}

fn task_is_sound(s: &State, task: &Task) -> bool {
    if task.base == 0 {
        return *task == Task::NONE; // objects not created are all zeros
    }
    numbers_in_range(task)
        && waits_for_something_there(s, &task.wait)
        && asks_what_it_may(&task.wait)
        && (task.wait.kind == 0 || (task.code == 0 && task.handed == 0))
        && (task.wait.kind != 1 || task.wakeups == 0) // a sleeper's wakeup count is 0
        && (task.active == 1 || is_at_rest(task))
}

/// Created ones have numbers in their ranges; the counts are 0 or 1; wait codes are 0, -4, -10 or -11; the unused bytes are 0.
fn numbers_in_range(task: &Task) -> bool {
    let level = 1..=LEVELS as u8;
    level.contains(&task.base)
        && level.contains(&task.priority)
        && task.active <= 1
        && task.suspended <= 1
        && task.wakeups <= 1
        && task.activations <= 1
        && matches!(task.code, 0 | 4 | 10 | 11)
        && task.spare == 0
        && task.wait.spare == 0
}

/// A task waits for nothing, a sleep, a created semaphore, a created flag or, to send or to receive, a created data queue.
fn waits_for_something_there(s: &State, wait: &Wait) -> bool {
    match wait.kind {
        0 | 1 => wait.object == 0,
        2 => (1..=SEMAPHORES as u8).contains(&wait.object) && s.numbers.maxima[wait.object as usize] != 0,
        3 => (1..=FLAGS as u8).contains(&wait.object) && s.numbers.attributes[wait.object as usize] != 0,
        4 | 5 => (1..=QUEUES as u8).contains(&wait.object) && s.numbers.capacities[wait.object as usize] != 0,
        _ => false,
    }
}

/// A wait has remaining ticks of 1 or more, else there are none; what a flag wait asks is in range, and 0 outside it. Who waits to send
/// has any element at all.
fn asks_what_it_may(wait: &Wait) -> bool {
    (wait.kind != 0) == (wait.remaining >= 1)
        && match wait.kind {
            3 => wait.pattern != 0 && wait.mode <= 1,
            4 => wait.mode == 0,
            _ => wait.pattern == 0 && wait.mode == 0,
        }
}

/// A dormant task has no wait, suspension, counts or code, nothing handed over, no time of entry, and its creation priority.
fn is_at_rest(task: &Task) -> bool {
    task.wait.kind == 0
        && task.suspended == 0
        && task.wakeups == 0
        && task.activations == 0
        && task.code == 0
        && task.handed == 0
        && task.entered == 0
        && task.priority == task.base
}

/// Only the first of a level has a charge, and it is below that level's slice; a sound record names its level.
fn charge_is_sound(s: &State, t: usize) -> bool {
    let Task { charge, priority, .. } = s.tasks[t];
    let level = usize::from(priority);
    charge == 0 || (usize::from(s.level(level)[0]) == t && charge < s.numbers.slices[level])
}

/// Its slice is in range, and it lists the runnable tasks of its priority.
fn level_is_sound(s: &State, p: usize) -> bool {
    s.numbers.slices[p] <= LARGEST_SLICE
        && lists_exactly(s.level(p), s, |task| {
            task.active == 1 && task.suspended == 0 && task.wait.kind == 0 && usize::from(task.priority) == p
        })
}

/// Maximum is in range; count is at most maximum, and 0 while anyone waits; the tasks waiting on it are listed.
/// One that is not created has maximum and count 0; that nobody may wait on it empties its queue.
fn semaphore_is_sound(s: &State, k: usize) -> bool {
    let waiters = s.waiters(k);
    s.numbers.maxima[k] <= LARGEST_MAXIMUM
        && s.numbers.counts[k] <= s.numbers.maxima[k]
        && (s.numbers.maxima[k] != 0 || waiters.iter().all(|&t| t == 0))
        && (waiters[0] == 0 || s.numbers.counts[k] == 0)
        && lists_exactly(waiters, s, |task| task.wait.kind == 2 && usize::from(task.wait.object) == k)
}

/// Its attributes are in range; one that is not created has no bits and nobody waits on it; on SINGLE one at most waits.
/// The tasks waiting on it are listed, and its bits meet none of them.
fn flag_is_sound(s: &State, f: usize) -> bool {
    let waiters = s.flag_waiters(f);
    let waits_here = |task: &Task| task.wait.kind == 3 && usize::from(task.wait.object) == f;
    let numbers = match s.numbers.attributes[f] {
        0 => s.numbers.bits[f] == 0 && waiters[0] == 0,
        1 => true,
        2 | 4 => waiters[1] == 0,
        _ => false,
    };
    numbers
        && lists_exactly(waiters, s, waits_here)
        && s.tasks.iter().filter(|task| waits_here(task)).all(|task| {
            let asked = Asked { pattern: task.wait.pattern, all: task.wait.mode == 1 };
            !asked.is_met_by(s.numbers.bits[f])
        })
}

/// What is stored is within the capacity, and the places past it hold 0; one that is not created has nothing, and nobody waits on it.
/// The tasks waiting on it are listed. No receiver waits beside a stored element or a waiting sender, no sender beside free room.
fn queue_is_sound(s: &State, q: usize) -> bool {
    let waiters = s.queue_waiters(q);
    let stored = s.numbers.taken[q];
    let waits_here = |task: &Task, kind: u8| task.wait.kind == kind && usize::from(task.wait.object) == q;
    let anyone_waits = |kind: u8| s.tasks.iter().any(|task| waits_here(task, kind));
    let (senders, receivers) = (anyone_waits(4), anyone_waits(5));
    let numbers = match s.numbers.capacities[q].checked_sub(1) {
        None => stored == 0 && waiters[0] == 0,
        Some(capacity) => {
            let room = stored < capacity;
            capacity <= LARGEST_CAPACITY && stored <= capacity && !(senders && room)
        }
    };
    numbers
        && s.numbers.elements[q].iter().skip(stored as usize).all(|&e| e == 0)
        && !(receivers && (stored > 0 || senders))
        && lists_exactly(waiters, s, |task| waits_here(task, 4) || waits_here(task, 5))
}

/// The row lists exactly the wanted tasks, once each, and its places past the end hold 0.
fn lists_exactly(row: &[u8], s: &State, wanted: impl Fn(&Task) -> bool) -> bool {
    let mut listed = [false; TASKS as usize + 1];
    let end = row.iter().position(|&t| t == 0).unwrap_or(row.len());
    if row[end..].iter().any(|&t| t != 0) {
        return false;
    }
    for &t in &row[..end] {
        match listed.get_mut(usize::from(t)) {
            Some(once) if !*once => *once = true,
            _ => return false, // no task, or listed twice
        }
    }
    (1..=TASKS as usize).all(|t| listed[t] == wanted(&s.tasks[t]))
}
