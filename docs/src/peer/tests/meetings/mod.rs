//! The rare meetings that the rules are about: what one accepted call shows of them, by the states before and after it.
//! tests/generator.rs counts how often the random calls come to each.

mod queues;
use peer::kernel::{Kernel, Level, Wait};
use peer::services::*;

/// The rare meetings that one accepted call shows.
pub fn meetings(before: &Kernel, call: &Call, after: &Kernel) -> Vec<&'static str> {
    let mut seen = Vec::new();
    let mut expired = 0;
    for (old, new) in before.tasks.iter().zip(&after.tasks) {
        let ended = old.is_waiting() && !new.is_waiting();
        match call.service {
            TICK if ended => {
                expired += 1;
                seen.push(match old.wait {
                    Wait::Sleep => "a sleep runs out",
                    Wait::Semaphore(_) => "a semaphore wait times out",
                    Wait::Send(..) => "a sender times out",
                    Wait::Receive(_) => "a receiver times out",
                    _ => "a flag wait times out",
                });
                if old.suspended {
                    seen.push("a suspended waiter times out");
                }
            }
            SIGNAL | ISIGNAL if ended => {
                seen.push(if old.suspended { "a suspended waiter is served" } else { "a waiter is served" })
            }
            WAKEUP | IWAKEUP if ended && old.suspended => seen.push("a suspended sleeper is woken"),
            RELEASE_WAIT | IRELEASE_WAIT if ended && old.wakeups == 1 => seen.push("a release beside a wakeup count"),
            SEM_DELETE if ended && old.suspended => seen.push("a deletion ends a suspended wait"),
            _ => {}
        }
    }
    if expired >= 2 {
        seen.push("two waits run out in one tick");
    }
    if after.levels.iter().any(|level| level.queue.as_slice().len() >= 20) {
        seen.push("a level of 20 tasks");
    }
    if after.semaphores.iter().any(|semaphore| semaphore.queue.as_slice().len() >= 12) {
        seen.push("a semaphore with 12 waiters");
    }
    if after.levels.iter().any(|level| level.queue.as_slice().len() == 24) {
        seen.push("a full level");
    }
    if after.semaphores.iter().any(|semaphore| semaphore.queue.as_slice().len() == 24) {
        seen.push("a full wait queue");
    }
    seen.extend(flag_meetings(before, call, after));
    seen.extend(queues::meetings(before, call, after));
    let subject = before.tasks.get(call.a as usize).copied().unwrap_or(before.tasks[0]);
    let caller = before.tasks[before.running()];
    match call.service {
        EXIT if caller.activations == 1 => seen.push("an exit restarts"),
        EXIT if caller.priority != caller.base => seen.push("an exit restores the priority"),
        TERMINATE if subject.activations == 1 && subject.is_waiting() && subject.suspended => {
            seen.push("a waiting and suspended task is restarted")
        }
        TERMINATE if subject.activations == 1 => seen.push("a termination restarts"),
        TERMINATE if subject.is_waiting() => seen.push("a waiter is terminated"),
        CHANGE_PRIORITY if subject.is_waiting() => seen.push("a waiter's priority changes"),
        CHANGE_PRIORITY if before.running() != after.running() => seen.push("a priority change takes the processor"),
        RESUME if subject.is_waiting() => seen.push("a resumed waiter waits on"),
        SEM_DELETE if before.semaphores[call.a as usize].queue.as_slice().len() >= 3 => {
            seen.push("a deletion with 3 waiters")
        }
        SUSPEND if call.a as usize == before.running() => seen.push("a task suspends itself"),
        SLEEP | ACQUIRE | RECEIVE if caller.handed != 0 => seen.push("another wait after something was handed over"),
        SLEEP | ACQUIRE | SEND | RECEIVE if caller.wait_code != 0 => seen.push("a wait after a wait code"),
        TICK if is_at_the_end_of_its_slice(before) && !is_alone(before) => {
            seen.push(if expired > 0 { "a level turns as a wait runs out" } else { "a level turns" })
        }
        _ => {}
    }
    seen.extend(charge_meetings(before, call, after));
    seen.extend(entry_meetings(before, call, after));
    seen
}

/// The level of the running task; without one level 0, which is empty and has no slice.
fn running_level(kernel: &Kernel) -> &Level {
    &kernel.levels[kernel.tasks[kernel.running()].priority as usize]
}

fn is_alone(kernel: &Kernel) -> bool {
    running_level(kernel).queue.as_slice().len() == 1
}

fn is_at_the_end_of_its_slice(kernel: &Kernel) -> bool {
    kernel.tasks[kernel.running()].charge + 1 == running_level(kernel).slice
}

/// Those of charges: what a call does to a task that has one.
fn charge_meetings(before: &Kernel, call: &Call, after: &Kernel) -> Vec<&'static str> {
    let mut seen = Vec::new();
    for (t, (old, new)) in before.tasks.iter().zip(&after.tasks).enumerate().filter(|(_, (old, _))| old.charge > 0) {
        let runs = t == before.running();
        let named = call.a as usize == t;
        match call.service {
            TICK if runs && new.charge > old.charge => seen.push("a charge rises above 1"),
            TICK if runs && is_alone(before) => seen.push("a charge of a task that is alone goes back"),
            EXIT if runs && new.is_runnable() => seen.push("an exit restarts in the middle of a slice"),
            SLEEP | ACQUIRE | EVENT_WAIT | SEND | RECEIVE if runs && !new.is_runnable() => {
                seen.push("a wait begins in the middle of a slice")
            }
            SLEEP | ACQUIRE | EVENT_WAIT | SEND | RECEIVE if runs => {
                seen.push("a wait is met at once in the middle of a slice")
            }
            SUSPEND if named && runs => seen.push("a task suspends itself in the middle of its slice"),
            SUSPEND | TERMINATE if named => seen.push("a preempted task is stopped in the middle of its slice"),
            CHANGE_PRIORITY if named && new.priority == old.priority => seen.push("an equal priority and a charge"),
            CHANGE_PRIORITY if named => seen.push("another priority in the middle of a slice"),
            TSLICE if call.a == u32::from(old.priority) => seen.push("a slice is set in the middle of one"),
            _ if runs && new.charge == old.charge && after.running() != t => seen.push("a preempted task has a charge"),
            _ => {}
        }
    }
    seen
}

/// Those of event flags.
fn flag_meetings(before: &Kernel, call: &Call, after: &Kernel) -> Vec<&'static str> {
    let mut seen = Vec::new();
    if !(EVENT_DELETE..=EVENT_IWAIT).contains(&call.service) {
        return seen;
    }
    let (old, new) = (before.flags[call.a as usize], after.flags[call.a as usize]);
    let waited = old.queue.as_slice();
    let ended: Vec<usize> = (0..waited.len()).filter(|&place| !new.queue.as_slice().contains(&waited[place])).collect();
    match call.service {
        EVENT_DELETE if waited.len() >= 3 => seen.push("a flag's deletion with 3 waiters"),
        SET | ISET if ended.is_empty() && new.clr => seen.push("a set meets nobody, and CLR leaves its bits"),
        SET | ISET if ended.is_empty() && !waited.is_empty() => seen.push("a set meets no waiter"),
        SET | ISET => {
            if ended.len() >= 2 {
                seen.push("a set serves two waiters");
            }
            if ended.first().is_some_and(|&place| place > 0) {
                seen.push("a set passes the first waiter by");
            }
            if !ended.is_empty() && new.clr {
                seen.push("a set serves a waiter, and CLR zeroes the bits");
            }
            if ended.iter().any(|&place| before.tasks[waited[place] as usize].suspended) {
                seen.push("a suspended flag waiter is served");
            }
        }
        EVENT_WAIT if new.queue == old.queue && new.clr => seen.push("a wait is met at once, and CLR zeroes the bits"),
        EVENT_WAIT if new.queue == old.queue => seen.push("a wait is met at once"),
        EVENT_WAIT if before.tasks[before.running()].handed != 0 => seen.push("a wait after bits handed over"),
        EVENT_POLLING | EVENT_IWAIT if new.clr => seen.push("a poll is met, and CLR zeroes the bits"),
        EVENT_POLLING | EVENT_IWAIT if !old.queue.is_empty() => seen.push("a poll is met beside a waiter"),
        CLEAR | ICLEAR if !old.queue.is_empty() && new.bits != old.bits => seen.push("a clear beside a waiter"),
        _ => {}
    }
    if new.queue.as_slice().len() >= 12 {
        seen.push("a flag with 12 waiters");
    }
    seen
}

/// Those of the times of entry: what is asked of them, and who is marked or not long after its last entry.
fn entry_meetings(before: &Kernel, call: &Call, after: &Kernel) -> Vec<&'static str> {
    let mut seen = Vec::new();
    let runs = before.running();
    if call.service == READY_TICKS {
        let task = before.tasks[call.a as usize];
        seen.push(match task {
            _ if call.a as usize == runs => "the ticks of the running task",
            _ if task.is_runnable() => "the ticks of a task that is ready",
            _ if task.suspended && task.is_waiting() => "the ticks of a suspended waiter",
            _ if task.suspended => "the ticks of a suspended task",
            _ => "the ticks of a waiting task",
        });
        if runs == 0 {
            seen.push("the ticks are asked for when nobody runs");
        }
        seen.push(match before.time {
            now if now == task.entered => "the ticks are 0",
            now if now < task.entered => "the ticks are counted over the wrap",
            _ => "the ticks are above 0",
        });
    }
    for (t, (old, new)) in before.tasks.iter().zip(&after.tasks).enumerate().filter(|(_, (old, _))| old.active) {
        let marked = new.active && new.entered != old.entered;
        let late = old.entered != after.time;
        match call.service {
            TICK if marked && t == runs => seen.push("who is sent back is marked"),
            TICK if marked && after.time == 0 => seen.push("a wait that ends as the time wraps is marked"),
            TICK if marked => seen.push("a wait that ends in a tick is marked"),
            TICK if t == runs && old.charge > new.charge && is_alone(before) => seen.push("a turn alone marks nobody"),
            TICK if old.suspended && old.is_waiting() && !new.is_waiting() => {
                seen.push("a suspended waiter that times out is not marked")
            }
            EXIT if marked && t == runs && is_alone(before) => seen.push("an exit alone in its level is marked"),
            EXIT | TERMINATE if marked => seen.push("a task that is started again is marked"),
            EXIT | TERMINATE if old.active && !new.active && old.entered != 0 => {
                seen.push("a task that ends loses its mark")
            }
            RESUME if marked => seen.push("a resumed task is marked"),
            RESUME if old.suspended && !new.suspended && late => seen.push("a resumed waiter is not marked"),
            CHANGE_PRIORITY if marked => seen.push("another priority is marked"),
            CHANGE_PRIORITY if call.a as usize == t && late && old.priority != new.priority => {
                seen.push("another priority of who is not ready is not marked")
            }
            CHANGE_PRIORITY if call.a as usize == t && late => seen.push("an equal priority is not marked"),
            SUSPEND | SLEEP | ACQUIRE | EVENT_WAIT | SEND | RECEIVE
                if late && old.is_runnable() && !new.is_runnable() =>
            {
                seen.push("who leaves its level keeps its mark")
            }
            _ if marked => seen.push("another call's entry is marked"),
            _ => {}
        }
    }
    seen
}
