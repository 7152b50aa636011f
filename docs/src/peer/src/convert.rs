//! From the peer's own state to the library's layout and back.
//! `call` is the library's by-value call in the peer's terms: the soundness test first, then the call on the peer's state.

use crate::kernel::{self, Asked, Kernel, FLAGS, SEMAPHORES, UNSOUND};
use crate::layout::{Queue, Reply, State, Task, Wait};
use crate::queue;
use crate::services::Call;
use crate::sound::is_sound;

const NOTHING_ASKED: Asked = Asked { pattern: 0, all: false };

/// The peer's state as the library writes it.
pub fn store(kernel: &Kernel) -> State {
    let mut state = State::FRESH;
    for (to, from) in state.tasks.iter_mut().zip(&kernel.tasks) {
        *to = Task {
            base: from.base,
            priority: from.priority,
            active: from.active.into(),
            suspended: from.suspended.into(),
            wakeups: from.wakeups,
            activations: from.activations,
            code: from.wait_code.unsigned_abs(),
            spare: 0,
            wait: stored_wait(from),
            handed: from.handed,
            charge: from.charge.into(),
            entered: from.entered,
        };
    }
    let numbers = &mut state.numbers;
    for (p, level) in kernel.levels.iter().enumerate() {
        state.levels[p] = stored_queue(&level.queue);
        numbers.slices[p] = level.slice.into();
    }
    for (s, semaphore) in kernel.semaphores.iter().enumerate() {
        state.waits[s] = stored_queue(&semaphore.queue);
        numbers.counts[s] = semaphore.count.into();
        numbers.maxima[s] = semaphore.maximum.into();
    }
    for (f, flag) in kernel.flags.iter().enumerate().skip(1) {
        state.waits[f + SEMAPHORES as usize] = stored_queue(&flag.queue);
        if flag.created {
            numbers.attributes[f] = 1 + u32::from(flag.single) + 2 * u32::from(flag.clr);
        }
        numbers.bits[f] = flag.bits;
    }
    for (q, queue) in kernel.queues.iter().enumerate().skip(1) {
        // nobody waits on one side while others wait on the other
        let waiting = if queue.senders.is_empty() { &queue.receivers } else { &queue.senders };
        state.waits[q + (SEMAPHORES + FLAGS) as usize] = stored_queue(waiting);
        numbers.capacities[q] = if queue.created { queue.capacity as u32 + 1 } else { 0 };
        numbers.taken[q] = queue.stored.len() as u32;
        for (place, &element) in numbers.elements[q].iter_mut().zip(&queue.stored) {
            *place = element;
        }
    }
    numbers.time = kernel.time;
    state
}

fn stored_wait(task: &kernel::Task) -> Wait {
    let (kind, object, asked) = match task.wait {
        kernel::Wait::Nothing => (0, 0, NOTHING_ASKED),
        kernel::Wait::Sleep => (1, 0, NOTHING_ASKED),
        kernel::Wait::Semaphore(s) => (2, s, NOTHING_ASKED),
        kernel::Wait::Flag(f, asked) => (3, f, asked),
        kernel::Wait::Send(q, element) => (4, q, Asked { pattern: element, all: false }),
        kernel::Wait::Receive(q) => (5, q, NOTHING_ASKED),
    };
    Wait { kind, object, mode: asked.all.into(), spare: 0, remaining: task.remaining, pattern: asked.pattern }
}

fn stored_queue(queue: &queue::Queue) -> Queue {
    let mut stored = Queue::EMPTY;
    let tasks = queue.as_slice();
    stored.places[..tasks.len()].copy_from_slice(tasks);
    stored
}

/// The peer's state from the library's; none if it is unsound.
pub fn load(state: &State) -> Option<Kernel> {
    if !is_sound(state) {
        return None;
    }
    let mut kernel = Kernel::fresh();
    for (to, from) in kernel.tasks.iter_mut().zip(&state.tasks) {
        *to = kernel::Task {
            base: from.base,
            priority: from.priority,
            active: from.active == 1,
            suspended: from.suspended == 1,
            wait: loaded_wait(&from.wait),
            wakeups: from.wakeups,
            activations: from.activations,
            wait_code: -(from.code as i8),
            remaining: from.wait.remaining,
            handed: from.handed,
            charge: short(from.charge),
            entered: from.entered,
        };
    }
    let numbers = &state.numbers;
    for (p, to) in kernel.levels.iter_mut().enumerate() {
        *to = kernel::Level { queue: loaded_queue(state.levels[p].places), slice: short(numbers.slices[p]) };
    }
    for (s, to) in kernel.semaphores.iter_mut().enumerate() {
        let (count, maximum) = (short(numbers.counts[s]), short(numbers.maxima[s]));
        *to = kernel::Semaphore { queue: loaded_queue(state.waits[s].places), count, maximum };
    }
    for (f, to) in kernel.flags.iter_mut().enumerate().skip(1) {
        let created = numbers.attributes[f] != 0;
        let attributes = numbers.attributes[f].saturating_sub(1);
        let (single, clr) = (attributes & 1 != 0, attributes & 2 != 0);
        *to = kernel::Flag {
            queue: loaded_queue(state.flag_waiters(f).iter().copied()),
            created,
            single,
            clr,
            bits: numbers.bits[f],
        };
    }
    for (q, to) in kernel.queues.iter_mut().enumerate().skip(1) {
        let side = |kind: u8| {
            let waiting = state.queue_waiters(q).iter().copied();
            loaded_queue(waiting.filter(|&t| state.tasks[usize::from(t)].wait.kind == kind))
        };
        *to = kernel::DataQueue {
            created: numbers.capacities[q] != 0,
            capacity: numbers.capacities[q].saturating_sub(1) as usize,
            stored: numbers.elements[q].iter().copied().take(numbers.taken[q] as usize).collect(),
            senders: side(4),
            receivers: side(5),
        };
    }
    kernel.time = numbers.time;
    kernel.index();
    Some(kernel)
}

fn loaded_wait(wait: &Wait) -> kernel::Wait {
    match wait.kind {
        0 => kernel::Wait::Nothing,
        1 => kernel::Wait::Sleep,
        2 => kernel::Wait::Semaphore(wait.object),
        3 => kernel::Wait::Flag(wait.object, Asked { pattern: wait.pattern, all: wait.mode == 1 }),
        4 => kernel::Wait::Send(wait.object, wait.pattern),
        _ => kernel::Wait::Receive(wait.object),
    }
}

fn loaded_queue(row: impl IntoIterator<Item = u8>) -> queue::Queue {
    let mut queue = queue::Queue::EMPTY;
    for task in row.into_iter().take_while(|&task| task != 0) {
        queue.join(task.into());
    }
    queue
}

/// A charge, or a number of a level or a semaphore, which the peer keeps in 16 bits.
fn short(number: u32) -> u16 {
    u16::try_from(number).expect("a sound state has no larger one")
}

/// One call on a state by value: an unsound one comes back as it came, with code -12 and no task running.
pub fn call(state: &State, call: Call) -> Reply {
    match load(state) {
        None => Reply { code: UNSOUND, running: 0, value: 0, state: *state },
        Some(mut kernel) => {
            let answer = kernel.call(&call);
            Reply { code: answer.code, running: answer.running, value: answer.value, state: store(&kernel) }
        }
    }
}
