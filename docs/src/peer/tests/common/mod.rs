//! A kernel on the bench: each call is made in its own context and looked at from all sides.
//! After every call the state must be sound, survive the library's layout, be unchanged if the call was refused, and mark just the entries
//! that the levels' lists show.
#![allow(dead_code)]

use peer::kernel::{Answer, Kernel, Level};
use peer::layout::{load, store};
use peer::services::*;
use peer::sound::is_sound;

pub struct Bench {
    pub kernel: Kernel,
    /// What the last call got at once: bits, an element, or ticks.
    pub value: u32,
}

impl Bench {
    pub fn fresh() -> Bench {
        Bench::at(0)
    }

    /// Fresh, but at this time.
    pub fn at(time: u32) -> Bench {
        let mut kernel = Kernel::fresh();
        kernel.time = time;
        Bench { kernel, value: 0 }
    }

    /// With data queue 1 of this capacity, and tasks at level 5.
    pub fn with_queue(capacity: u32, tasks: &[u32]) -> Bench {
        let mut bench = Bench::fresh();
        assert_eq!(bench.call(QUEUE_CREATE, 1, capacity, 0), (0, 0));
        for &t in tasks {
            assert_eq!(bench.call(CREATE, t, 5, 1).0, 0);
        }
        bench
    }

    pub fn make(&mut self, call: Call) -> (i32, u32) {
        let before = self.kernel.clone();
        let Answer { code, running, value } = self.kernel.call(&call);
        let state = store(&self.kernel);
        assert!(is_sound(&state), "unsound after {call}: {:?}", self.kernel);
        assert_eq!(load(&state).as_ref(), Some(&self.kernel), "after {call}");
        if code < 0 {
            assert_eq!(self.kernel, before, "{call} was refused with {code} but changed the state");
        }
        assert_eq!(running as usize, self.kernel.running());
        for t in 1..self.kernel.tasks.len() {
            let entered = self.kernel.tasks[t].entered;
            assert_eq!(entered, entry(&before, &call, &self.kernel, t), "task {t} after {call}");
        }
        if code == 0 && call.service == READY_TICKS {
            assert_eq!(self.kernel, before, "{call} changed the state");
            assert_eq!(self.kernel.tasks[call.a as usize].entered.wrapping_add(value), self.kernel.time, "{call}");
        } else if code != 0 || !matches!(call.service, RECEIVE | RECEIVE_POLLING | IRECEIVE) {
            // an element may be 0, but a pattern is never met by no bits
            let gives = code == 0 && matches!(call.service, EVENT_WAIT | EVENT_POLLING | EVENT_IWAIT);
            assert_eq!(value != 0, gives, "{call} answered {code} with {value}");
        }
        self.value = value;
        (code, running)
    }

    /// In the service's own context.
    pub fn call(&mut self, service: u32, a: u32, b: u32, c: u32) -> (i32, u32) {
        self.make(Call::of(service, a, b, c))
    }

    pub fn wait(&mut self, flag: u32, pattern: u32, mode: u32, timeout: u32) -> (i32, u32) {
        self.make(Call::wait(flag, pattern, mode, timeout))
    }

    pub fn call1(&mut self, service: u32, a: u32) -> (i32, u32) {
        self.call(service, a, 0, 0)
    }

    /// In the other context.
    pub fn wrongly(&mut self, service: u32, a: u32, b: u32, c: u32) -> (i32, u32) {
        let context = 1 - SERVICES[service as usize].context;
        self.make(Call { context, service, a, b, c, d: 1 })
    }

    pub fn tick(&mut self) -> u32 {
        let (code, running) = self.call(TICK, 0, 0, 0);
        assert_eq!(code, 0);
        running
    }

    pub fn level(&self, level: usize) -> &[u8] {
        self.kernel.levels[level].queue.as_slice()
    }

    pub fn waiters(&self, semaphore: usize) -> &[u8] {
        self.kernel.semaphores[semaphore].queue.as_slice()
    }

    pub fn flag_waiters(&self, flag: usize) -> &[u8] {
        self.kernel.flags[flag].queue.as_slice()
    }

    /// What a poll of the data queue gives; it must be accepted.
    pub fn polled(&mut self, queue: u32) -> u32 {
        assert_eq!(self.call1(RECEIVE_POLLING, queue).0, 0);
        self.value
    }

    pub fn stored(&self, queue: usize) -> Vec<u32> {
        self.kernel.queues[queue].stored.iter().copied().collect()
    }

    pub fn senders(&self, queue: usize) -> &[u8] {
        self.kernel.queues[queue].senders.as_slice()
    }

    pub fn receivers(&self, queue: usize) -> &[u8] {
        self.kernel.queues[queue].receivers.as_slice()
    }

    pub fn bits(&self, flag: usize) -> u32 {
        self.kernel.flags[flag].bits
    }

    pub fn handed(&self, task: usize) -> u32 {
        self.kernel.tasks[task].handed
    }

    pub fn charge(&self, task: usize) -> u16 {
        self.kernel.tasks[task].charge
    }

    pub fn entered(&self, task: usize) -> u32 {
        self.kernel.tasks[task].entered
    }

    /// What `ready_ticks` of the task gives; it must be accepted.
    pub fn ready(&mut self, task: u32) -> u32 {
        assert_eq!(self.call1(READY_TICKS, task).0, 0, "ready_ticks of {task}");
        self.value
    }

    pub fn code(&self, task: usize) -> i32 {
        self.kernel.tasks[task].wait_code.into()
    }
}

/// The level that lists a task, and its place there.
fn place(kernel: &Kernel, t: usize) -> Option<(usize, usize)> {
    let listed = |level: &Level| level.queue.as_slice().iter().position(|&task| usize::from(task) == t);
    kernel.levels.iter().enumerate().find_map(|(p, level)| Some((p, listed(level)?)))
}

/// When a task last entered its level, by the lists of the levels before a call and after it: it stands in another level than before or
/// in one for the first time, it has used up an activation, or a tick has sent the first of its level back. A dormant task has none.
fn entry(before: &Kernel, call: &Call, after: &Kernel, t: usize) -> u32 {
    let (old, new) = (&before.tasks[t], &after.tasks[t]);
    let (from, to) = (place(before, t), place(after, t));
    let moved = to.is_some() && from.map(|at| at.0) != to.map(|at| at.0);
    let restarted = to.is_some() && old.activations > new.activations;
    let sent_back = call.service == TICK && from.is_some_and(|at| at.1 == 0) && to.is_some_and(|at| at.1 > 0);
    match (new.active, moved || restarted || sent_back) {
        (false, _) => 0,
        (true, true) => after.time,
        (true, false) => old.entered,
    }
}
