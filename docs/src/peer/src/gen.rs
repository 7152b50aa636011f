//! Repeatable random calls, rich in waits, suspended waiters, timeouts, restarts, slices and numbers at the limits.
//! A run draws most of its numbers from a small world of its own, so that its tasks, semaphores, flags and data queues meet often.

use crate::gen_numbers::some;
pub use crate::rng::Rng;
use crate::services::*;

/// Numbers at and past every limit.
#[rustfmt::skip]
pub const LIMITS: [u32; 30] = [
    0, 1, 2, 3, 4, 7, 8, 9, 11, 12, 13, 16, 17, 18, 23, 24, 25, 29, 30, 31, 255, 256, 257, 999, 1000, 1001, 65_535, 65_536, u32::MAX - 1, u32::MAX,
];

/// How often each service is asked for, beside each other.
const WEIGHTS: [(u32, usize); LAST as usize] = [
    (CREATE, 6),
    (DELETE, 3),
    (ACTIVATE, 7),
    (IACTIVATE, 8),
    (EXIT, 3),
    (TERMINATE, 5),
    (SUSPEND, 7),
    (RESUME, 7),
    (SLEEP, 8),
    (WAKEUP, 4),
    (IWAKEUP, 5),
    (RELEASE_WAIT, 2),
    (IRELEASE_WAIT, 3),
    (CHANGE_PRIORITY, 7),
    (TSLICE, 2),
    (TICK, 20),
    (SEM_CREATE, 4),
    (SEM_DELETE, 2),
    (SIGNAL, 4),
    (ISIGNAL, 5),
    (ACQUIRE, 16),
    (POLLING, 2),
    (IPOLLING, 2),
    (EVENT_CREATE, 3),
    (EVENT_DELETE, 2),
    (SET, 6),
    (ISET, 7),
    (CLEAR, 6),
    (ICLEAR, 6),
    (EVENT_WAIT, 18),
    (EVENT_POLLING, 4),
    (EVENT_IWAIT, 4),
    (READY_TICKS, 6),
    (QUEUE_CREATE, 5),
    (QUEUE_DELETE, 2),
    (SEND, 10),
    (SEND_POLLING, 6),
    (ISEND_POLLING, 8),
    (RECEIVE, 10),
    (RECEIVE_POLLING, 6),
    (IRECEIVE, 8),
];

/// The small world of one run: which tasks, levels, semaphores, flags and data queues it mostly names, and how it behaves.
pub struct World {
    pub rng: Rng,
    pub(crate) tasks: Vec<u32>,
    pub(crate) levels: Vec<u32>,
    pub(crate) semaphores: Vec<u32>,
    pub(crate) flags: Vec<u32>,
    pub(crate) queues: Vec<u32>,
    narrow: bool, // no call takes four numbers
    listed: bool, // a list can hold its calls
    pub(crate) longest_slice: u32,
    pub(crate) largest: u32,   // the largest capacity of its data queues, but for a few
    wild: usize,               // percent of calls with any numbers at all
    ticks: usize,              // percent of calls that are ticks beyond their weight
    pub(crate) patient: usize, // percent of timeouts that are long
    crowd: usize,              // percent of the first tasks that wait at once
    pub(crate) eager: usize,   // percent of new tasks that are made runnable
    generous: usize,           // percent of sends, among sends and receives
}

impl World {
    pub fn new(seed: u64) -> World {
        let mut rng = Rng::new(seed);
        let crowd = rng.pick(&[0, 0, 0, 50, 100]);
        let most_tasks = if crowd > 0 { 40 } else { rng.pick(&[4, 8, 8, 80]) };
        let tasks = some(&mut rng, 24, most_tasks);
        let most_levels = rng.pick(&[1, 4, 4]);
        World {
            levels: some(&mut rng, 30, most_levels),
            semaphores: some(&mut rng, 12, 3),
            flags: some(&mut rng, 8, 2),
            queues: some(&mut rng, 8, 2),
            narrow: rng.percent(25),
            listed: false,
            longest_slice: rng.pick(&[1, 2, 3, 5, 1000]),
            largest: rng.pick(&[0, 1, 2, 4, 16]),
            wild: rng.pick(&[1, 3, 3, 10, 40]),
            ticks: rng.pick(&[0, 5, 20, 50]),
            patient: rng.pick(&[10, 10, 40, 80]),
            eager: rng.pick(&[50, 80, 100]),
            generous: rng.pick(&[20, 50, 50, 80, 95]),
            crowd,
            tasks,
            rng,
        }
    }

    /// A world whose calls a list can hold.
    pub fn of_lists(seed: u64) -> World {
        World { listed: true, ..World::new(seed) }
    }

    /// The calls of a whole run: most of its objects are made first, then anything may happen.
    pub fn run(&mut self, length: usize) -> Vec<Call> {
        let mut calls = Vec::with_capacity(length);
        for s in self.semaphores.clone() {
            if self.rng.percent(90) {
                calls.push(self.sem_create(s));
            }
        }
        for f in self.flags.clone() {
            if self.rng.percent(90) {
                calls.push(self.event_create(f));
            }
        }
        for q in self.queues.clone() {
            if self.rng.percent(90) {
                calls.push(self.queue_create(q));
            }
        }
        for p in self.levels.clone() {
            if self.rng.percent(60) {
                calls.push(Call::of(TSLICE, p, self.rng.from(0, self.longest_slice), 0));
            }
        }
        let crowded = self.rng.pick(&[ACQUIRE, EVENT_WAIT, SEND, RECEIVE]);
        for t in self.tasks.clone() {
            if self.rng.percent(97) {
                calls.push(self.task_create(t));
            }
            if self.rng.percent(self.crowd) {
                calls.push(match crowded {
                    EVENT_WAIT if !self.narrow => Call::wait(self.flags[0], self.rng.from(4, 7), 1, u32::MAX),
                    SEND => Call::of(SEND, self.queues[0], t, u32::MAX),
                    RECEIVE => Call::of(RECEIVE, self.queues[0], u32::MAX, 0),
                    _ => Call::of(ACQUIRE, self.semaphores[0], u32::MAX, 0),
                });
            }
        }
        calls.truncate(length);
        while calls.len() < length {
            calls.push(self.call());
        }
        calls
    }

    pub fn call(&mut self) -> Call {
        if self.rng.percent(self.wild) {
            return self.wild_call();
        }
        if self.rng.percent(self.ticks) {
            return Call::of(TICK, 0, 0, 0);
        }
        let service = self.service();
        let mut call = self.fitting_call(service);
        if self.rng.percent(4) {
            call.context = 1 - call.context;
        }
        if self.rng.percent(2) {
            let limit = self.rng.pick(&LIMITS);
            match self.rng.below(4) {
                0 => call.a = limit,
                1 => call.b = limit,
                2 => call.c = limit,
                _ => call.d = limit,
            }
        }
        call
    }

    fn service(&mut self) -> u32 {
        let weights: Vec<(u32, usize)> = WEIGHTS.into_iter().filter(|&(service, _)| self.has(service)).collect();
        let mut at = self.rng.below(weights.iter().map(|&(_, weight)| weight).sum());
        for (service, weight) in weights {
            if at < weight {
                return self.leaning(self.within_width(service));
            }
            at -= weight;
        }
        TICK
    }

    /// May its calls be of this service?
    fn has(&self, service: u32) -> bool {
        !(self.listed && service == READY_TICKS)
    }

    fn within_width(&self, service: u32) -> u32 {
        if self.narrow && service == EVENT_WAIT {
            EVENT_POLLING
        } else {
            service
        }
    }

    /// Sends and receives in the world's own proportion, so that its data queues fill up or are empty most of the time.
    fn leaning(&mut self, service: u32) -> u32 {
        let sends = (SEND..=IRECEIVE).contains(&service).then(|| self.rng.percent(self.generous));
        match (service, sends) {
            (SEND..=ISEND_POLLING, Some(false)) => service + (RECEIVE - SEND),
            (RECEIVE..=IRECEIVE, Some(true)) => service - (RECEIVE - SEND),
            _ => service,
        }
    }

    fn fitting_call(&mut self, service: u32) -> Call {
        match service {
            CREATE => {
                let t = self.task();
                self.task_create(t)
            }
            SEM_CREATE => {
                let s = self.semaphore();
                self.sem_create(s)
            }
            SLEEP => Call::of(SLEEP, self.timeout(), 0, 0),
            CHANGE_PRIORITY => {
                let p = if self.rng.percent(25) { 0 } else { self.level() };
                Call::of(CHANGE_PRIORITY, self.task(), p, 0)
            }
            TSLICE => Call::of(TSLICE, self.level(), self.rng.from(0, self.longest_slice), 0),
            EXIT | TICK => Call::of(service, 0, 0, 0),
            ACQUIRE => Call::of(ACQUIRE, self.semaphore(), self.timeout(), 0),
            EVENT_CREATE => {
                let f = self.flag();
                self.event_create(f)
            }
            EVENT_DELETE => Call::of(EVENT_DELETE, self.flag(), 0, 0),
            SET | ISET | CLEAR | ICLEAR => Call::of(service, self.flag(), self.pattern(), 0),
            EVENT_WAIT => Call::wait(self.flag(), self.pattern(), self.mode(), self.timeout()),
            EVENT_POLLING | EVENT_IWAIT => Call::of(service, self.flag(), self.pattern(), self.mode()),
            SEM_DELETE | SIGNAL | ISIGNAL | POLLING | IPOLLING => Call::of(service, self.semaphore(), 0, 0),
            QUEUE_CREATE => {
                let q = self.queue();
                self.queue_create(q)
            }
            SEND => Call::of(SEND, self.queue(), self.element(), self.timeout()),
            SEND_POLLING | ISEND_POLLING => Call::of(service, self.queue(), self.element(), 0),
            RECEIVE => Call::of(RECEIVE, self.queue(), self.timeout(), 0),
            QUEUE_DELETE | RECEIVE_POLLING | IRECEIVE => Call::of(service, self.queue(), 0, 0),
            _ => Call::of(service, self.task(), 0, 0),
        }
    }

    /// Any service in any context with any numbers near a limit.
    fn wild_call(&mut self) -> Call {
        let services: Vec<u32> = (CREATE..=LAST).filter(|&service| self.has(service)).collect();
        let service = self.rng.pick(&services);
        Call {
            context: self.rng.from(T, I),
            service: self.within_width(service),
            a: self.wild_number(),
            b: self.wild_number(),
            c: self.wild_number(),
            d: self.wild_number(),
        }
    }
}
