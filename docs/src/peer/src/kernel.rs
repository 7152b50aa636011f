//! The kernel's state, changed in place, and the few moves that every service is made of.
//! A service first makes all its tests and only then moves anything, so a refused call changes nothing.

pub use crate::objects::*;
use crate::queue::Queue;
use crate::services::*;

pub const TASKS: u32 = 24;
pub const LEVELS: u32 = 30;
pub const SEMAPHORES: u32 = 12;
pub const FLAGS: u32 = 8;
pub const QUEUES: u32 = 8;
pub const LARGEST_CAPACITY: u32 = 16;
pub const LARGEST_MAXIMUM: u32 = 65_535;
pub const LARGEST_SLICE: u32 = 1_000;
/// The timeout that never ends.
pub const FOREVER: u32 = u32::MAX;

pub const NO_ERR: i32 = 0;
pub const PENDING: i32 = 1;
pub const OVERFLOW: i32 = -1;
pub const WCONTEXT: i32 = -2;
pub const WSTATE: i32 = -3;
pub const TIMEOUT: i32 = -4;
pub const WRONG_PARAM: i32 = -5;
pub const ILUSE: i32 = -8;
pub const NOEXS: i32 = -9;
pub const DLT: i32 = -10;
pub const RELEASED: i32 = -11;
pub const UNSOUND: i32 = -12;

/// An accepted call's code, or a refusal's.
pub type Outcome = Result<i32, i32>;

#[derive(Clone, Copy, PartialEq, Eq, Debug)]
pub struct Answer {
    pub code: i32,
    pub running: u32,
    /// The bits that a wait or poll of a flag got at once, the element that was received at once, or the ticks that `ready_ticks` gives;
    /// else 0.
    pub value: u32,
}

/// Place 0 of every table is unused.
#[derive(Clone, PartialEq, Eq, Debug)]
pub struct Kernel {
    pub tasks: [Task; TASKS as usize + 1],
    pub levels: [Level; LEVELS as usize + 1],
    pub semaphores: [Semaphore; SEMAPHORES as usize + 1],
    pub flags: [Flag; FLAGS as usize + 1],
    pub queues: [DataQueue; QUEUES as usize + 1],
    pub time: u32,
    filled: u32, // bit p: level p lists a task
    timed: u32,  // bit t: task t waits with a finite timeout
}

impl Kernel {
    /// Nothing created, time 0 and no slices.
    pub fn fresh() -> Kernel {
        Kernel {
            tasks: [Task::NONE; TASKS as usize + 1],
            levels: [Level { queue: Queue::EMPTY, slice: 0 }; LEVELS as usize + 1],
            semaphores: [Semaphore::NONE; SEMAPHORES as usize + 1],
            flags: [Flag::NONE; FLAGS as usize + 1],
            queues: [DataQueue::NONE; QUEUES as usize + 1],
            time: 0,
            filled: 0,
            timed: 0,
        }
    }

    /// The first task of the best level that lists one, or 0.
    pub fn running(&self) -> usize {
        if self.filled == 0 {
            0
        } else {
            self.levels[self.filled.trailing_zeros() as usize].queue.first()
        }
    }

    /// One call: its code, the task that runs after it, and what it gives at once.
    pub fn call(&mut self, call: &Call) -> Answer {
        let (code, value) = match self.serve(call) {
            Ok((code, value)) => (code, value),
            Err(code) => (code, 0),
        };
        Answer { code, running: self.running() as u32, value }
    }

    /// The code of an accepted call, and what it gives; or the code of the refusal.
    fn serve(&mut self, call: &Call) -> Result<(i32, u32), i32> {
        let Call { context, service, a, b, c, d } = *call;
        in_range(context, T, I)?;
        in_range(service, CREATE, LAST)?;
        let here = context == SERVICES[service as usize].context;
        match service {
            EVENT_WAIT => return self.event_wait(here, a, b, c, d),
            EVENT_POLLING | EVENT_IWAIT => return self.event_poll(here, a, b, c),
            READY_TICKS => return self.ready_ticks(here, a),
            RECEIVE => return self.queue_receive(here, a, b),
            RECEIVE_POLLING | IRECEIVE => return self.queue_receive_polling(here, a),
            _ => {}
        }
        let code = match service {
            CREATE => self.task_create(here, a, b, c),
            DELETE => self.task_delete(here, a),
            ACTIVATE | IACTIVATE => self.task_activate(here, a),
            EXIT => self.task_exit(here),
            TERMINATE => self.task_terminate(here, a),
            SUSPEND => self.task_suspend(here, a),
            RESUME => self.task_resume(here, a),
            SLEEP => self.task_sleep(here, a),
            WAKEUP | IWAKEUP => self.task_wakeup(here, a),
            RELEASE_WAIT | IRELEASE_WAIT => self.task_release_wait(here, a),
            CHANGE_PRIORITY => self.task_change_priority(here, a, b),
            TSLICE => self.tslice_ticks(here, a, b),
            TICK => self.tick(here),
            SEM_CREATE => self.sem_create(here, a, b, c),
            SEM_DELETE => self.sem_delete(here, a),
            SIGNAL | ISIGNAL => self.sem_signal(here, a),
            ACQUIRE => self.sem_acquire(here, a, b),
            POLLING | IPOLLING => self.sem_polling(here, a),
            EVENT_CREATE => self.event_create(here, a, b, c),
            EVENT_DELETE => self.event_delete(here, a),
            SET | ISET => self.event_set(here, a, b),
            CLEAR | ICLEAR => self.event_clear(here, a, b),
            QUEUE_CREATE => self.queue_create(here, a, b),
            QUEUE_DELETE => self.queue_delete(here, a),
            SEND => self.queue_send(here, a, b, c),
            _ => self.queue_send_polling(here, a, b), // SEND_POLLING, ISEND_POLLING
        }?;
        Ok((code, 0))
    }

    /// The running task, for the calls that start-up code may not make.
    pub(crate) fn caller(&self) -> Result<usize, i32> {
        match self.running() {
            0 => Err(WCONTEXT),
            task => Ok(task),
        }
    }

    /// A task entering the runnable state, or another level, goes last there and is marked with the time. It has no charge:
    /// `leave_level` took it.
    pub(crate) fn enter_level(&mut self, t: usize) {
        let level = self.tasks[t].priority;
        self.levels[level as usize].queue.join(t);
        self.filled |= 1 << level;
        self.tasks[t].entered = self.time;
    }

    /// A task that stops being runnable, or is to enter another level, loses its charge; the mark of its last entry stays.
    pub(crate) fn leave_level(&mut self, t: usize) {
        let task = &mut self.tasks[t];
        task.charge = 0;
        let level = task.priority;
        let queue = &mut self.levels[level as usize].queue;
        queue.leave(t);
        if queue.is_empty() {
            self.filled &= !(1 << level);
        }
    }

    /// A dormant task becomes runnable.
    pub(crate) fn start(&mut self, t: usize) {
        self.tasks[t].active = true;
        self.enter_level(t);
    }

    /// A runnable task begins to wait.
    pub(crate) fn begin_wait(&mut self, t: usize, wait: Wait, timeout: u32) {
        self.leave_level(t);
        match wait {
            Wait::Semaphore(s) => self.semaphores[s as usize].queue.join(t),
            Wait::Flag(f, _) => self.flags[f as usize].queue.join(t),
            Wait::Send(q, _) => self.queues[q as usize].senders.join(t),
            Wait::Receive(q) => self.queues[q as usize].receivers.join(t),
            Wait::Nothing | Wait::Sleep => {}
        }
        let task = &mut self.tasks[t];
        task.wait = wait;
        task.wait_code = 0;
        task.handed = 0;
        task.remaining = timeout;
        if timeout != FOREVER {
            self.timed |= 1 << t;
        }
    }

    /// A waiting task waits no more; it stands in no level yet.
    fn leave_wait(&mut self, t: usize) {
        let task = &mut self.tasks[t];
        match task.wait {
            Wait::Semaphore(s) => self.semaphores[s as usize].queue.leave(t),
            Wait::Flag(f, _) => self.flags[f as usize].queue.leave(t),
            Wait::Send(q, _) => self.queues[q as usize].senders.leave(t),
            Wait::Receive(q) => self.queues[q as usize].receivers.leave(t),
            Wait::Nothing | Wait::Sleep => {}
        }
        task.wait = Wait::Nothing;
        task.remaining = 0;
        self.timed &= !(1 << t);
    }

    /// A wait ends with this code; a suspended waiter is then suspended only.
    pub(crate) fn end_wait(&mut self, t: usize, code: i32) {
        self.leave_wait(t);
        self.tasks[t].wait_code = code as i8;
        if !self.tasks[t].suspended {
            self.enter_level(t);
        }
    }

    /// A task leaves any queue and becomes dormant; an activation count of 1 is used up to start it again.
    pub(crate) fn become_dormant(&mut self, t: usize) {
        if self.tasks[t].is_runnable() {
            self.leave_level(t);
        } else if self.tasks[t].is_waiting() {
            self.leave_wait(t);
        }
        let again = self.tasks[t].activations == 1;
        self.tasks[t] = Task::dormant(self.tasks[t].base);
        if again {
            self.start(t);
        }
    }

    /// The tasks with a finite timeout, as bits.
    pub(crate) fn timed(&self) -> u32 {
        self.timed
    }

    /// Works out what is kept beside the tables for speed, after the tables were filled from outside.
    pub(crate) fn index(&mut self) {
        self.filled = 0;
        self.timed = 0;
        for (p, level) in self.levels.iter().enumerate() {
            self.filled |= u32::from(!level.queue.is_empty()) << p;
        }
        for (t, task) in self.tasks.iter().enumerate() {
            self.timed |= u32::from(task.is_waiting() && task.remaining != FOREVER) << t;
        }
    }
}

pub(crate) fn in_range(value: u32, least: u32, most: u32) -> Result<(), i32> {
    if value < least || value > most {
        Err(WRONG_PARAM)
    } else {
        Ok(())
    }
}

/// The test of the context, which comes after those of the numbers and of existence.
pub(crate) fn allowed(here: bool) -> Result<(), i32> {
    if here {
        Ok(())
    } else {
        Err(WCONTEXT)
    }
}
