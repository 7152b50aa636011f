//! The 41 services by number: those of the base, those of event flags, one that no list holds, and those of data queues. Each has a name,
//! so many numbers, a context, and perhaps a timeout. A call is one service with its context and numbers, and is shown as the line of a list that asks
//! for it, or would.

use std::fmt;

/// The context of the running task, or of start-up code when no task runs.
pub const T: u32 = 0;
/// The context of an interrupt.
pub const I: u32 = 1;

pub const CREATE: u32 = 1;
pub const DELETE: u32 = 2;
pub const ACTIVATE: u32 = 3;
pub const IACTIVATE: u32 = 4;
pub const EXIT: u32 = 5;
pub const TERMINATE: u32 = 6;
pub const SUSPEND: u32 = 7;
pub const RESUME: u32 = 8;
pub const SLEEP: u32 = 9;
pub const WAKEUP: u32 = 10;
pub const IWAKEUP: u32 = 11;
pub const RELEASE_WAIT: u32 = 12;
pub const IRELEASE_WAIT: u32 = 13;
pub const CHANGE_PRIORITY: u32 = 14;
pub const TSLICE: u32 = 15;
pub const TICK: u32 = 16;
pub const SEM_CREATE: u32 = 17;
pub const SEM_DELETE: u32 = 18;
pub const SIGNAL: u32 = 19;
pub const ISIGNAL: u32 = 20;
pub const ACQUIRE: u32 = 21;
pub const POLLING: u32 = 22;
pub const IPOLLING: u32 = 23;
pub const EVENT_CREATE: u32 = 24;
pub const EVENT_DELETE: u32 = 25;
pub const SET: u32 = 26;
pub const ISET: u32 = 27;
pub const CLEAR: u32 = 28;
pub const ICLEAR: u32 = 29;
pub const EVENT_WAIT: u32 = 30;
pub const EVENT_POLLING: u32 = 31;
pub const EVENT_IWAIT: u32 = 32;
/// The one that document 000 does not name, so that no list holds it.
pub const READY_TICKS: u32 = 33;
pub const QUEUE_CREATE: u32 = 34;
pub const QUEUE_DELETE: u32 = 35;
pub const SEND: u32 = 36;
pub const SEND_POLLING: u32 = 37;
pub const ISEND_POLLING: u32 = 38;
pub const RECEIVE: u32 = 39;
pub const RECEIVE_POLLING: u32 = 40;
pub const IRECEIVE: u32 = 41;
/// The last of them.
pub const LAST: u32 = IRECEIVE;

/// Those that a list may hold.
pub fn in_lists() -> impl Iterator<Item = u32> {
    (CREATE..=LAST).filter(|&service| service != READY_TICKS)
}

pub struct Service {
    pub name: &'static str,
    pub numbers: usize,
    pub context: u32,
    /// Which of its numbers is a timeout, counted from 0.
    pub timeout: Option<usize>,
}

const fn service(name: &'static str, numbers: usize, context: u32) -> Service {
    Service { name, numbers, context, timeout: None }
}

/// A service whose last number is a timeout.
const fn waiting(name: &'static str, numbers: usize, context: u32) -> Service {
    Service { name, numbers, context, timeout: Some(numbers - 1) }
}

/// Place n holds service n; place 0 names nothing.
pub const SERVICES: [Service; LAST as usize + 1] = [
    service("", 0, T),
    service("tn_task_create", 3, T),
    service("tn_task_delete", 1, T),
    service("tn_task_activate", 1, T),
    service("tn_task_iactivate", 1, I),
    service("tn_task_exit", 0, T),
    service("tn_task_terminate", 1, T),
    service("tn_task_suspend", 1, T),
    service("tn_task_resume", 1, T),
    waiting("tn_task_sleep", 1, T),
    service("tn_task_wakeup", 1, T),
    service("tn_task_iwakeup", 1, I),
    service("tn_task_release_wait", 1, T),
    service("tn_task_irelease_wait", 1, I),
    service("tn_task_change_priority", 2, T),
    service("tn_sys_tslice_ticks", 2, T),
    service("tn_tick_int_processing", 0, I),
    service("tn_sem_create", 3, T),
    service("tn_sem_delete", 1, T),
    service("tn_sem_signal", 1, T),
    service("tn_sem_isignal", 1, I),
    waiting("tn_sem_acquire", 2, T),
    service("tn_sem_polling", 1, T),
    service("tn_sem_ipolling", 1, I),
    service("tn_event_create", 3, T),
    service("tn_event_delete", 1, T),
    service("tn_event_set", 2, T),
    service("tn_event_iset", 2, I),
    service("tn_event_clear", 2, T),
    service("tn_event_iclear", 2, I),
    waiting("tn_event_wait", 4, T),
    service("tn_event_wait_polling", 3, T),
    service("tn_event_iwait", 3, I),
    service("ready_ticks", 1, T),
    service("tn_queue_create", 2, T),
    service("tn_queue_delete", 1, T),
    waiting("tn_queue_send", 3, T),
    service("tn_queue_send_polling", 2, T),
    service("tn_queue_isend_polling", 2, I),
    waiting("tn_queue_receive", 2, T),
    service("tn_queue_receive_polling", 1, T),
    service("tn_queue_ireceive", 1, I),
];

#[derive(Clone, Copy, PartialEq, Eq, Debug)]
pub struct Call {
    pub context: u32,
    pub service: u32,
    pub a: u32,
    pub b: u32,
    pub c: u32,
    pub d: u32,
}

impl Call {
    /// A call in the context that its service belongs to.
    pub fn of(service: u32, a: u32, b: u32, c: u32) -> Call {
        Call { context: SERVICES[service as usize].context, service, a, b, c, d: 0 }
    }

    /// The call that takes four numbers.
    pub fn wait(flag: u32, pattern: u32, mode: u32, timeout: u32) -> Call {
        Call { d: timeout, ..Call::of(EVENT_WAIT, flag, pattern, mode) }
    }

    /// How many numbers its service takes.
    pub fn numbers(&self) -> usize {
        SERVICES[self.service as usize].numbers
    }

    /// Which of its numbers is a timeout, as its service has it.
    pub fn timeout(&self) -> Option<usize> {
        SERVICES[self.service as usize].timeout
    }

    /// The line of a list that asks for this call, in a list with so many numbers on every line.
    pub fn line(&self, width: usize) -> String {
        let mut line =
            format!("{},{}", if self.context == T { 'T' } else { 'I' }, SERVICES[self.service as usize].name);
        for (place, number) in [self.a, self.b, self.c, self.d].into_iter().take(width).enumerate() {
            line.push(',');
            if place < self.numbers() {
                line.push_str(&number.to_string());
            }
        }
        line
    }
}

impl fmt::Display for Call {
    fn fmt(&self, f: &mut fmt::Formatter<'_>) -> fmt::Result {
        if self.context <= I && (CREATE..=LAST).contains(&self.service) {
            write!(f, "{}", self.line(self.numbers().max(3)))
        } else {
            write!(f, "{self:?}") // no list can ask for this
        }
    }
}
