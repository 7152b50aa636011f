//! The account of every semaphore over random calls: start value and releases against present count and resources taken.
//! The tally is kept from the calls, the library's answers and the waits that end; the states are asked for these and the count.
#![cfg(library)]

use peer::gen::World;
use peer::layout::{State, SEMAPHORE_PLACES, TASK_PLACES};
use peer::services::*;

mod library;
use library::{call as library_call, SHARE};

/// How a record says that its task waits on a semaphore.
const A_SEMAPHORE: u8 = 2;

#[derive(Clone, Copy, Default)]
struct Tally {
    start: u64,
    released: u64,
    at_once: u64,
    polled: u64,
    handed: u64,
    /// What would be added to `handed` by a tally that goes by the records alone.
    fooled: u64,
}

/// How many waits on this semaphore were there before and have ended with 0.
fn ended(before: &State, after: &State, semaphore: usize) -> u64 {
    let waited =
        |t: usize| before.tasks[t].wait.kind == A_SEMAPHORE && usize::from(before.tasks[t].wait.object) == semaphore;
    let is_over = |t: usize| after.tasks[t].wait.kind == 0 && after.tasks[t].code == 0;
    (1..TASK_PLACES).filter(|&t| waited(t) && is_over(t)).count() as u64
}

impl Tally {
    /// Enters a call on this tally's semaphore that was answered with 0.
    fn enter(&mut self, call: &Call, ended: u64) {
        match call.service {
            SEM_CREATE => *self = Tally { start: u64::from(call.b), ..Tally::default() },
            SEM_DELETE => *self = Tally::default(),
            SIGNAL | ISIGNAL => {
                self.released += 1;
                self.handed += ended;
            }
            ACQUIRE => self.at_once += 1,
            POLLING | IPOLLING => self.polled += 1,
            _ => {}
        }
    }

    fn is_even(&self, count: u32) -> bool {
        self.start + self.released == u64::from(count) + self.at_once + self.polled + self.handed
    }
}

fn names_a_semaphore(call: &Call) -> bool {
    (SEM_CREATE..=IPOLLING).contains(&call.service)
}

#[test]
fn every_resource_is_accounted_for() {
    let (mut every_term, mut anew, mut looked_served) = (0, 0, 0);
    for seed in 20_000..20_000 + 2_000 / SHARE {
        let mut state = State::FRESH;
        let mut tallies = [Tally::default(); SEMAPHORE_PLACES];
        let mut deleted = [false; SEMAPHORE_PLACES];
        for (number, call) in (1..).zip(World::new(seed).run(300)) {
            let reply = library_call(&state, &call);
            for (m, tally) in tallies.iter_mut().enumerate().skip(1) {
                let ended = ended(&state, &reply.state, m);
                if names_a_semaphore(&call) && call.a as usize == m && reply.code == 0 {
                    tally.enter(&call, ended);
                    anew += u32::from(call.service == SEM_CREATE && deleted[m]);
                    deleted[m] |= call.service == SEM_DELETE;
                } else {
                    tally.fooled += ended;
                    looked_served += ended;
                }
                let count = reply.state.numbers.counts[m];
                assert!(
                    tally.is_even(count),
                    "seed {seed}, after call {number}, {call}: the account of {m} is not even"
                );
                let terms = [tally.start, tally.released, u64::from(count), tally.at_once, tally.polled, tally.handed];
                every_term += u32::from(terms.iter().all(|&term| term > 0));
                let fooled = Tally { handed: tally.handed + tally.fooled, ..*tally };
                assert_eq!(fooled.is_even(count), tally.fooled == 0, "seed {seed}, after call {number}, {call}");
            }
            state = reply.state;
        }
    }
    assert!(every_term > 300 && anew > 100 && looked_served > 10, "{every_term}, {anew}, {looked_served}");
}
