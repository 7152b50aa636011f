//! The ledger of every data queue over random calls: elements come out in the order accepted, each once, save those that P11 names.
//! It is kept from the calls and their answers; the states are asked who waits, what was handed over, and what is inside in the end.

use peer::gen::World;
use peer::layout::{self, Reply, State, QUEUE_PLACES, TASK_PLACES};
use peer::services::*;
use std::collections::VecDeque;

#[cfg(library)]
mod library;

const TO_SEND: u8 = 4;
const TO_RECEIVE: u8 = 5;

/// An element that was accepted and has not come out; its sender, while that waits.
#[derive(Clone, Copy)]
struct Entry {
    waiter: Option<usize>,
    element: u32,
}

/// What is in one queue by the ledger, and how many elements it has seen since its latest creation.
#[derive(Clone, Default)]
struct Ledger {
    inside: VecDeque<Entry>,
    accepted: u32,
}

/// What random runs have shown.
#[derive(Default, Debug)]
struct Shown {
    received: u32,
    handed: u32,
    withdrawn: u32,
    withdrawn_between: u32,
    looked_served: u32,
    lost: u32,
    round_twice: u32,
    zeros: u32,
}

/// Who waited on this queue in this way before and waits no more.
fn ended(before: &State, after: &State, queue: usize, kind: u8) -> Vec<usize> {
    let waits = |state: &State, t: usize| {
        let wait = state.tasks[t].wait;
        wait.kind == kind && usize::from(wait.object) == queue
    };
    (1..TASK_PLACES).filter(|&t| waits(before, t) && !waits(after, t)).collect()
}

impl Ledger {
    /// The oldest element comes out.
    fn give(&mut self, element: u32, shown: &mut Shown) {
        let oldest = self.inside.pop_front().expect("an element comes out of a queue that has one");
        assert_eq!(oldest.element, element, "another element than the oldest comes out");
        shown.zeros += u32::from(element == 0);
    }

    /// Enters what one call has made of this queue.
    fn enter(&mut self, number: usize, call: &Call, before: &State, reply: &Reply, shown: &mut Shown) {
        let named = (QUEUE_CREATE..=IRECEIVE).contains(&call.service) && call.a as usize == number && reply.code >= 0;
        let senders = ended(before, &reply.state, number, TO_SEND);
        let receivers = ended(before, &reply.state, number, TO_RECEIVE);
        match call.service {
            QUEUE_CREATE | QUEUE_DELETE if named => {
                shown.lost += self.inside.len() as u32;
                *self = Ledger::default();
            }
            SEND | SEND_POLLING | ISEND_POLLING if named => {
                let waiter = (reply.code == 1).then(|| caller(before));
                self.inside.push_back(Entry { waiter, element: call.b });
                self.accepted += 1;
                assert!(receivers.len() <= 1, "one element for two receivers");
                for t in receivers {
                    self.give(reply.state.tasks[t].handed, shown);
                    shown.handed += 1;
                }
                let capacity = before.numbers.capacities[number].saturating_sub(1);
                shown.round_twice += u32::from(capacity >= 2 && self.accepted == 2 * capacity + 1);
            }
            RECEIVE | RECEIVE_POLLING | IRECEIVE if named && reply.code == 0 => {
                self.give(reply.value, shown);
                shown.received += 1;
                for entry in self.inside.iter_mut().filter(|entry| entry.waiter.is_some_and(|t| senders.contains(&t))) {
                    entry.waiter = None;
                }
            }
            _ => {
                for t in senders {
                    let place =
                        self.inside.iter().position(|entry| entry.waiter == Some(t)).expect("who waits to send");
                    shown.withdrawn_between += u32::from(place > 0 && place + 1 < self.inside.len());
                    shown.looked_served += u32::from(reply.state.tasks[t].code == 0);
                    shown.withdrawn += 1;
                    self.inside.remove(place);
                }
            }
        }
    }

    /// What the state has inside: the stored elements, then those that the senders wait with.
    fn is_what(&self, state: &State, number: usize) -> bool {
        let stored = state.numbers.elements[number].iter().copied().take(state.numbers.taken[number] as usize);
        let row = state.queue_waiters(number).iter().map(|&t| &state.tasks[usize::from(t)].wait);
        let waiting = row.filter(|wait| wait.kind == TO_SEND).map(|wait| wait.pattern);
        stored.chain(waiting).eq(self.inside.iter().map(|entry| entry.element))
    }
}

/// The first task of the best level that lists one.
fn caller(state: &State) -> usize {
    state.levels.iter().map(|level| usize::from(level.places[0])).find(|&t| t != 0).expect("somebody runs")
}

fn every_element_is_accounted_for(runs: u64, make: impl Fn(&State, &Call) -> Reply) {
    let mut shown = Shown::default();
    for seed in 30_000..30_000 + runs {
        let mut state = State::FRESH;
        let mut ledgers = vec![Ledger::default(); QUEUE_PLACES];
        for (at, call) in (1..).zip(World::new(seed).run(300)) {
            let reply = make(&state, &call);
            for (q, ledger) in ledgers.iter_mut().enumerate().skip(1) {
                ledger.enter(q, &call, &state, &reply, &mut shown);
                assert!(ledger.is_what(&reply.state, q), "seed {seed}, after call {at}, {call}: the ledger of {q}");
            }
            state = reply.state;
        }
    }
    println!("{shown:#?}");
    let Shown { received, handed, withdrawn, withdrawn_between, looked_served, lost, round_twice, zeros } = shown;
    let counts = [received, handed, withdrawn, withdrawn_between, looked_served, lost, round_twice, zeros];
    assert!(counts.iter().all(|&count| count > 20), "{counts:?}");
}

#[test]
fn in_the_peer() {
    every_element_is_accounted_for(1_000, |state, call| layout::call(state, *call));
}

#[cfg(library)]
#[test]
fn in_the_library() {
    every_element_is_accounted_for(2_000 / library::SHARE, library::call);
}
