//! The proved library against the peer on data queues: their numbers set to every value near where they mean something, and calls of their
//! services with every number at its limits, in states that random calls reach.
#![cfg(library)]

use peer::gen::{Rng, World};
use peer::gen_states::{reached, stocks, Damage, Run};
use peer::layout::{State, ELEMENTS, QUEUE_PLACES};
use peer::services::*;
use peer::slots;
use peer::sound::is_sound;

mod compare;
mod library;
use compare::test_damaged;

/// A call of a data queue's service, mostly on this queue.
fn call_on(rng: &mut Rng, queue: u32) -> Call {
    let service = rng.from(QUEUE_CREATE, IRECEIVE);
    let queue = if rng.percent(90) { queue } else { rng.from(0, 9) };
    let [b, c] = [rng.pick(&[0, 1, 2, 16, 17, u32::MAX]), rng.pick(&[0, 1, 5, u32::MAX])];
    let context = if rng.percent(95) { SERVICES[service as usize].context } else { rng.from(T, I) };
    Call { context, ..Call::of(service, queue, b, c) }
}

/// Every queue in turn with other capacities, numbers of elements, elements and waits, then a call: above 45,000 states.
#[test]
fn every_stock_damaged() {
    let mut world = World::new(24);
    let (mut states, mut sound) = (0, 0);
    for seed in 8_200..8_600 {
        let (run, state) = reached(seed);
        for damage in stocks(&state) {
            let last = match states % 4 {
                0 => world.call(),
                1 => Call::of(TICK, 0, 0, 0),
                _ => {
                    let queue = world.rng.from(1, 8);
                    call_on(&mut world.rng, queue)
                }
            };
            test_damaged(seed, &run, &[damage], &last);
            states += 1;
            sound += u32::from(is_sound(&damage.apply(&state)));
        }
    }
    assert!(states > 45_000 && sound > 5_000, "{states}, {sound} of them sound");
}

/// A queue that nobody waits on, with this capacity and so many elements, any of them: a sound state stays sound.
fn stocked(rng: &mut Rng, queue: usize, capacity: u32, taken: u32) -> Vec<Damage> {
    let mut damages = vec![
        Damage { slot: slots::capacity_of(queue), value: capacity + 1 },
        Damage { slot: slots::taken_of(queue), value: taken },
    ];
    damages.extend((0..ELEMENTS).map(|place| {
        let value = if place < taken as usize { rng.pick(&[0, 1, rng.clone().any() as u32, u32::MAX]) } else { 0 };
        Damage { slot: slots::element_of(queue, place), value }
    }));
    damages
}

/// Every capacity with every number of elements, and every service on it: sound states that no short run reaches.
#[test]
fn every_stock_and_every_service() {
    let mut rng = Rng::new(25);
    let empty = |state: &State, queue: usize| state.queue_waiters(queue)[0] == 0;
    let mut states = 0;
    for seed in 8_600..8_610 {
        let (run, state): (Run, State) = reached(seed);
        let Some(queue) = (1..QUEUE_PLACES).rev().find(|&queue| empty(&state, queue)) else { continue };
        for (capacity, taken) in (0..=16).flat_map(|capacity| (0..=capacity).map(move |taken| (capacity, taken))) {
            let damages = stocked(&mut rng, queue, capacity, taken);
            assert!(is_sound(&damages.iter().fold(state, |state, damage| damage.apply(&state))), "seed {seed}");
            for service in QUEUE_CREATE..=IRECEIVE {
                let timeout = rng.pick(&[1, u32::MAX]);
                let element = rng.any() as u32;
                let last = match service {
                    RECEIVE => Call::of(service, queue as u32, timeout, 0),
                    _ => Call::of(service, queue as u32, element, timeout),
                };
                test_damaged(seed, &run, &damages, &last);
                states += 1;
            }
        }
    }
    assert!(states > 10_000, "{states}");
}
