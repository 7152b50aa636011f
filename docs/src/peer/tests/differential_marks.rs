//! The proved library against the peer on the marks of a record, which no queue looks at: its charge and its time of entry.
//! Each is set to every value near where it means something, in states that random calls reach.
#![cfg(library)]

use peer::gen::{Rng, World};
use peer::gen_states::{any_times, charges, entries, reached};
use peer::layout;
use peer::services::*;
use peer::sound::is_sound;

mod compare;
mod library;
use compare::test_damaged;

/// Every task in turn with charges near the slice of its level, then a call or a tick: above 45,000 states.
#[test]
fn every_charge_damaged() {
    let mut world = World::new(18);
    let mut states = 0;
    for seed in 7_000..7_500 {
        let (run, state) = reached(seed);
        for damage in charges(&state) {
            let last = if states % 2 == 0 { world.call() } else { Call::of(TICK, 0, 0, 0) };
            test_damaged(seed, &run, &[damage], &last);
            states += 1;
        }
    }
    assert!(states > 45_000, "{states}");
}

/// Every task in turn with times of entry around now and at the limits, then the ticks since, of it or another, a call or a tick: above
/// 45,000 states.
#[test]
fn every_time_of_entry_damaged() {
    let mut world = World::new(20);
    let mut states = 0;
    for seed in 7_500..7_800 {
        let (run, state) = reached(seed);
        for damage in entries(&state) {
            let last = match states % 4 {
                0 => world.call(),
                1 => Call::of(TICK, 0, 0, 0),
                _ => Call::of(READY_TICKS, world.rng.from(0, 25), 0, 0),
            };
            test_damaged(seed, &run, &[damage], &last);
            states += 1;
        }
    }
    assert!(states > 45_000, "{states}");
}

/// Sound states at any time whose tasks entered at any time: the ticks since, of every task and of numbers that are none.
#[test]
fn ticks_since_any_time() {
    let mut rng = Rng::new(21);
    let (mut given, mut wrapped) = (0, 0);
    for seed in 8_000..8_200 {
        let (run, state) = reached(seed);
        let times = any_times(&mut rng, &state);
        let aged = times.iter().fold(state, |state, damage| damage.apply(&state));
        assert!(is_sound(&aged), "seed {seed}");
        for (task, context) in (0..=25).chain([256, 257, 65_537, u32::MAX]).flat_map(|task| [(task, T), (task, I)]) {
            let asked = Call { context, ..Call::of(READY_TICKS, task, 0, 0) };
            test_damaged(seed, &run, &times, &asked);
            let answered = layout::call(&aged, asked).code == 0;
            given += u32::from(answered);
            wrapped += u32::from(answered && aged.tasks[task as usize].entered > aged.numbers.time);
        }
        test_damaged(seed, &run, &times, &World::new(rng.any()).call());
    }
    assert!(given > 1_000 && wrapped > 300, "{given} given, {wrapped} of them over the wrap");
}
