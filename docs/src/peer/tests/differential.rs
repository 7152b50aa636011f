//! The proved library against the peer, call by call, by value and on a lent state: code, running task, value and every number
//! of the next state.
//! What differs is cut down to the fewest calls and damages that still show it, and printed.
#![cfg(library)]

use peer::gen::{Rng, World, LIMITS};
use peer::gen_states::{after, damage, damage_at, reached, start, Damage};
use peer::kernel::{Answer, Kernel, WRONG_PARAM};
use peer::layout::{self, store, Reply, State};
use peer::services::*;
use peer::shrink::shrink;
use peer::slots::{get, set, width, ROWS, SLOTS};
use peer::sound::is_sound;

mod compare;
mod library;
use compare::{library_calls, state_differs, test_damaged, text, unlike};
use library::{is_sound as library_is_sound, SHARE};

/// Makes the calls on both sides from the fresh state at this time; says what differs first.
fn run_differs(time: u32, calls: &[Call]) -> Option<String> {
    let mut kernel = Kernel::fresh();
    kernel.time = time;
    let mut state = store(&kernel);
    for (number, call) in (1..).zip(calls) {
        let Answer { code, running, value } = kernel.call(call);
        let theirs = library_calls(&state, call);
        if let Some(how) = unlike(&Reply { code, running, value, state: store(&kernel) }, &theirs) {
            return Some(format!("at call {number}, {call}: {how}"));
        }
        let [_, theirs] = theirs;
        if !library_is_sound(&theirs.state) {
            return Some(format!("at call {number}, {call}: the library calls its next state unsound"));
        }
        state = theirs.state;
    }
    None
}

const RUNS: u64 = 4_000 / SHARE;
const LENGTH: usize = 300;

/// Runs that share their seeds' remainder, so that two tests use two processors.
fn random_runs(remainder: u64) {
    for seed in (0..RUNS).filter(|seed| seed % 2 == remainder) {
        let mut world = World::new(seed);
        let calls = world.run(LENGTH);
        let time = start(&mut world.rng);
        if run_differs(time, &calls).is_some() {
            let fewest = shrink(&calls, |calls| run_differs(time, calls).is_some());
            let how = run_differs(time, &fewest).unwrap_or_default();
            panic!("seed {seed}, from time {time}, {} calls:\n{}{how}", fewest.len(), text(&fewest));
        }
    }
}

#[test]
fn random_calls_even() {
    random_runs(0);
}

#[test]
fn random_calls_odd() {
    random_runs(1);
}

#[test]
fn a_long_run_of_ticks() {
    let mut calls = vec![Call::of(SEM_CREATE, 1, 0, 1), Call::of(CREATE, 2, 9, 1), Call::of(SLEEP, 65_535, 0, 0)];
    calls.extend([Call::of(CREATE, 1, 9, 1), Call::of(ACQUIRE, 1, 65_535, 0)]);
    calls.extend([Call::of(EVENT_CREATE, 8, 0, 1), Call::of(CREATE, 3, 9, 1), Call::wait(8, 6, 0, 65_535)]);
    calls.extend([Call::of(QUEUE_CREATE, 8, 0, 0), Call::of(CREATE, 4, 9, 1), Call::of(SEND, 8, 77, 65_535)]);
    calls.extend([Call::of(TICK, 0, 0, 0)].repeat(65_537));
    calls.extend((1..=4).map(|task| Call::of(READY_TICKS, task, 0, 0)));
    assert_eq!(run_differs(u32::MAX - 30_000, &calls), None);
    let kernel = after(0, &calls[..calls.len() - 6]);
    assert_eq!(kernel.levels[9].queue.as_slice(), [1, 2, 3, 4]);
}

/// Every number of a state in turn: 84,120 states with one of them damaged.
#[test]
fn every_number_damaged() {
    let mut rng = Rng::new(11);
    for seed in 0..40 {
        let (run, state) = reached(seed);
        for slot in 0..SLOTS {
            let last = World::new(rng.any()).call();
            test_damaged(seed, &run, &[damage_at(&mut rng, &state, slot)], &last);
        }
    }
}

/// Every bit of every number turned over, those above what its range needs too: 383,040 states.
#[test]
fn every_bit_turned_over() {
    let mut world = World::new(16);
    let mut states = 0;
    for seed in 6_000..6_015 {
        let (run, state) = reached(seed);
        for slot in 0..SLOTS {
            for bit in 0..width(slot) {
                let last = world.call();
                test_damaged(seed, &run, &[Damage { slot, value: get(&state, slot) ^ (1 << bit) }], &last);
                states += 1;
            }
        }
    }
    assert_eq!(states, 383_040);
}

/// What means something above the smallest numbers, or would in 8 or 16 bits: 256 to 260 are 0 to 4 in 8.
const BEYOND: [u32; 15] =
    [254, 255, 256, 257, 258, 260, 999, 1_000, 1_001, 65_534, 65_535, 65_536, 65_537, 1 << 31, u32::MAX];

/// Every number outside the queues, and every place of a queue up to the first free one, with each value that means
/// something somewhere: above 350,000 states.
#[test]
fn every_value_that_means_something() {
    let mut world = World::new(15);
    let mut states = 0;
    for seed in 5_000..5_025 {
        let (run, state) = reached(seed);
        let used = |slot: usize| !ROWS.contains(&slot) || get(&state, slot) != 0 || get(&state, slot - 1) != 0;
        for slot in (0..SLOTS).filter(|&slot| used(slot)) {
            for value in (0..=32).chain(BEYOND) {
                let last = world.call();
                test_damaged(seed, &run, &[Damage { slot, value }], &last);
                states += 1;
            }
        }
    }
    assert!(states > 350_000, "{states}");
}

/// 30,000 states with one number damaged where it matters most, and 10,000 with two or three.
#[test]
fn numbers_in_use_damaged() {
    let mut rng = Rng::new(12);
    let (mut sound, mut unsound) = (0, 0);
    for seed in 1_000..3_000 {
        let (run, state) = reached(seed);
        for round in 0..20 {
            let many = if round < 15 { 1 } else { rng.from(2, 3) };
            let damages: Vec<Damage> = (0..many).map(|_| damage(&mut rng, &state)).collect();
            let last = World::new(rng.any()).call();
            test_damaged(seed, &run, &damages, &last);
            let damaged = damages.iter().fold(state, |state, damage| damage.apply(&state));
            *(if is_sound(&damaged) { &mut sound } else { &mut unsound }) += 1;
        }
    }
    assert!(sound > 1_000 && unsound > 20_000, "{sound} sound, {unsound} unsound");
}

#[test]
fn any_numbers_at_all() {
    let mut rng = Rng::new(13);
    for _ in 0..3_000 {
        let mut state = State::FRESH;
        let small = rng.percent(50);
        for slot in 0..SLOTS {
            let value = if small { rng.from(0, 2) } else { rng.any() as u32 };
            set(&mut state, slot, value);
        }
        let last = World::new(rng.any()).call();
        assert_eq!(state_differs(&state, &last), None, "{state:?}");
    }
}

#[test]
fn unknown_contexts_and_services() {
    let mut rng = Rng::new(14);
    let contexts = [T, I, 2, 3, 84, 255, 256, 257, 1 << 31, u32::MAX];
    let services = [0, 1, 16, 24, 32, 33, 34, 41, 42, 46, 255, 256, 257, 272, 65_537, 1 << 31, u32::MAX];
    for seed in 0..50 {
        let (_, state) = reached(seed);
        let running = layout::call(&state, Call { context: 2, service: 0, a: 0, b: 0, c: 0, d: 0 }).running;
        for context in contexts {
            for service in services {
                if context <= I && (CREATE..=LAST).contains(&service) {
                    continue;
                }
                let [a, b, c, d] = std::array::from_fn(|_| rng.pick(&LIMITS));
                let call = Call { context, service, a, b, c, d };
                let expected = Reply { code: WRONG_PARAM, running, value: 0, state };
                assert_eq!(unlike(&expected, &library_calls(&state, &call)), None, "seed {seed}, {call}");
                let mut bad = state;
                bad.tasks[0].base = 1;
                assert_eq!(state_differs(&bad, &call), None, "seed {seed}, {call}");
            }
        }
    }
}
