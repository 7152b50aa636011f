//! The test of 'A sound state': each sentence broken on its own, and changes that break none.
//! The start is one state with tasks in every condition.

use peer::gen::Rng;
use peer::gen_states::{damage, damage_at, reached};
use peer::kernel::FOREVER;
use peer::layout::{call, load, store, State, Task};
use peer::services::*;
use peer::slots::{self, SLOTS, TABLES, TASK_FIELDS};
use peer::sound::is_sound;

/// Level 5, slice 3: [1, 2], 1 with charge 1; 3 waits on semaphore 4 and is suspended, then 6; 7 sleeps; 8 is dormant, 9 suspended.
fn sample() -> State {
    let calls = [
        (SEM_CREATE, 4, 0, 9),
        (SEM_CREATE, 12, 3, 65_535),
        (CREATE, 3, 5, 1),
        (ACQUIRE, 4, FOREVER, 0),
        (CREATE, 6, 7, 1),
        (ACQUIRE, 4, 8, 0),
        (CREATE, 7, 30, 1),
        (SLEEP, 65_535, 0, 0),
        (CREATE, 8, 1, 0),
        (CREATE, 9, 1, 1),
        (SUSPEND, 9, 0, 0),
        (SUSPEND, 3, 0, 0),
        (CREATE, 1, 5, 1),
        (CREATE, 2, 5, 1),
        (TSLICE, 5, 3, 0),
        (TICK, 0, 0, 0),
    ];
    let mut state = State::FRESH;
    for (service, a, b, c) in calls {
        let reply = call(&state, Call::of(service, a, b, c));
        assert!(reply.code >= 0);
        state = reply.state;
    }
    assert_eq!((state.level(5)[..3].to_vec(), state.waiters(4)[..3].to_vec()), (vec![1, 2, 0], vec![3, 6, 0]));
    state
}

fn with(change: impl FnOnce(&mut State)) -> bool {
    let mut state = sample();
    change(&mut state);
    is_sound(&state)
}

#[test]
fn sound_as_it_is_and_at_any_time() {
    assert!(is_sound(&State::FRESH) && is_sound(&sample()));
    for time in [1, 65_535, u32::MAX] {
        assert!(with(|s| s.numbers.time = time));
    }
}

#[test]
fn harmless_changes() {
    assert!(with(|s| {
        s.levels[5].places.swap(0, 1);
        (s.tasks[1].charge, s.tasks[2].charge) = (0, 2);
    }));
    assert!(with(|s| s.waits[4].places.swap(0, 1)));
    assert!(with(|s| s.tasks[1].charge = 2));
    assert!(with(|s| s.tasks[1].charge = 0));
    assert!(with(|s| s.numbers.slices[5] = 1_000));
    assert!(with(|s| s.numbers.counts[12] = 65_535));
    assert!(with(|s| s.tasks[6].wait.remaining = FOREVER));
    assert!(with(|s| s.tasks[6].wakeups = 1));
    assert!(with(|s| s.tasks[7].activations = 1));
    assert!(with(|s| s.tasks[7].suspended = 1));
    assert!(with(|s| s.tasks[6].priority = 1)); // a waiter may have any priority
    for t in [1, 2, 3, 6, 7, 9] {
        // runnable, waiting and suspended ones may have entered at any time, one that is to come too
        for entered in [0, 1, 2, 65_536, 1 << 31, u32::MAX] {
            assert!(with(|s| s.tasks[t].entered = entered), "task {t}");
        }
    }
    for code in [0, 4, 10, 11] {
        assert!(with(|s| s.tasks[1].code = code));
        assert!(with(|s| s.tasks[9].code = code));
    }
}

#[test]
fn levels_list_exactly_the_runnable_tasks_once_each() {
    assert!(!with(|s| s.levels[5].places[1] = 0)); // 2 is missing
    assert!(!with(|s| s.levels[5].places[1] = 1)); // 1 twice, 2 missing
    assert!(!with(|s| s.levels[5].places[2] = 2)); // 2 twice
    for other in [3, 7, 8, 9, 10, 25, 255] {
        assert!(!with(|s| s.levels[5].places[2] = other));
    }
    assert!(!with(|s| s.tasks[1].priority = 6)); // in the wrong level
    assert!(!with(|s| s.levels[6].places[0] = 1)); // in two levels
    assert!(!with(|s| s.tasks[1].suspended = 1)); // not runnable
    assert!(!with(|s| s.tasks[9].suspended = 0)); // runnable, not listed
}

#[test]
fn semaphores_list_exactly_their_waiters_once_each() {
    assert!(!with(|s| s.waits[4].places[1] = 0));
    assert!(!with(|s| s.waits[4].places[1] = 3));
    assert!(!with(|s| s.waits[4].places[2] = 6));
    for other in [1, 7, 8, 9, 10, 25, 255] {
        assert!(!with(|s| s.waits[4].places[2] = other));
    }
    assert!(!with(|s| s.tasks[3].wait.object = 12));
    assert!(!with(|s| s.waits[12].places[0] = 6));
    assert!(!with(|s| s.tasks[7].wait.kind = 2));
}

#[test]
fn the_unused_bytes_hold_0() {
    for t in [1, 3, 7, 24] {
        assert!(!with(|s| s.tasks[t].spare = 1));
        assert!(!with(|s| s.tasks[t].wait.spare = 255));
    }
}

#[test]
fn places_past_the_end_hold_0() {
    assert!(!with(|s| s.levels[5].places.swap(1, 2))); // a hole
    assert!(!with(|s| s.waits[4].places.swap(1, 23)));
}

#[test]
fn counts_and_numbers() {
    assert!(!with(|s| s.numbers.counts[4] = 1)); // someone waits
    assert!(!with(|s| s.numbers.maxima[12] = 2)); // count above maximum
    assert!(!with(|s| s.numbers.maxima[4] = 0)); // waited on, not created
    assert!(!with(|s| s.numbers.counts[1] = 1)); // not created, not all zeros
    assert!(!with(|s| s.numbers.slices[9] = 1_001));
    assert!(!with(|s| s.numbers.slices[5] = 1)); // 1 has charge 1
    assert!(!with(|s| s.numbers.slices[5] = 0));
}

/// The first of a level alone, and below its slice.
#[test]
fn charges() {
    assert_eq!(sample().tasks[1].charge, 1);
    assert!(!with(|s| s.tasks[1].charge = 3)); // at the slice
    assert!(!with(|s| s.tasks[1].charge = 4));
    assert!(!with(|s| s.levels[5].places.swap(0, 1))); // first no more
    assert!(!with(|s| (s.tasks[1].charge, s.tasks[2].charge) = (0, 1))); // the second
    assert!(!with(|s| s.tasks[2].charge = 1)); // it too
    for t in [3, 6, 7, 8, 9, 10] {
        // two wait on a semaphore, the others are asleep, dormant, suspended and not created
        for charge in [1, 2, u32::MAX] {
            assert!(!with(|s| s.tasks[t].charge = charge), "task {t}");
            assert!(!with(|s| {
                s.numbers.slices = [1_000; 31];
                s.numbers.slices[0] = 0;
                s.tasks[t].charge = charge;
            }));
        }
    }
    let another_level = |s: &mut State, slice: u32| {
        (s.tasks[2].priority, s.tasks[2].charge) = (6, 1);
        (s.levels[5].places[1], s.levels[6].places[0]) = (0, 2);
        s.numbers.slices[6] = slice;
    };
    assert!(with(|s| another_level(s, 2))); // each level has its first
    assert!(!with(|s| another_level(s, 1)));
    assert!(!with(|s| another_level(s, 0)));
}

/// Each of these would pass by its lower 16 bits.
#[test]
fn numbers_are_looked_at_whole() {
    for more in [65_536, 1 << 24, u32::MAX << 16] {
        assert!(!with(|s| s.numbers.slices[5] += more));
        assert!(!with(|s| s.numbers.slices[9] = more));
        assert!(!with(|s| s.tasks[1].charge += more));
        assert!(!with(|s| s.tasks[1].charge = more));
        assert!(!with(|s| s.tasks[8].charge = more));
        assert!(!with(|s| s.numbers.counts[4] = more));
        assert!(!with(|s| s.numbers.counts[12] += more));
        assert!(!with(|s| s.numbers.maxima[1] = more));
        assert!(!with(|s| s.numbers.maxima[4] += more));
        assert!(!with(|s| s.numbers.maxima[12] = more + 3)); // at the count
        assert!(!with(|s| (s.numbers.counts[12], s.numbers.maxima[12]) = (more, more)));
    }
    assert!(!with(|s| s.numbers.maxima[12] = u32::MAX));
    assert!(!with(|s| s.numbers.counts[12] = u32::MAX));
    assert!(!with(|s| s.numbers.counts[12] = 65_536));
}

#[test]
fn task_records() {
    assert!(!with(|s| s.tasks[3].wait.remaining = 0)); // a waiter without ticks
    assert!(!with(|s| s.tasks[3].code = 4)); // a waiter with a code
    assert!(!with(|s| s.tasks[1].wait.remaining = 1)); // ticks without a wait
    assert!(!with(|s| s.tasks[7].wakeups = 1)); // a sleeper with a wakeup
    for t in [1, 3, 9] {
        assert!(!with(|s| s.tasks[t].wakeups = 2));
        assert!(!with(|s| s.tasks[t].activations = 2));
        assert!(!with(|s| s.tasks[t].active = 2));
        assert!(!with(|s| s.tasks[t].active = 0));
        assert!(!with(|s| s.tasks[t].suspended = 2));
        assert!(!with(|s| s.tasks[t].wait.kind = 3));
        assert!(!with(|s| s.tasks[t].base = 0));
        assert!(!with(|s| s.tasks[t].base = 31));
        assert!(!with(|s| s.tasks[t].priority = 0));
        assert!(!with(|s| s.tasks[t].priority = 31));
    }
    for code in [1, 3, 5, 9, 12, 246, 252] {
        assert!(!with(|s| s.tasks[1].code = code));
    }
    assert!(!with(|s| s.tasks[7].wait.object = 4)); // a sleeper with an object
    assert!(!with(|s| s.tasks[1].wait.object = 4));
    assert!(!with(|s| s.tasks[3].wait.object = 13));
}

#[test]
fn dormant_tasks_and_tasks_not_created() {
    assert!(!with(|s| s.tasks[8].priority = 2));
    assert!(!with(|s| s.tasks[8].base = 2));
    assert!(!with(|s| s.tasks[8].active = 1));
    for t in [8, 10] {
        assert!(!with(|s| s.tasks[t].suspended = 1));
        assert!(!with(|s| s.tasks[t].wakeups = 1));
        assert!(!with(|s| s.tasks[t].activations = 1));
        assert!(!with(|s| s.tasks[t].code = 4));
        for bit in 0..32 {
            assert!(!with(|s| s.tasks[t].entered = 1 << bit));
        }
        assert!(!with(|s| s.tasks[t].entered = u32::MAX));
        assert!(!with(|s| (s.numbers.time, s.tasks[t].entered) = (7, 7))); // nor is now a time for it
        assert!(!with(|s| s.tasks[t].wait.remaining = 1));
        assert!(!with(|s| s.tasks[t].wait.kind = 1));
        assert!(!with(|s| s.tasks[t].wait.object = 4));
    }
    assert!(!with(|s| s.tasks[10].priority = 1));
    assert!(with(|s| s.tasks[10] = Task { base: 30, priority: 30, ..Task::NONE }));
    assert!(!with(|s| s.tasks[10] = Task { base: 31, priority: 31, ..Task::NONE }));
}

#[test]
fn place_0_of_every_table_is_all_zeros() {
    let row_ends = [TABLES[0] + 23, TABLES[1] + 23, TABLES[9] + 15];
    for slot in (0..TASK_FIELDS.len()).chain(TABLES).chain(row_ends) {
        for bit in 0..slots::width(slot) {
            let mut state = sample();
            slots::set(&mut state, slot, 1 << bit);
            assert!(!is_sound(&state), "{}, bit {bit}", slots::name(slot));
        }
    }
    assert!(!with(|s| s.tasks[0] = s.tasks[8]));
}

#[test]
fn an_unsound_state_comes_back_as_it_came() {
    let mut rng = Rng::new(8);
    let mut unsound = 0;
    for seed in 0..100 {
        let (_, state) = reached(seed);
        for slot in 0..SLOTS {
            let bad = damage_at(&mut rng, &state, slot).apply(&state);
            let reply = call(&bad, Call::of(TICK, 0, 0, 0));
            if is_sound(&bad) {
                assert_eq!(reply.code, 0);
                assert!(is_sound(&reply.state));
                assert_eq!(store(&load(&bad).unwrap()), bad);
            } else {
                assert_eq!((reply.code, reply.running, reply.state), (-12, 0, bad));
                unsound += 1;
            }
        }
        let any = damage(&mut rng, &state);
        assert_ne!(any.apply(&state), state, "{any}");
    }
    assert!(unsound > 130_000, "{unsound}");
}
