//! The test of 'A sound state' on event flags: each sentence that request P1 adds broken on its own, and changes that break none.
//! The start is one state with waits on flags of every kind.

use peer::layout::{call, State};
use peer::services::*;
use peer::sound::is_sound;

/// The queues of the flags, behind those of the semaphores.
const FLAG_3: usize = 3 + 12;
const FLAG_5: usize = 5 + 12;
const FLAG_6: usize = 6 + 12;

/// Flag 3, neither, bits 8: 20 waits for 5 AND, then 21 for 2 OR. Flag 5, SINGLE and CLR, bits 1: 22 waits for 3 AND.
/// Flag 6, SINGLE, bits 7: nobody. 23 runs, with bits 16 handed over. 24 is dormant.
fn sample() -> State {
    let mut state = State::FRESH;
    let mut make = |asked: Call, code: i32| {
        let reply = call(&state, asked);
        assert_eq!(reply.code, code, "{asked}");
        state = reply.state;
    };
    for (flag, attributes, bits) in [(2, 0, 0), (3, 0, 8), (5, 3, 1), (6, 1, 7)] {
        make(Call::of(EVENT_CREATE, flag, attributes, bits), 0);
    }
    make(Call::of(CREATE, 24, 30, 0), 0);
    for (task, flag, pattern, mode) in [(20, 3, 5, 1), (21, 3, 2, 0), (22, 5, 3, 1), (23, 2, 16, 0)] {
        make(Call::of(CREATE, task, 9, 1), 0);
        make(Call::wait(flag, pattern, mode, 50), 1);
    }
    make(Call::of(ISET, 2, 16, 0), 0);
    make(Call::of(EVENT_DELETE, 2, 0, 0), 0);
    state
}

fn with(change: impl FnOnce(&mut State)) -> bool {
    let mut state = sample();
    change(&mut state);
    is_sound(&state)
}

#[test]
fn sound_as_it_is_and_after_harmless_changes() {
    assert!(with(|_| {}));
    assert_eq!(sample().tasks[23].handed, 16);
    assert!(with(|s| s.waits[FLAG_3].places.swap(0, 1)));
    assert!(with(|s| s.tasks[23].handed = u32::MAX));
    assert!(with(|s| s.tasks[20].wait.pattern = 9)); // 8 is set, 1 is not, and it waits for both
    assert!(with(|s| s.tasks[21].wait.mode = 1));
    assert!(with(|s| s.tasks[20].wakeups = 1));
    assert!(with(|s| s.numbers.bits[3] = 0x8000_0008));
    assert!(with(|s| s.numbers.bits[6] = 0));
    for attributes in [1, 2, 4] {
        assert!(with(|s| s.numbers.attributes[5] = attributes));
        assert!(with(|s| s.numbers.attributes[6] = attributes));
        assert!(with(|s| s.numbers.attributes[8] = attributes)); // created, and nothing else of it
    }
}

#[test]
fn numbers_of_a_flag() {
    for attributes in [3, 5, 6, 255, 256, 257, 258, 260, 65_537, 1 << 31, u32::MAX] {
        assert!(!with(|s| s.numbers.attributes[6] = attributes));
    }
    assert!(!with(|s| s.numbers.attributes[8] = 256)); // nothing else of it, and 0 in its lower 8 bits
    assert!(!with(|s| s.numbers.attributes[6] = 0)); // not created, and bits
    assert!(!with(|s| s.numbers.bits[1] = 1));
    assert!(!with(|s| s.numbers.attributes[3] = 0)); // waited on, not created
    assert!(!with(|s| (s.numbers.attributes[5], s.numbers.bits[5]) = (0, 0)));
    assert!(!with(|s| s.numbers.attributes[0] = 1));
    assert!(!with(|s| s.numbers.bits[0] = 1));
}

#[test]
fn one_waiter_at_most_on_single() {
    for attributes in [2, 4] {
        assert!(!with(|s| s.numbers.attributes[3] = attributes));
    }
}

#[test]
fn none_is_met_already() {
    assert!(!with(|s| s.numbers.bits[3] = 10)); // 21 asks for any of 2
    assert!(!with(|s| s.numbers.bits[3] = 13)); // 20 asks for all of 5
    assert!(with(|s| s.numbers.bits[3] = 9));
    assert!(!with(|s| s.tasks[21].wait.pattern = 8));
    assert!(!with(|s| s.tasks[20].wait.pattern = 8));
    assert!(!with(|s| s.tasks[22].wait.mode = 0));
    assert!(!with(|s| s.numbers.bits[5] = u32::MAX));
}

#[test]
fn flags_list_exactly_their_waiters_once_each() {
    assert!(!with(|s| s.waits[FLAG_3].places[1] = 0));
    assert!(!with(|s| s.waits[FLAG_3].places[1] = 20));
    assert!(!with(|s| s.waits[FLAG_3].places[2] = 21));
    for other in [1, 22, 23, 24, 25, 255] {
        assert!(!with(|s| s.waits[FLAG_3].places[2] = other));
    }
    assert!(!with(|s| s.waits[FLAG_3].places.swap(1, 2))); // a hole
    assert!(!with(|s| s.waits.swap(FLAG_5, FLAG_6))); // in the row of flag 6
    assert!(!with(|s| s.waits.swap(FLAG_5, 5))); // in the row of semaphore 5
    assert!(!with(|s| s.tasks[22].wait.object = 6));
    assert!(!with(|s| s.tasks[22].wait.kind = 2));
    assert!(!with(|s| s.tasks[20].wait.kind = 1));
    assert!(!with(|s| s.tasks[20].wait.kind = 4));
    for object in [0, 9, 12, 15, 255] {
        assert!(!with(|s| s.tasks[20].wait.object = object));
    }
}

#[test]
fn records() {
    for t in [20, 21, 22] {
        assert!(!with(|s| s.tasks[t].handed = 1)); // during a wait
        assert!(!with(|s| s.tasks[t].wait.pattern = 0));
        assert!(!with(|s| s.tasks[t].wait.mode = 2));
        assert!(!with(|s| s.tasks[t].wait.remaining = 0));
        assert!(!with(|s| s.tasks[t].code = 4));
    }
    for t in [0, 1, 23, 24] {
        assert!(!with(|s| s.tasks[t].wait.pattern = 1)); // outside a flag wait
        assert!(!with(|s| s.tasks[t].wait.mode = 1));
    }
    for t in [0, 1, 24] {
        assert!(!with(|s| s.tasks[t].handed = 1)); // not created, or dormant
    }
}
