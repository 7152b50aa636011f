//! The test of 'A sound state' on data queues: each sentence that request P11 adds broken on its own, and changes that break none.
//! The start is one state with waits on data queues of every kind.

use peer::layout::{call, State};
use peer::services::*;
use peer::sound::is_sound;

/// The rows of those who wait, behind those of the semaphores and of the flags.
const QUEUE_2: usize = 2 + 20;
const QUEUE_3: usize = 3 + 20;
const QUEUE_5: usize = 5 + 20;

/// Queue 2, capacity 3, holds 7, 0, 9: 20 waits to send 11, then 21 to send 0. Queue 3, capacity 4, is empty: 22 waits to receive, then 23.
/// Queue 5 has no capacity: 19 waits to send 13. Queue 6, capacity 16, holds 16 elements; queue 8, capacity 2, one. 18 runs, with 5 handed
/// over, and 24 is dormant.
fn sample() -> State {
    let mut state = State::FRESH;
    let mut make = |asked: Call, code: i32| {
        let reply = call(&state, asked);
        assert_eq!(reply.code, code, "{asked}");
        state = reply.state;
    };
    for (queue, capacity) in [(2, 3), (3, 4), (5, 0), (6, 16), (8, 2)] {
        make(Call::of(QUEUE_CREATE, queue, capacity, 0), 0);
    }
    for element in [7, 0, 9] {
        make(Call::of(SEND_POLLING, 2, element, 0), 0);
    }
    for element in 1..=16 {
        make(Call::of(SEND_POLLING, 6, element, 0), 0);
    }
    make(Call::of(CREATE, 24, 30, 0), 0);
    for (task, waits) in [
        (18, Call::of(RECEIVE, 3, 50, 0)),
        (20, Call::of(SEND, 2, 11, 50)),
        (21, Call::of(SEND, 2, 0, u32::MAX)),
        (22, Call::of(RECEIVE, 3, 50, 0)),
        (23, Call::of(RECEIVE, 3, u32::MAX, 0)),
        (19, Call::of(SEND, 5, 13, 50)),
    ] {
        make(Call::of(CREATE, task, 9, 1), 0);
        make(waits, 1);
    }
    make(Call::of(ISEND_POLLING, 3, 5, 0), 0);
    make(Call::of(SEND, 8, 4, 1), 0);
    state
}

fn with(change: impl FnOnce(&mut State)) -> bool {
    let mut state = sample();
    change(&mut state);
    is_sound(&state)
}

#[test]
fn sound_as_it_is_and_after_harmless_changes() {
    let state = sample();
    assert!(is_sound(&state));
    assert_eq!((state.tasks[18].handed, state.tasks[20].wait.pattern, state.tasks[21].wait.pattern), (5, 11, 0));
    assert_eq!(
        (state.numbers.capacities, state.numbers.taken),
        ([0, 0, 4, 5, 0, 1, 17, 0, 3], [0, 0, 3, 0, 0, 0, 16, 0, 1])
    );
    assert!(with(|s| s.waits[QUEUE_2].places.swap(0, 1)));
    assert!(with(|s| s.waits[QUEUE_3].places.swap(0, 1)));
    for element in [0, 1, 1 << 31, u32::MAX] {
        for t in [19, 20, 21] {
            assert!(with(|s| s.tasks[t].wait.pattern = element)); // a sender waits with any
        }
        assert!(with(|s| s.tasks[18].handed = element));
        assert!(with(|s| s.numbers.elements[2] = [element, element, element, 0, 0, 0, 0, 0, 0, 0, 0, 0, 0, 0, 0, 0]));
        assert!(with(|s| s.numbers.elements[6][15] = element));
    }
    for capacity in 1..=17 {
        assert!(with(|s| s.numbers.capacities[3] = capacity)); // receivers wait whatever the room is
        assert!(with(|s| s.numbers.capacities[7] = capacity)); // created, and nothing else of it
    }
    assert!(with(|s| s.tasks[20].wakeups = 1));
    assert!(with(|s| s.tasks[22].suspended = 1));
}

#[test]
fn numbers_of_a_queue() {
    for capacity in [18, 19, 255, 256, 257, 260, 65_537, 1 << 31, u32::MAX] {
        for q in [3, 7, 8] {
            assert!(!with(|s| s.numbers.capacities[q] = capacity));
        }
    }
    assert!(!with(|s| s.numbers.capacities[8] = 1)); // one element, no room at all
    assert!(with(|s| s.numbers.capacities[8] = 2));
    assert!(!with(|s| s.numbers.capacities[6] = 16));
    assert!(!with(|s| s.numbers.capacities[8] = 0)); // not created, and an element
    assert!(!with(|s| (s.numbers.capacities[8], s.numbers.taken[8]) = (0, 0)));
    assert!(!with(|s| (s.numbers.capacities[8], s.numbers.elements[8][0]) = (0, 0)));
    assert!(with(|s| (s.numbers.capacities[8], s.numbers.taken[8], s.numbers.elements[8][0]) = (0, 0, 0)));
    for q in [2, 3, 5] {
        assert!(!with(|s| {
            (s.numbers.capacities[q], s.numbers.taken[q]) = (0, 0);
            s.numbers.elements[q] = [0; 16];
        })); // waited on, not created
    }
    for taken in [3, 4, 256, 257, 65_537, u32::MAX] {
        assert!(!with(|s| s.numbers.taken[8] = taken)); // above the capacity
    }
    for q in [1, 4, 7] {
        assert!(!with(|s| s.numbers.taken[q] = 1)); // not created
        for place in [0, 15] {
            assert!(!with(|s| s.numbers.elements[q][place] = 1));
        }
    }
    assert!(!with(|s| s.numbers.capacities[0] = 1));
    assert!(!with(|s| s.numbers.taken[0] = 1));
    for place in 0..16 {
        assert!(!with(|s| s.numbers.elements[0][place] = 1 << 31));
    }
}

#[test]
fn places_past_the_last_element_hold_0() {
    for place in 1..16 {
        assert!(!with(|s| s.numbers.elements[8][place] = 1));
        assert!(!with(|s| s.numbers.elements[3][place] = u32::MAX));
        assert!(!with(|s| s.numbers.elements[5][place] = 1));
    }
    for place in 3..16 {
        assert!(!with(|s| s.numbers.elements[2][place] = 1 << 31));
    }
    assert!(with(|s| s.numbers.taken[8] = 2)); // the second is 0
    assert!(!with(|s| s.numbers.taken[8] = 0)); // then the first is past the end
}

#[test]
fn no_receiver_beside_an_element_or_a_sender() {
    assert!(!with(|s| s.numbers.taken[3] = 1)); // an element 0
    assert!(!with(|s| (s.numbers.taken[3], s.numbers.elements[3][0]) = (1, 5)));
    assert!(!with(|s| s.tasks[22].wait.kind = 4)); // 23 receives beside a sender
    assert!(!with(|s| s.tasks[23].wait.kind = 4));
    assert!(!with(|s| {
        s.numbers.capacities[3] = 1;
        s.tasks[23].wait.kind = 4;
    })); // a sender without room, and a receiver
    assert!(!with(|s| s.tasks[20].wait.kind = 5)); // it would have a pattern, too
    assert!(!with(|s| (s.tasks[20].wait.kind, s.tasks[20].wait.pattern) = (5, 0)));
    assert!(!with(|s| s.tasks[21].wait.kind = 5));
    assert!(with(|s| (s.tasks[19].wait.kind, s.tasks[19].wait.pattern) = (5, 0)));
    // alone there it may receive
}

#[test]
fn no_sender_beside_free_room() {
    for capacity in [5, 6, 17] {
        assert!(!with(|s| s.numbers.capacities[2] = capacity));
        assert!(!with(|s| s.numbers.capacities[5] = capacity));
    }
    assert!(!with(|s| (s.numbers.taken[2], s.numbers.elements[2][2]) = (2, 0)));
    assert!(!with(|s| (s.numbers.taken[2], s.numbers.elements[2]) = (0, [0; 16])));
    assert!(with(|s| {
        (s.numbers.capacities[2], s.numbers.taken[2], s.numbers.elements[2][2]) = (3, 2, 0);
    }));
    for t in [22, 23] {
        assert!(!with(|s| {
            (s.tasks[22].wait.kind, s.tasks[23].wait.kind) = (4, 4);
            s.tasks[t].wait.pattern = 1;
        })); // both send, and four places are free
    }
    assert!(with(|s| {
        (s.tasks[22].wait.kind, s.tasks[23].wait.kind) = (4, 4);
        s.numbers.capacities[3] = 1;
    }));
}

#[test]
fn queues_list_exactly_their_waiters_once_each() {
    assert!(!with(|s| s.waits[QUEUE_2].places[1] = 0));
    assert!(!with(|s| s.waits[QUEUE_2].places[1] = 20));
    assert!(!with(|s| s.waits[QUEUE_2].places[2] = 21));
    for other in [1, 18, 19, 22, 24, 25, 255] {
        assert!(!with(|s| s.waits[QUEUE_2].places[2] = other));
    }
    assert!(!with(|s| s.waits[QUEUE_3].places.swap(1, 2))); // a hole
    assert!(!with(|s| s.waits.swap(QUEUE_5, 28))); // in the row of queue 8
    assert!(!with(|s| s.waits.swap(QUEUE_5, 5 + 12))); // in the row of flag 5
    assert!(!with(|s| s.waits.swap(QUEUE_5, 5))); // in the row of semaphore 5
    assert!(!with(|s| s.tasks[19].wait.object = 8));
    for kind in [0, 1, 2, 3, 6, 255] {
        for t in [19, 20, 21, 22, 23] {
            assert!(!with(|s| s.tasks[t].wait.kind = kind), "task {t}, kind {kind}");
        }
    }
    for object in [0, 9, 12, 20, 22, 23, 25, 255] {
        for t in [20, 22] {
            assert!(!with(|s| s.tasks[t].wait.object = object));
        }
    }
}

#[test]
fn records() {
    for t in [19, 20, 21, 22, 23] {
        assert!(!with(|s| s.tasks[t].handed = 1)); // during a wait
        assert!(!with(|s| s.tasks[t].wait.mode = 1));
        assert!(!with(|s| s.tasks[t].wait.remaining = 0));
        assert!(!with(|s| s.tasks[t].code = 10));
    }
    for t in [22, 23] {
        for bit in 0..32 {
            assert!(!with(|s| s.tasks[t].wait.pattern = 1 << bit)); // a receiver has no element
        }
    }
    for t in [0, 1, 18, 24] {
        assert!(!with(|s| s.tasks[t].wait.pattern = 1)); // outside any wait
    }
    for t in [0, 1, 24] {
        assert!(!with(|s| s.tasks[t].handed = 1)); // not created, or dormant
    }
}
