//! Corner cases of the calls, one test each, and the vectors V1, V6, V7, V9, V14 and V15, the last as request P3 has it.
//! Refusals name the code and show by the bench that nothing has changed.

mod common;
use common::Bench;
use peer::kernel::{Wait, FOREVER};
use peer::services::*;

fn made(calls: &[(u32, u32, u32, u32)]) -> Bench {
    let mut bench = Bench::fresh();
    for &(service, a, b, c) in calls {
        assert!(bench.call(service, a, b, c).0 >= 0, "{}", Call::of(service, a, b, c));
    }
    bench
}

#[test]
fn vector_1_charge_and_turn_come_before_timeouts() {
    let mut bench =
        made(&[(TSLICE, 6, 1, 0), (CREATE, 3, 6, 1), (SLEEP, 1, 0, 0), (CREATE, 1, 6, 1), (CREATE, 2, 6, 1)]);
    assert_eq!(bench.tick(), 2);
    assert_eq!(bench.level(6), [2, 1, 3]);
}

#[test]
fn vector_6_terminated_waiter_with_activation_count() {
    let mut bench = made(&[(SEM_CREATE, 1, 0, 1), (CREATE, 1, 5, 1), (ACQUIRE, 1, FOREVER, 0), (CREATE, 2, 6, 1)]);
    assert_eq!(bench.call1(ACTIVATE, 1), (0, 2));
    assert_eq!(bench.call1(TERMINATE, 1), (0, 1));
    assert!(bench.kernel.tasks[1].is_runnable());
    assert_eq!((bench.code(1), bench.kernel.tasks[1].activations), (0, 0));
    assert!(bench.waiters(1).is_empty());
}

#[test]
fn vector_7_exit_restores_the_creation_priority() {
    let mut bench = made(&[(CREATE, 1, 5, 1), (CREATE, 2, 5, 1), (ACTIVATE, 1, 0, 0), (CHANGE_PRIORITY, 1, 3, 0)]);
    assert_eq!(bench.call1(EXIT, 0), (0, 2));
    assert_eq!(bench.level(5), [2, 1]);
    assert_eq!(bench.kernel.tasks[1].priority, 5);
}

#[test]
fn vector_9_start_up_code_may_poll() {
    let mut bench = made(&[(SEM_CREATE, 1, 1, 1)]);
    assert_eq!(bench.call1(POLLING, 1), (0, 0));
    assert_eq!(bench.call1(POLLING, 1), (-4, 0));
    assert_eq!(bench.call1(IPOLLING, 1), (-4, 0));
}

#[test]
fn vector_14_a_suspended_first_waiter_is_served() {
    let mut bench = made(&[(SEM_CREATE, 1, 0, 1), (CREATE, 1, 5, 1), (ACQUIRE, 1, 9, 0), (CREATE, 2, 5, 1)]);
    bench.call(ACQUIRE, 1, 9, 0);
    assert_eq!(bench.call1(SUSPEND, 1), (0, 0));
    assert_eq!(bench.call1(SIGNAL, 1), (0, 0));
    let first = bench.kernel.tasks[1];
    assert!(first.suspended && first.wait == Wait::Nothing && first.wait_code == 0 && first.remaining == 0);
    assert_eq!(bench.waiters(1), [2]);
    assert_eq!(bench.kernel.semaphores[1].count, 0);
}

#[test]
fn vector_15_an_empty_level_has_no_charge() {
    let mut bench = made(&[(TSLICE, 6, 3, 0), (CREATE, 1, 6, 1)]);
    bench.tick();
    bench.tick();
    assert_eq!(bench.charge(1), 2);
    bench.call1(SLEEP, 50);
    assert_eq!(bench.charge(1), 0);
    bench.call(CREATE, 2, 6, 1);
    bench.call(CREATE, 3, 6, 1);
    assert_eq!([bench.tick(), bench.tick(), bench.tick()], [2, 2, 3]);
    assert_eq!(bench.level(6), [3, 2]);
}

#[test]
fn ruling_1_order_of_tests() {
    let mut bench = Bench::fresh();
    assert_eq!(bench.wrongly(SLEEP, 0, 0, 0).0, -5);
    assert_eq!(bench.call1(SLEEP, 0).0, -5);
    assert_eq!(bench.call(ACQUIRE, 3, 1, 0).0, -9);
    bench.call(CREATE, 1, 5, 0);
    assert_eq!(bench.wrongly(CREATE, 1, 5, 0).0, -5);
    assert_eq!(bench.wrongly(CREATE, 2, 5, 0).0, -2);
    assert_eq!(bench.wrongly(DELETE, 2, 0, 0).0, -9);
    assert_eq!(bench.wrongly(CHANGE_PRIORITY, 2, 31, 0).0, -5);
    assert_eq!(bench.wrongly(SUSPEND, 1, 0, 0).0, -2); // before its own test, -3
    assert_eq!(bench.call1(SUSPEND, 1).0, -3);
    bench.call(SEM_CREATE, 1, 0, 1);
    assert_eq!(bench.wrongly(SEM_CREATE, 1, 0, 1).0, -5);
    assert_eq!(bench.wrongly(POLLING, 1, 0, 0).0, -2); // before its own test, -4
}

#[test]
fn ruling_2_what_start_up_code_may_not_do() {
    let mut bench =
        made(&[(SEM_CREATE, 1, 1, 1), (QUEUE_CREATE, 1, 1, 0), (CREATE, 1, 5, 1), (SEND, 1, 7, 1), (SLEEP, 9, 0, 0)]);
    for (service, a, b) in [(EXIT, 0, 0), (SLEEP, 1, 0), (ACQUIRE, 1, 1), (RECEIVE, 1, 1)] {
        assert_eq!(bench.call(service, a, b, 0), (-2, 0));
    }
    assert_eq!(bench.call1(RECEIVE_POLLING, 1), (0, 0));
    assert_eq!(bench.call(SEND, 1, 8, 1), (-2, 0)); // though there is room now
    for (service, a, b) in [(SUSPEND, 1, 0), (CHANGE_PRIORITY, 1, 7), (RESUME, 1, 0), (TERMINATE, 1, 0), (DELETE, 1, 0)]
    {
        assert_eq!(bench.call(service, a, b, 0), (0, 0));
    }
}

#[test]
fn every_service_minds_its_context() {
    let mut bench = made(&[(SEM_CREATE, 1, 1, 2), (EVENT_CREATE, 1, 0, 0), (QUEUE_CREATE, 1, 2, 0), (CREATE, 1, 5, 1)]);
    for service in CREATE..=LAST {
        let (a, b, c) = match service {
            CREATE => (2, 5, 1),
            SEM_CREATE | EVENT_CREATE | QUEUE_CREATE => (2, 0, 1),
            _ => (1, 1, 1),
        };
        assert_eq!(bench.wrongly(service, a, b, c), (-2, 1), "{}", Call::of(service, a, b, c));
    }
}

#[test]
fn unknown_contexts_and_services_are_wrong_numbers() {
    let mut bench = made(&[(CREATE, 1, 5, 1)]);
    for (context, service) in [(2, TICK), (u32::MAX, EXIT), (T, 0), (I, LAST + 1), (T, u32::MAX), (2, 0)] {
        assert_eq!(bench.make(Call { context, service, a: 1, b: 1, c: 1, d: 1 }), (-5, 1));
    }
}

#[test]
fn ruling_10_and_11_suspension() {
    let mut bench = made(&[(CREATE, 2, 9, 1), (CREATE, 1, 5, 1), (SLEEP, 3, 0, 0), (SUSPEND, 1, 0, 0)]);
    assert_eq!(bench.call1(SUSPEND, 1), (-1, 2));
    bench.tick();
    assert_eq!(bench.call1(RESUME, 1), (0, 2)); // waits on
    assert_eq!(bench.kernel.tasks[1].remaining, 2);
    assert_eq!(bench.call1(RESUME, 1), (-3, 2));
    bench.call(CREATE, 3, 9, 0);
    assert_eq!((bench.call1(RESUME, 3).0, bench.call1(SUSPEND, 3).0), (-3, -3));
    assert_eq!((bench.call1(RESUME, 4).0, bench.call1(SUSPEND, 4).0), (-9, -9));
    assert_eq!(bench.call1(SUSPEND, 2), (0, 0)); // oneself
}

#[test]
fn ruling_13_deletion_with_a_suspended_waiter() {
    let mut bench = made(&[(SEM_CREATE, 1, 0, 1)]);
    for t in [3, 1, 2] {
        bench.call(CREATE, t, 5, 1);
        bench.call(ACQUIRE, 1, 9, 0);
    }
    bench.call1(SUSPEND, 1);
    assert_eq!(bench.call1(SEM_DELETE, 1), (0, 3));
    assert_eq!(bench.level(5), [3, 2]);
    assert!(bench.kernel.tasks[1].suspended);
    assert_eq!(bench.code(1), -10);
    assert_eq!(bench.call1(SIGNAL, 1).0, -9);
}

#[test]
fn ruling_14_wakeups_of_others_than_sleepers() {
    let mut bench = made(&[(SEM_CREATE, 1, 0, 1), (CREATE, 1, 5, 1), (ACQUIRE, 1, 9, 0), (CREATE, 2, 6, 1)]);
    assert_eq!(bench.call1(WAKEUP, 1), (0, 2)); // waits on the semaphore: counted
    assert_eq!(bench.call1(IWAKEUP, 1), (-1, 2));
    assert_eq!(bench.call1(IRELEASE_WAIT, 1), (0, 1));
    assert_eq!((bench.code(1), bench.kernel.tasks[1].wakeups), (-11, 1)); // ruling 15: the count stays
    assert_eq!(bench.call1(SLEEP, 5), (0, 1)); // served at once: the code stays
    assert_eq!(bench.code(1), -11);
    assert_eq!(bench.call1(SLEEP, 5), (1, 2)); // a wait begins: 0
    assert_eq!(bench.code(1), 0);
    bench.call1(SUSPEND, 1);
    assert_eq!(bench.call1(WAKEUP, 1), (0, 2)); // a suspended sleeper is suspended only
    assert_eq!(bench.kernel.tasks[1].wait, Wait::Nothing);
    assert_eq!(bench.call1(RELEASE_WAIT, 1), (-2, 2));
    bench.call(CREATE, 3, 9, 0);
    assert_eq!((bench.call1(WAKEUP, 3).0, bench.call1(RELEASE_WAIT, 3).0), (-2, -2));
}

#[test]
fn ruling_16_to_20_dormancy_and_activation() {
    let mut bench =
        made(&[(SEM_CREATE, 1, 0, 1), (CREATE, 1, 5, 1), (WAKEUP, 1, 0, 0), (ACQUIRE, 1, 9, 0), (CREATE, 2, 6, 1)]);
    for (service, a, b) in [(SUSPEND, 1, 0), (ACTIVATE, 1, 0), (CHANGE_PRIORITY, 1, 9)] {
        assert_eq!(bench.call(service, a, b, 0), (0, 2));
    }
    assert_eq!(bench.call1(IACTIVATE, 1), (-1, 2));
    assert_eq!(bench.call1(TERMINATE, 1), (0, 1)); // runnable in its creation level
    let task = bench.kernel.tasks[1];
    assert!(task.is_runnable() && task.wakeups == 0 && task.priority == 5);
    assert_eq!(bench.call1(TERMINATE, 1), (-2, 1)); // the caller
    assert_eq!(bench.call1(EXIT, 0), (0, 2));
    assert_eq!(bench.call1(TERMINATE, 1), (-2, 2)); // dormant
    bench.call1(ACTIVATE, 2);
    assert_eq!(bench.call1(EXIT, 0), (0, 2)); // ruling 19: alone in its level, runs on
    assert_eq!(bench.call1(DELETE, 2), (-2, 2)); // ruling 26
    assert_eq!(bench.call(CREATE, 3, 5, 2).0, -5); // ruling 20
}

#[test]
fn ruling_21_to_25_priorities_and_places() {
    let mut bench = made(&[(CREATE, 1, 5, 1), (CREATE, 2, 5, 1), (CREATE, 3, 7, 1)]);
    assert_eq!(bench.call(CHANGE_PRIORITY, 1, 5, 0), (0, 1));
    assert_eq!(bench.call(CHANGE_PRIORITY, 1, 0, 0), (0, 1));
    assert_eq!(bench.level(5), [1, 2]); // equal: nothing
    assert_eq!(bench.call(CHANGE_PRIORITY, 1, 3, 0), (0, 1)); // still running
    assert_eq!(bench.call(CHANGE_PRIORITY, 1, 7, 0), (0, 2));
    assert_eq!(bench.level(7), [3, 1]);
    assert_eq!(bench.call(CHANGE_PRIORITY, 1, 0, 0), (0, 2));
    assert_eq!(bench.level(5), [2, 1]);
    bench.call(CREATE, 4, 2, 1); // preempts 2, which keeps its place
    bench.call1(EXIT, 0);
    assert_eq!(bench.level(5), [2, 1]);
    bench.call1(SUSPEND, 2);
    bench.call1(RESUME, 2);
    assert_eq!(bench.level(5), [1, 2]); // ruling 25: returns last
    assert_eq!(bench.call(CHANGE_PRIORITY, 4, 9, 0).0, -2); // dormant
    assert_eq!(bench.call(CHANGE_PRIORITY, 1, 31, 0).0, -5);
}

#[test]
fn ruling_21_waiting_and_suspended_tasks_keep_their_place() {
    let mut bench = made(&[(SEM_CREATE, 1, 0, 1)]);
    for t in [1, 2] {
        bench.call(CREATE, t, 5, 1);
        bench.call(ACQUIRE, 1, 9, 0);
    }
    bench.call(CHANGE_PRIORITY, 2, 1, 0);
    assert_eq!(bench.waiters(1), [1, 2]);
    assert_eq!(bench.call1(ISIGNAL, 1), (0, 1));
    assert_eq!(bench.call1(SIGNAL, 1), (0, 2)); // enters its new level
    assert_eq!(bench.level(1), [2]);
}

#[test]
fn ruling_28_to_31_charges() {
    let mut bench = Bench::fresh();
    assert_eq!(bench.wrongly(TICK, 0, 0, 0), (-2, 0));
    assert_eq!(bench.tick(), 0);
    assert_eq!(bench.kernel.time, 1);
    for (level, slice, code) in [(0, 1, -5), (31, 1, -5), (1, 1001, -5), (1, 1000, 0), (30, 0, 0)] {
        assert_eq!(bench.call(TSLICE, level, slice, 0).0, code);
    }
    bench.call(TSLICE, 6, 3, 0);
    bench.call(CREATE, 1, 6, 1);
    bench.tick();
    bench.tick();
    bench.call(CREATE, 2, 4, 1); // takes over; 1 keeps its charge, and 2 gets none without a slice
    bench.tick();
    assert_eq!((bench.charge(1), bench.charge(2)), (2, 0));
    bench.call(CHANGE_PRIORITY, 2, 8, 0);
    bench.tick(); // alone in its level: back to 0 without a move
    assert_eq!((bench.charge(1), bench.level(6)), (0, &[1][..]));
    bench.tick();
    assert_eq!(bench.charge(1), 1);
    bench.call(TSLICE, 6, 3, 0); // the same slice again clears the charge
    assert_eq!(bench.charge(1), 0);
    bench.tick();
    bench.call(CHANGE_PRIORITY, 1, 7, 0); // in the middle of its slice
    assert_eq!((bench.charge(1), bench.level(7)), (0, &[1][..]));
}

#[test]
fn semaphore_numbers() {
    let mut bench = Bench::fresh();
    for (s, start, maximum, code) in [
        (0, 0, 1, -5),
        (13, 0, 1, -5),
        (1, 0, 0, -5),
        (1, 2, 1, -5),
        (1, 0, 65_536, -5),
        (1, 65_536, 65_536, -5),
        (1, 65_535, 65_535, 0),
        (1, 0, 1, -5),
        (12, 0, 1, 0),
    ] {
        assert_eq!(bench.call(SEM_CREATE, s, start, maximum).0, code, "{s} {start} {maximum}");
    }
}
