//! Document 01's bench cases, one test each, in its order; case 13 as request P3 has it.
//! The case of 65,535 ticks is run tick by tick.

mod common;
use common::Bench;
use peer::kernel::{Wait, FOREVER};
use peer::services::*;

/// Tasks at a level, each created and made runnable.
fn with_tasks(level: u32, tasks: &[u32]) -> Bench {
    let mut bench = Bench::fresh();
    for &t in tasks {
        assert_eq!(bench.call(CREATE, t, level, 1).0, 0);
    }
    bench
}

#[test]
fn case_1_slices_turn_the_level() {
    let mut bench = with_tasks(6, &[1, 2, 3]);
    assert_eq!(bench.call(TSLICE, 6, 2, 0), (0, 1));
    let running: Vec<u32> = (0..6).map(|_| bench.tick()).collect();
    assert_eq!(running, [1, 2, 2, 3, 3, 1]);
}

#[test]
fn case_2_acquire_with_timeout_1() {
    let mut bench = with_tasks(5, &[1]);
    bench.call(SEM_CREATE, 1, 0, 1);
    assert_eq!(bench.call(ACQUIRE, 1, 1, 0), (1, 0));
    assert_eq!(bench.tick(), 1);
    assert_eq!(bench.code(1), -4);
    assert!(bench.waiters(1).is_empty());
}

#[test]
fn case_3_sleep_1() {
    let mut bench = with_tasks(5, &[1]);
    assert_eq!(bench.call1(SLEEP, 1), (1, 0));
    assert_eq!(bench.tick(), 1);
    assert_eq!(bench.code(1), 0);
}

#[test]
fn case_4_the_endless_timeout() {
    let mut bench = with_tasks(5, &[1]);
    bench.call(SEM_CREATE, 1, 0, 1);
    assert_eq!(bench.call(ACQUIRE, 1, FOREVER, 0), (1, 0));
    assert_eq!(bench.tick(), 0);
    assert_eq!(bench.kernel.tasks[1].remaining, FOREVER);
    assert_eq!(bench.kernel.tasks[1].wait, Wait::Semaphore(1));
}

#[test]
fn case_4_timeout_65535_ends_at_tick_65535() {
    for service in [SLEEP, ACQUIRE] {
        let mut bench = with_tasks(5, &[1]);
        bench.call(SEM_CREATE, 1, 0, 1);
        let answer = if service == SLEEP { bench.call1(SLEEP, 65_535) } else { bench.call(ACQUIRE, 1, 65_535, 0) };
        assert_eq!(answer, (1, 0));
        for tick in 1..65_535 {
            assert_eq!(bench.kernel.call(&Call::of(TICK, 0, 0, 0)).running, 0, "tick {tick}");
        }
        assert_eq!(bench.tick(), 1);
        assert_eq!(bench.kernel.time, 65_535);
        assert_eq!(bench.code(1), if service == SLEEP { 0 } else { -4 });
    }
}

#[test]
fn case_5_a_suspended_waiter_times_out() {
    let mut bench = with_tasks(5, &[1]);
    bench.call(CREATE, 2, 9, 1);
    bench.call(SEM_CREATE, 1, 0, 1);
    assert_eq!(bench.call(ACQUIRE, 1, 1, 0), (1, 2));
    assert_eq!(bench.call1(SUSPEND, 1), (0, 2));
    assert_eq!(bench.tick(), 2);
    assert!(bench.kernel.tasks[1].suspended);
    assert_eq!(bench.kernel.tasks[1].wait, Wait::Nothing);
    assert_eq!(bench.code(1), -4);
    assert_eq!(bench.call1(RESUME, 1), (0, 1));
    assert!(bench.kernel.tasks[1].is_runnable());
}

#[test]
fn case_6_signal_at_the_maximum() {
    let mut bench = Bench::fresh();
    bench.call(SEM_CREATE, 1, 1, 1);
    assert_eq!(bench.call1(SIGNAL, 1), (-1, 0));
    assert_eq!(bench.call1(ISIGNAL, 1), (-1, 0));
}

#[test]
fn case_7_a_semaphore_deleted() {
    let mut bench = with_tasks(5, &[3]);
    bench.call(SEM_CREATE, 1, 0, 1);
    assert_eq!(bench.call(ACQUIRE, 1, FOREVER, 0), (1, 0));
    bench.call(CREATE, 1, 5, 1);
    assert_eq!(bench.call(ACQUIRE, 1, 7, 0), (1, 0));
    assert_eq!(bench.waiters(1), [3, 1]);
    assert_eq!(bench.call1(SEM_DELETE, 1), (0, 3));
    assert_eq!((bench.code(3), bench.code(1)), (-10, -10));
    assert_eq!(bench.level(5), [3, 1]);
}

#[test]
fn case_8_numbers_before_existence() {
    for mut bench in [Bench::fresh(), with_tasks(5, &[1])] {
        assert_eq!(bench.call(ACQUIRE, 13, 1, 0).0, -5);
        assert_eq!(bench.call(ACQUIRE, 2, 0, 0).0, -5);
        assert_eq!(bench.call(ACQUIRE, 2, 1, 0).0, -9);
    }
}

#[test]
fn case_9_time_goes_round() {
    let mut bench = Bench::fresh();
    bench.kernel.time = 4_294_967_295;
    bench.tick();
    assert_eq!(bench.kernel.time, 0);
}

#[test]
fn case_10_two_wakeups_of_an_awake_task() {
    let mut bench = with_tasks(5, &[1]);
    assert_eq!(bench.call1(WAKEUP, 1), (0, 1));
    assert_eq!(bench.call1(WAKEUP, 1), (-1, 1));
    assert_eq!(bench.call1(IWAKEUP, 1), (-1, 1));
    assert_eq!(bench.call1(SLEEP, 9), (0, 1)); // uses the count up
    assert_eq!(bench.call1(SLEEP, 9), (1, 0));
}

#[test]
fn case_11_priorities_at_creation() {
    let mut bench = Bench::fresh();
    assert_eq!(bench.call(CREATE, 1, 0, 0).0, -5);
    assert_eq!(bench.call(CREATE, 1, 31, 0).0, -5);
    assert_eq!(bench.call(CREATE, 1, 1, 0).0, 0);
    assert_eq!(bench.call(CREATE, 2, 30, 0).0, 0);
}

#[test]
fn case_12_timeouts_end_in_ascending_task_number() {
    let mut bench = with_tasks(5, &[9]);
    bench.call1(SLEEP, 2);
    bench.call(CREATE, 4, 5, 1);
    bench.call1(SLEEP, 2);
    assert_eq!(bench.tick(), 0);
    assert_eq!(bench.tick(), 4);
    assert_eq!(bench.level(5), [4, 9]);

    // The same on one semaphore, where 9 stands first.
    let mut bench = with_tasks(5, &[9]);
    bench.call(SEM_CREATE, 12, 0, 65_535);
    bench.call(ACQUIRE, 12, 1, 0);
    bench.call(CREATE, 4, 5, 1);
    bench.call(ACQUIRE, 12, 1, 0);
    assert_eq!(bench.waiters(12), [9, 4]);
    assert_eq!(bench.tick(), 4);
    assert_eq!(bench.level(5), [4, 9]);
    assert_eq!((bench.code(4), bench.code(9)), (-4, -4));
}

#[test]
fn case_13_the_charge_is_the_task_s() {
    let mut bench = with_tasks(6, &[1, 2, 3]);
    bench.call(TSLICE, 6, 3, 0);
    assert_eq!((bench.tick(), bench.tick()), (1, 1));
    assert_eq!(bench.call1(SLEEP, 100), (1, 2));
    assert_eq!([bench.tick(), bench.tick(), bench.tick()], [2, 2, 3]);
}
