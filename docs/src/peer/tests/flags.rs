//! Event flags: request P1 and the rulings on it, one test each, and the vector V11.
//! Refusals name the code and show by the bench that nothing has changed.

mod common;
use common::Bench;
use peer::kernel::{Wait, FOREVER};
use peer::services::*;

const OR: u32 = 0;
const AND: u32 = 1;
const SINGLE: u32 = 1;
const BOTH: u32 = 3;

/// Flag 1 with these attributes and bits, and tasks at level 5.
fn with_flag(attributes: u32, bits: u32, tasks: &[u32]) -> Bench {
    let mut bench = Bench::fresh();
    assert_eq!(bench.call(EVENT_CREATE, 1, attributes, bits), (0, 0));
    for &t in tasks {
        assert_eq!(bench.call(CREATE, t, 5, 1).0, 0);
    }
    bench
}

#[test]
fn vector_11_single_and_clr() {
    let mut bench = with_flag(BOTH, 0, &[1]);
    assert_eq!(bench.wait(1, 6, AND, FOREVER), (1, 0));
    assert_eq!(bench.call(ISET, 1, 2, 0), (0, 0));
    assert_eq!((bench.bits(1), bench.flag_waiters(1)), (2, &[1][..]));
    assert_eq!(bench.call(EVENT_IWAIT, 1, 2, OR), (-8, 0)); // though it is met
    assert_eq!(bench.call(SET, 1, 13, 0), (0, 1));
    assert_eq!((bench.handed(1), bench.code(1), bench.bits(1)), (15, 0, 0));
}

#[test]
fn numbers_of_a_creation() {
    let mut bench = Bench::fresh();
    for (flag, attributes, bits, code) in [
        (0, 0, 0, -5),
        (9, 0, 0, -5),
        (1, 2, 0, -5), // CLR without SINGLE
        (1, 4, 0, -5),
        (1, u32::MAX, 0, -5),
        (1, 0, 0, 0), // start bits may be 0
        (1, 0, 0, -5),
        (2, SINGLE, u32::MAX, 0),
        (8, BOTH, 1, 0),
    ] {
        assert_eq!(bench.call(EVENT_CREATE, flag, attributes, bits).0, code, "{flag} {attributes} {bits}");
    }
    assert_eq!((bench.bits(2), bench.bits(8)), (u32::MAX, 1));
}

#[test]
fn ruling_40_pattern_0_and_modes() {
    let mut bench = with_flag(0, u32::MAX, &[1]);
    for service in [SET, ISET, CLEAR, ICLEAR, EVENT_POLLING, EVENT_IWAIT] {
        assert_eq!(bench.call(service, 1, 0, 0).0, -5);
        assert_eq!(bench.call(service, 2, 0, 0).0, -5); // before existence
        assert_eq!(bench.call(service, 2, 1, 0).0, -9);
        assert_eq!(bench.call(service, 9, 1, 0).0, -5);
    }
    for (pattern, mode, timeout) in [(0, 0, 1), (1, 2, 1), (1, 0, 0), (1, u32::MAX, 1)] {
        assert_eq!(bench.wait(1, pattern, mode, timeout).0, -5);
        assert_eq!(bench.wait(2, pattern, mode, timeout).0, -5);
    }
    assert_eq!(bench.wait(2, 1, 0, 1).0, -9);
    assert_eq!(bench.call(EVENT_POLLING, 1, 1, 2).0, -5);
    assert_eq!(bench.call1(EVENT_DELETE, 2).0, -9);
    assert_eq!(bench.call1(EVENT_DELETE, 9).0, -5);
}

#[test]
fn ruling_39_a_clear_takes_its_bits_out() {
    let mut bench = with_flag(0, 15, &[1]);
    assert_eq!(bench.call(CLEAR, 1, 5, 0), (0, 1));
    assert_eq!(bench.bits(1), 10);
    assert_eq!(bench.call(ICLEAR, 1, u32::MAX, 0), (0, 1));
    assert_eq!(bench.bits(1), 0);
    assert_eq!(bench.call(CLEAR, 1, 7, 0), (0, 1));
}

#[test]
fn ruling_41_a_set_that_meets_nobody_keeps_its_bits() {
    let mut bench = with_flag(BOTH, 0, &[]);
    bench.call(SET, 1, 4, 0);
    bench.call(ISET, 1, 1, 0);
    assert_eq!(bench.bits(1), 5);
    assert_eq!(bench.call(EVENT_POLLING, 1, 2, OR).0, -4);
    assert_eq!(bench.bits(1), 5);
    assert_eq!(bench.call(EVENT_POLLING, 1, 3, OR), (0, 0)); // by start-up code, too
    assert_eq!((bench.value, bench.bits(1)), (5, 0));
}

#[test]
fn ruling_42_and_44_all_that_are_met_in_queue_order() {
    let mut bench = Bench::fresh();
    bench.call(EVENT_CREATE, 1, 0, 8);
    for (t, pattern, mode) in [(4, 1, OR), (2, 6, AND), (3, 3, AND), (1, 7, OR)] {
        bench.call(CREATE, t, 5, 1);
        assert_eq!(bench.wait(1, pattern, mode, 9), (1, 0));
    }
    assert_eq!(bench.flag_waiters(1), [4, 2, 3, 1]);
    assert_eq!(bench.call(SET, 1, 3, 0), (0, 4));
    assert_eq!(bench.level(5), [4, 3, 1]);
    assert_eq!(bench.flag_waiters(1), [2]);
    for t in [4, 3, 1] {
        assert_eq!((bench.handed(t), bench.code(t)), (11, 0)); // all bits, not the matching ones
    }
    assert_eq!((bench.handed(2), bench.bits(1)), (0, 11));
    assert_eq!(bench.call(ISET, 1, 4, 0), (0, 4));
    assert_eq!((bench.handed(2), bench.flag_waiters(1).len()), (15, 0));
}

#[test]
fn ruling_43_a_second_waiter_on_single() {
    for (attributes, left) in [(SINGLE, 3), (BOTH, 0)] {
        let mut bench = with_flag(attributes, 2, &[1]);
        bench.wait(1, 1, OR, 9);
        bench.call(CREATE, 2, 5, 1);
        bench.call1(SUSPEND, 1); // a suspended waiter counts
        for (pattern, mode) in [(2, OR), (4, AND)] {
            assert_eq!(bench.wait(1, pattern, mode, 1), (-8, 2));
            assert_eq!(bench.call(EVENT_POLLING, 1, pattern, mode), (-8, 2));
            assert_eq!(bench.call(EVENT_IWAIT, 1, pattern, mode), (-8, 2));
            assert_eq!(bench.wrongly(EVENT_WAIT, 1, pattern, mode).0, -2);
            assert_eq!(bench.wrongly(EVENT_POLLING, 1, pattern, mode).0, -2);
        }
        assert_eq!(bench.call(SET, 1, 1, 0), (0, 2));
        assert!(bench.kernel.tasks[1].suspended && !bench.kernel.tasks[1].is_waiting());
        assert_eq!((bench.handed(1), bench.bits(1)), (3, left));
        assert_eq!(bench.call1(RESUME, 1), (0, 2));
        assert_eq!(bench.level(5), [2, 1]);
    }
}

#[test]
fn a_wait_that_is_met_at_once() {
    for (attributes, left) in [(0, 6), (SINGLE, 6), (BOTH, 0)] {
        let mut bench = with_flag(attributes, 6, &[1]);
        assert_eq!(bench.wait(1, 7, AND, 5).0, 1);
        bench.call1(IRELEASE_WAIT, 1);
        assert_eq!(bench.code(1), -11);
        assert_eq!(bench.wait(1, 3, OR, 5), (0, 1));
        assert_eq!((bench.value, bench.bits(1)), (6, left));
        assert_eq!((bench.code(1), bench.handed(1)), (-11, 0)); // served at once: the record stays
    }
}

#[test]
fn start_up_code_may_poll_but_not_wait() {
    let mut bench = with_flag(0, 1, &[]);
    assert_eq!(bench.wait(1, 1, OR, 1), (-2, 0));
    assert_eq!(bench.call(EVENT_POLLING, 1, 1, OR), (0, 0));
    assert_eq!(bench.call(EVENT_IWAIT, 1, 1, AND), (0, 0));
    let mut bench = with_flag(SINGLE, 0, &[1]);
    bench.wait(1, 1, OR, 1);
    assert_eq!(bench.wait(1, 1, OR, 1), (-2, 0)); // the context before SINGLE
}

#[test]
fn timeouts_releases_and_deletion_hand_nothing_over() {
    let mut bench = with_flag(0, 2, &[3]);
    bench.wait(1, 5, AND, 1);
    bench.call(CREATE, 1, 5, 1);
    bench.wait(1, 4, OR, FOREVER);
    bench.call(CREATE, 2, 5, 1);
    bench.wait(1, 8, OR, 65_535);
    assert_eq!(bench.tick(), 3);
    assert_eq!((bench.code(3), bench.handed(3), bench.flag_waiters(1)), (-4, 0, &[1, 2][..]));
    assert_eq!(bench.call1(RELEASE_WAIT, 1), (0, 3));
    assert_eq!((bench.code(1), bench.handed(1)), (-11, 0));
    bench.wait(1, 4, OR, 9);
    assert_eq!(bench.flag_waiters(1), [2, 3]);
    bench.call1(SUSPEND, 2);
    assert_eq!(bench.call1(EVENT_DELETE, 1), (0, 1));
    assert_eq!((bench.code(2), bench.code(3), bench.level(5)), (-10, -10, &[1, 3][..]));
    assert_eq!(bench.kernel.tasks[2].wait, Wait::Nothing);
    assert_eq!(bench.call(SET, 1, 1, 0).0, -9);
    assert_eq!(bench.call(EVENT_CREATE, 1, 0, 0).0, 0);
}

#[test]
fn ruling_35_and_37_how_long_bits_stay_in_a_record() {
    let mut bench = with_flag(0, 0, &[1]);
    bench.call(SEM_CREATE, 1, 1, 1);
    bench.wait(1, 1, OR, 9);
    bench.call(ISET, 1, 5, 0);
    assert_eq!(bench.handed(1), 5);
    bench.call(ACQUIRE, 1, 1, 0); // served at once
    bench.wait(1, 4, OR, 1);
    assert_eq!(bench.handed(1), 5);
    bench.call1(SLEEP, 1); // any wait begins
    assert_eq!(bench.handed(1), 0);
    bench.tick();
    assert_eq!(bench.handed(1), 0);
    bench.call(CLEAR, 1, 5, 0);
    bench.wait(1, 1, OR, 9);
    bench.call(ISET, 1, 1, 0);
    bench.call1(ACTIVATE, 1);
    bench.call1(EXIT, 0); // dormancy
    assert_eq!((bench.handed(1), bench.kernel.running()), (0, 1));
}

#[test]
fn ruling_46_a_clear_makes_nobody_met() {
    let mut bench = with_flag(0, 6, &[1]);
    bench.wait(1, 7, AND, 9);
    assert_eq!(bench.call(CLEAR, 1, 6, 0), (0, 0));
    assert_eq!(bench.call(ISET, 1, 1, 0), (0, 0));
    assert_eq!(bench.call(ISET, 1, 6, 0), (0, 1));
}

#[test]
fn a_terminated_waiter_leaves_the_flag_s_queue() {
    let mut bench = with_flag(SINGLE, 0, &[1]);
    bench.wait(1, 1, OR, 9);
    bench.call(CREATE, 2, 6, 1);
    bench.call1(ACTIVATE, 1);
    assert_eq!(bench.call1(TERMINATE, 1), (0, 1));
    assert!(bench.flag_waiters(1).is_empty());
    assert_eq!(bench.wait(1, 1, OR, 9), (1, 2));
}
