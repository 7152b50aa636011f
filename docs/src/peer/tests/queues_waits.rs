//! Data queues: the sentences of request P11, and the rulings, on those who wait to send or to receive, one test each.
//! Most waits end otherwise than by success.

mod common;
use common::Bench;
use peer::kernel::{Wait, FOREVER};
use peer::services::*;

/// One that ends a wait stands in the waiter's record, from any of the three sends; the first of several gets it.
#[test]
fn after_a_wait_it_is_in_the_record() {
    for capacity in [0, 3] {
        let mut bench = Bench::with_queue(capacity, &[4, 2, 3]);
        for _ in 0..3 {
            assert_eq!(bench.call(RECEIVE, 1, FOREVER, 0).0, 1);
        }
        assert_eq!((bench.receivers(1), bench.value), (&[4, 2, 3][..], 0));
        bench.call1(IWAKEUP, 4); // counted: no sleep
        assert_eq!(bench.call(ISEND_POLLING, 1, 91, 0), (0, 4));
        assert_eq!(bench.call(SEND, 1, 92, FOREVER), (0, 4));
        assert_eq!(bench.call(SEND_POLLING, 1, 93, 0), (0, 4));
        assert_eq!([4, 2, 3].map(|t| bench.handed(t)), [91, 92, 93]);
        assert_eq!((bench.level(5), bench.stored(1)), (&[4, 2, 3][..], vec![]));
    }
}

/// Zero capacity: a send waits unless a receiver waits, and a receive unless a sender does.
#[test]
fn zero_capacity_both_ways() {
    let mut bench = Bench::with_queue(0, &[1, 2]);
    assert_eq!(bench.call(SEND, 1, 40, FOREVER), (1, 2));
    assert_eq!(bench.call(RECEIVE, 1, FOREVER, 0), (0, 2));
    assert_eq!((bench.value, bench.code(1)), (40, 0));
    assert_eq!(bench.call(RECEIVE, 1, FOREVER, 0), (1, 1));
    assert_eq!(bench.call(SEND, 1, 41, FOREVER), (0, 1));
    assert_eq!((bench.handed(2), bench.level(5)), (41, &[1, 2][..]));
    assert_eq!(bench.call(SEND_POLLING, 1, 42, 0), (-4, 1));
    assert_eq!(bench.call1(RECEIVE_POLLING, 1), (-4, 1));
    for element in [43, 44] {
        bench.call(SEND, 1, element, FOREVER);
    }
    for element in [43, 44] {
        assert_eq!(bench.call1(IRECEIVE, 1).0, 0); // from the first of them
        assert_eq!(bench.value, element);
    }
}

/// Suspended waiters count on both sides: they are served in their place, and stay suspended.
#[test]
fn ruling_63_suspended_waiters() {
    let mut bench = Bench::with_queue(1, &[1, 2, 3]);
    bench.call(SEND, 1, 1, 1);
    bench.call(SEND, 1, 51, FOREVER);
    bench.call1(SUSPEND, 1);
    assert_eq!(bench.call1(IRECEIVE, 1), (0, 2));
    assert_eq!((bench.value, bench.stored(1), bench.code(1)), (1, vec![51], 0));
    assert!(bench.kernel.tasks[1].suspended && !bench.kernel.tasks[1].is_waiting());
    assert_eq!(bench.polled(1), 51);
    bench.call(RECEIVE, 1, FOREVER, 0);
    bench.call1(SUSPEND, 2);
    assert_eq!(bench.call(SEND, 1, 52, 1), (0, 3));
    assert_eq!((bench.handed(2), bench.stored(1)), (52, vec![]));
    assert_eq!(bench.call1(RESUME, 2), (0, 3));
    assert_eq!((bench.level(5), bench.handed(2)), (&[3, 2][..], 52));
}

/// Save those in a deleted queue: they are gone, and all waiters end with -10, in queue order.
#[test]
fn ruling_64_deletion() {
    let mut bench = Bench::with_queue(2, &[3, 1, 2]);
    for element in [30, 31] {
        bench.call(SEND, 1, element, 1);
    }
    for element in [32, 33] {
        bench.call(SEND, 1, element, FOREVER);
    }
    bench.call1(SUSPEND, 1);
    assert_eq!(bench.call1(QUEUE_DELETE, 1), (0, 2));
    assert_eq!((bench.code(3), bench.code(1), bench.level(5)), (-10, -10, &[2, 3][..]));
    assert!(bench.kernel.tasks[1].suspended && !bench.kernel.tasks[1].is_waiting());
    assert_eq!(bench.call(SEND, 1, 1, 1).0, -9);
    assert_eq!(bench.call(QUEUE_CREATE, 1, 2, 0), (0, 2));
    assert_eq!(bench.call1(RECEIVE_POLLING, 1).0, -4);
    bench.call(RECEIVE, 1, FOREVER, 0);
    bench.call(RECEIVE, 1, 5, 0);
    assert_eq!(bench.receivers(1), [2, 3]);
    assert_eq!(bench.call1(QUEUE_DELETE, 1), (0, 2));
    assert_eq!((bench.code(2), bench.code(3), bench.handed(3)), (-10, -10, 0));
}

/// Save those of senders whose wait ended without success: by timeout in the middle, by release, by termination.
#[test]
fn ruling_65_who_waits_in_vain_takes_the_element_back() {
    let mut bench = Bench::with_queue(1, &[1, 2, 3, 4, 5]);
    bench.call(SEND, 1, 20, 1);
    for (element, timeout) in [(21, FOREVER), (22, 1), (23, FOREVER), (24, 9), (25, 9)] {
        assert_eq!(bench.call(SEND, 1, element, timeout).0, 1);
    }
    assert_eq!(bench.tick(), 2);
    assert_eq!((bench.senders(1), bench.code(2), bench.handed(2)), (&[1, 3, 4, 5][..], -4, 0));
    assert_eq!(bench.call1(RELEASE_WAIT, 4), (0, 2));
    assert_eq!(bench.code(4), -11);
    bench.call1(ACTIVATE, 1);
    assert_eq!(bench.call1(TERMINATE, 1), (0, 2)); // it begins anew, as if it had been served
    assert_eq!(bench.kernel.tasks[4].wait, Wait::Nothing);
    for element in [20, 23, 25] {
        assert_eq!(bench.polled(1), element);
    }
    assert_eq!(bench.call1(RECEIVE_POLLING, 1).0, -4);
}

/// How long an element stands in a record: until the next wait, a sleep too, or dormancy.
#[test]
fn ruling_35_37_and_38_the_record() {
    let mut bench = Bench::with_queue(0, &[1]);
    let served = |bench: &mut Bench| {
        assert_eq!(bench.call(RECEIVE, 1, 2, 0).0, 1);
        assert_eq!(bench.handed(1), 0); // during the wait
        bench.call(ISEND_POLLING, 1, 60, 0);
        assert_eq!(bench.handed(1), 60);
    };
    served(&mut bench);
    bench.call1(SLEEP, 1);
    assert_eq!(bench.handed(1), 0);
    bench.tick();
    assert_eq!((bench.handed(1), bench.code(1)), (0, 0));
    served(&mut bench);
    bench.call(RECEIVE, 1, 1, 0);
    bench.tick();
    assert_eq!((bench.handed(1), bench.code(1)), (0, -4));
    served(&mut bench);
    bench.call(SEND, 1, 61, 1); // another's element is no news for a sender
    assert_eq!((bench.handed(1), bench.kernel.tasks[1].wait), (0, Wait::Send(1, 61)));
    bench.tick();
    assert_eq!((bench.handed(1), bench.code(1)), (0, -4));
    served(&mut bench);
    bench.call1(ACTIVATE, 1);
    bench.call1(EXIT, 0);
    assert_eq!((bench.handed(1), bench.kernel.running()), (0, 1));
}
