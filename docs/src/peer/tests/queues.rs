//! Data queues: the sentences of request P11 on creation, elements, order and refusals, one test each, and the vectors V12 and V13.
//! Refusals name the code and show by the bench that nothing has changed.

mod common;
use common::Bench;
use peer::kernel::FOREVER;
use peer::services::*;

#[test]
fn vector_12_a_poll_takes_from_a_waiting_sender() {
    let mut bench = Bench::with_queue(0, &[1]);
    assert_eq!(bench.call(SEND, 1, 77, FOREVER), (1, 0));
    assert_eq!(bench.senders(1), [1]);
    assert_eq!(bench.call1(RECEIVE_POLLING, 1), (0, 1)); // by start-up code
    assert_eq!((bench.value, bench.code(1), bench.handed(1)), (77, 0, 0));
    assert!(bench.stored(1).is_empty() && bench.senders(1).is_empty());
}

#[test]
fn vector_13_a_receive_lets_the_first_sender_in() {
    let mut bench = Bench::with_queue(1, &[1]);
    assert_eq!(bench.call(SEND, 1, 7, FOREVER), (0, 1));
    assert_eq!(bench.call(SEND, 1, 8, FOREVER), (1, 0));
    assert_eq!(bench.call1(IRECEIVE, 1), (0, 1));
    assert_eq!((bench.value, bench.stored(1), bench.code(1)), (7, vec![8], 0));
}

/// Eight queues, capacity 0 to 16; above 16 gives -5.
#[test]
fn numbers_of_a_creation() {
    let mut bench = Bench::fresh();
    for (queue, capacity, code) in [
        (0, 0, -5),
        (9, 0, -5),
        (1, 17, -5),
        (1, 256, -5),
        (1, u32::MAX, -5),
        (1, 0, 0),
        (1, 0, -5), // it exists
        (1, 17, -5),
        (2, 16, 0),
        (8, 1, 0),
    ] {
        assert_eq!(bench.call(QUEUE_CREATE, queue, capacity, 0).0, code, "{queue} {capacity}");
    }
    for service in [SEND, SEND_POLLING, RECEIVE, RECEIVE_POLLING, QUEUE_DELETE] {
        for (queue, code) in [(0, -5), (9, -5), (u32::MAX, -5), (3, -9)] {
            assert_eq!(bench.call(service, queue, 1, 1).0, code, "{service} {queue}");
            assert_eq!(bench.wrongly(service, queue, 1, 1).0, code);
        }
    }
}

/// Elements have 32 bits, and any of them is one, 0 too.
#[test]
fn every_element_is_allowed() {
    let mut bench = Bench::with_queue(4, &[1]);
    for element in [0, 1, 0x8000_0000, u32::MAX] {
        assert_eq!(bench.call(SEND, 1, element, 1), (0, 1));
    }
    for element in [0, 1, 0x8000_0000, u32::MAX] {
        assert_eq!(bench.polled(1), element);
    }
    assert_eq!(bench.call1(RECEIVE_POLLING, 1).0, -4); // an element 0 is no empty place
    bench.call(RECEIVE, 1, 9, 0);
    assert_eq!(bench.call(ISEND_POLLING, 1, 0, 0), (0, 1));
    assert_eq!((bench.code(1), bench.handed(1)), (0, 0));
}

/// Capacity is exact: so many elements go in, and no more.
#[test]
fn ruling_62_capacity_is_exact() {
    for capacity in 0..=16 {
        let mut bench = Bench::with_queue(capacity, &[1]);
        for element in 0..capacity {
            assert_eq!(bench.call(SEND_POLLING, 1, 100 + element, 0), (0, 1));
        }
        assert_eq!(bench.call(SEND_POLLING, 1, 1, 0), (-4, 1));
        assert_eq!(bench.call(ISEND_POLLING, 1, 1, 0), (-4, 1));
        assert_eq!(bench.call(SEND, 1, 200, 3), (1, 0));
        for element in 0..capacity {
            assert_eq!(bench.call1(IRECEIVE, 1).0, 0);
            assert_eq!(bench.value, 100 + element);
        }
        assert_eq!(bench.polled(1), 200);
        assert_eq!(bench.call1(IRECEIVE, 1).0, -4);
    }
}

/// Tests in their order: numbers, existence, context, who runs, and last the queue itself.
#[test]
fn refusals_in_their_order() {
    let mut bench = Bench::with_queue(1, &[]);
    for (service, a, b, c, code) in [
        (SEND, 1, 5, 0, -5), // timeout 0
        (SEND, 3, 5, 0, -5),
        (RECEIVE, 1, 0, 0, -5),
        (RECEIVE, 3, 0, 0, -5),
        (SEND, 3, 5, 1, -9),
        (RECEIVE, 3, 1, 0, -9),
        (SEND, 1, 5, 1, -2), // nobody runs, though there is room
        (RECEIVE, 1, 1, 0, -2),
        (RECEIVE_POLLING, 1, 0, 0, -4),
        (SEND_POLLING, 1, 5, 0, 0), // polls are for start-up code too
        (SEND_POLLING, 1, 5, 0, -4),
        (RECEIVE, 1, 1, 0, -2), // though an element is there
        (RECEIVE_POLLING, 1, 0, 0, 0),
    ] {
        assert_eq!(bench.call(service, a, b, c), (code, 0), "{service} {a} {b} {c}");
    }
    for service in [SEND, SEND_POLLING, ISEND_POLLING, RECEIVE, RECEIVE_POLLING, IRECEIVE, QUEUE_DELETE] {
        assert_eq!(bench.wrongly(service, 1, 5, 1).0, -2);
    }
    assert_eq!(bench.wrongly(QUEUE_CREATE, 2, 5, 1).0, -2);
    assert_eq!(bench.wrongly(QUEUE_CREATE, 1, 5, 1).0, -5);
}

/// An element received at once is in the call's answer, and the record stays as it was.
#[test]
fn at_once_it_is_in_the_answer() {
    let mut bench = Bench::with_queue(2, &[1]);
    bench.call(RECEIVE, 1, 9, 0);
    bench.call(ISEND_POLLING, 1, 50, 0);
    assert_eq!(bench.handed(1), 50);
    for element in [60, 61] {
        assert_eq!(bench.call(SEND, 1, element, 1), (0, 1));
        assert_eq!(bench.value, 0);
    }
    assert_eq!(bench.call(RECEIVE, 1, 9, 0), (0, 1));
    assert_eq!((bench.value, bench.handed(1), bench.code(1)), (60, 50, 0));
    assert_eq!(bench.call1(IRECEIVE, 1), (0, 1));
    assert_eq!((bench.value, bench.handed(1)), (61, 50));
}

/// They come out in the order accepted, each once: stored ones first, then those of the senders who wait.
#[test]
fn in_the_order_accepted() {
    let mut bench = Bench::with_queue(3, &[6, 5, 4]);
    for element in [10, 11, 12] {
        assert_eq!(bench.call(SEND, 1, element, 9), (0, 6));
    }
    for (element, running) in [(13, 5), (14, 4), (10, 0)] {
        assert_eq!(bench.call(SEND, 1, element, FOREVER), (1, running));
    }
    assert_eq!((bench.stored(1), bench.senders(1)), (vec![10, 11, 12], &[6, 5, 4][..]));
    let mut out = vec![];
    for _ in 0..6 {
        out.push(bench.polled(1));
    }
    assert_eq!(out, [10, 11, 12, 13, 14, 10]);
    assert_eq!(bench.level(5), [6, 5, 4]);
    assert_eq!(bench.call1(RECEIVE_POLLING, 1).0, -4);
}

/// A queue is filled and emptied many times over: its places are used again and again.
#[test]
fn more_than_once_round() {
    for capacity in [1, 2, 3, 16] {
        let mut bench = Bench::with_queue(capacity, &[1]);
        let (mut sent, mut got) = (0, 0);
        for step in [capacity, 1, capacity, 2, capacity].repeat(7) {
            for _ in 0..step.min(capacity) {
                while bench.call(SEND_POLLING, 1, sent, 0).0 == 0 {
                    sent += 1;
                }
                assert_eq!(bench.polled(1), got);
                got += 1;
            }
            while bench.call1(RECEIVE_POLLING, 1).0 == 0 {
                assert_eq!(bench.value, got);
                got += 1;
            }
            assert_eq!(sent, got);
        }
        assert!(sent > 7 * capacity);
    }
}
