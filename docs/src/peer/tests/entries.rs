//! The times of entry of request P10, sentence by sentence: what marks a task, what does not, and the ticks that `ready_ticks` gives.
//! Each test stands at a time of its own, some ticks after the last entry, so that a mark that was set or not is seen.

mod common;
use common::Bench;
use peer::services::*;

/// At time 1,005: task 1 runs at level 5 and tasks 2 and 3 are ready at level 6, all since 1,000; 4 is dormant, 5 is not created.
/// Semaphore 1 is empty, flag 1 has no bits.
fn five_ticks_on() -> Bench {
    let mut bench = Bench::at(1_000);
    bench.call(SEM_CREATE, 1, 0, 1);
    bench.call(EVENT_CREATE, 1, 0, 0);
    for (t, level, option) in [(1, 5, 1), (2, 6, 1), (3, 6, 1), (4, 4, 0)] {
        assert_eq!(bench.call(CREATE, t, level, option).0, 0);
    }
    ticks(&mut bench, 5);
    assert_eq!((marks(&bench), bench.kernel.time), ([1_000, 1_000, 1_000, 0], 1_005));
    bench
}

fn ticks(bench: &mut Bench, count: usize) {
    for _ in 0..count {
        bench.tick();
    }
}

fn marks(bench: &Bench) -> [u32; 4] {
    [1, 2, 3, 4].map(|t| bench.entered(t))
}

#[test]
fn creation_and_activation() {
    let mut bench = five_ticks_on();
    assert_eq!(bench.call(CREATE, 5, 3, 0), (0, 1));
    assert_eq!(bench.entered(5), 0); // option 0
    for service in [ACTIVATE, IACTIVATE] {
        let mut bench = five_ticks_on();
        assert_eq!(bench.call1(service, 4), (0, 4));
        assert_eq!((marks(&bench), bench.ready(4)), ([1_000, 1_000, 1_000, 1_005], 0));
        ticks(&mut bench, 2);
        assert_eq!((bench.call1(service, 4), bench.ready(4)), ((0, 4), 2)); // counted: no entry
    }
    assert_eq!(bench.call(CREATE, 6, 30, 1), (0, 1));
    assert_eq!((bench.entered(6), bench.ready(6)), (1_005, 0)); // option 1
    assert_eq!((bench.entered(5), bench.call1(READY_TICKS, 5)), (0, (-2, 1)));
}

#[test]
fn the_end_of_a_wait_marks() {
    for (wait, end) in [
        (Call::of(SLEEP, 9, 0, 0), Call::of(WAKEUP, 1, 0, 0)),
        (Call::of(SLEEP, 9, 0, 0), Call::of(IWAKEUP, 1, 0, 0)),
        (Call::of(SLEEP, 9, 0, 0), Call::of(RELEASE_WAIT, 1, 0, 0)),
        (Call::of(ACQUIRE, 1, 9, 0), Call::of(IRELEASE_WAIT, 1, 0, 0)),
        (Call::of(ACQUIRE, 1, 9, 0), Call::of(SIGNAL, 1, 0, 0)),
        (Call::of(ACQUIRE, 1, 9, 0), Call::of(ISIGNAL, 1, 0, 0)),
        (Call::of(ACQUIRE, 1, 9, 0), Call::of(SEM_DELETE, 1, 0, 0)),
        (Call::wait(1, 1, 0, 9), Call::of(SET, 1, 1, 0)),
        (Call::wait(1, 1, 0, 9), Call::of(ISET, 1, 1, 0)),
        (Call::wait(1, 1, 0, 9), Call::of(EVENT_DELETE, 1, 0, 0)),
    ] {
        let mut bench = five_ticks_on();
        assert_eq!(bench.make(wait), (1, 2));
        ticks(&mut bench, 3);
        assert_eq!((marks(&bench)[0], bench.ready(1)), (1_000, 8), "{wait}"); // leaving keeps the mark
        assert_eq!(bench.make(end), (0, 1));
        assert_eq!((marks(&bench), bench.ready(1)), ([1_008, 1_000, 1_000, 0], 0), "{end}");
    }
}

#[test]
fn a_wait_that_runs_out_is_marked_with_the_new_time() {
    for wait in [Call::of(SLEEP, 3, 0, 0), Call::of(ACQUIRE, 1, 3, 0), Call::wait(1, 1, 0, 3)] {
        let mut bench = five_ticks_on();
        assert_eq!(bench.make(wait), (1, 2));
        ticks(&mut bench, 2);
        assert_eq!((bench.ready(1), bench.tick()), (7, 1));
        assert_eq!((bench.entered(1), bench.kernel.time, bench.ready(1)), (1_008, 1_008, 0), "{wait}");
    }
}

#[test]
fn suspension_keeps_the_mark_and_resumption_sets_it() {
    let mut bench = five_ticks_on();
    assert_eq!(bench.call1(SUSPEND, 1), (0, 2));
    ticks(&mut bench, 2);
    assert_eq!((bench.entered(1), bench.ready(1)), (1_000, 7));
    assert_eq!(bench.call1(RESUME, 1), (0, 1));
    assert_eq!((marks(&bench), bench.ready(1)), ([1_007, 1_000, 1_000, 0], 0));
}

/// Its wait ends while it is suspended, or it is resumed while it waits: neither is an entry.
#[test]
fn a_suspended_waiter_enters_once_it_is_neither() {
    let mut bench = five_ticks_on();
    bench.call1(SLEEP, 2);
    bench.call1(SUSPEND, 1);
    ticks(&mut bench, 3);
    assert_eq!((bench.entered(1), bench.ready(1)), (1_000, 8)); // the sleep ran out
    assert_eq!((bench.call1(RESUME, 1), bench.entered(1)), ((0, 1), 1_008));
    bench.call1(SLEEP, 9);
    bench.call1(SUSPEND, 1);
    ticks(&mut bench, 1);
    assert_eq!((bench.call1(RESUME, 1), bench.entered(1)), ((0, 2), 1_008)); // waits on
    assert_eq!((bench.call1(IWAKEUP, 1), bench.entered(1)), ((0, 1), 1_009));
}

#[test]
fn a_used_activation_count_marks_alone_in_the_level_too() {
    let mut bench = five_ticks_on();
    bench.call1(ACTIVATE, 1);
    assert_eq!((bench.call1(EXIT, 0), bench.level(5)), ((0, 1), &[1][..]));
    assert_eq!((marks(&bench), bench.ready(1)), ([1_005, 1_000, 1_000, 0], 0));
    bench.call1(ACTIVATE, 2);
    assert_eq!((bench.call1(TERMINATE, 2), bench.level(6)), ((0, 1), &[3, 2][..]));
    assert_eq!(marks(&bench), [1_005, 1_005, 1_000, 0]);

    let mut bench = five_ticks_on(); // of one that waits and is suspended
    bench.call(ACQUIRE, 1, 9, 0);
    bench.call1(SUSPEND, 1);
    bench.call1(ACTIVATE, 1);
    ticks(&mut bench, 1);
    assert_eq!((bench.call1(TERMINATE, 1), marks(&bench)[0]), ((0, 1), 1_006));
}

#[test]
fn dormancy_and_deletion_set_it_to_0() {
    let mut bench = five_ticks_on();
    assert_eq!((bench.call1(EXIT, 0), marks(&bench)), ((0, 2), [0, 1_000, 1_000, 0]));
    assert_eq!((bench.call1(TERMINATE, 3), marks(&bench)), ((0, 2), [0, 1_000, 0, 0]));
    assert_eq!((bench.call1(DELETE, 1), marks(&bench)), ((0, 2), [0, 1_000, 0, 0]));
    assert_eq!((bench.call(CREATE, 1, 5, 0), marks(&bench)), ((0, 2), [0, 1_000, 0, 0]));
    for wait in [Call::of(SLEEP, 9, 0, 0), Call::of(ACQUIRE, 1, 9, 0), Call::of(SUSPEND, 1, 0, 0)] {
        let mut bench = five_ticks_on();
        bench.make(wait);
        assert_eq!((bench.call1(TERMINATE, 1), marks(&bench)[0]), ((0, 2), 0), "{wait}");
    }
}

#[test]
fn a_rotation_marks_only_the_task_that_is_moved() {
    let mut bench = five_ticks_on();
    bench.call1(EXIT, 0);
    bench.call(TSLICE, 6, 2, 0);
    assert_eq!((bench.tick(), bench.tick(), bench.level(6)), (2, 3, &[3, 2][..]));
    assert_eq!((marks(&bench), bench.kernel.time), ([0, 1_007, 1_000, 0], 1_007)); // with the new time
    assert_eq!((bench.ready(2), bench.ready(3)), (0, 7));
    assert_eq!((bench.tick(), bench.tick(), bench.level(6)), (3, 2, &[2, 3][..]));
    assert_eq!(marks(&bench), [0, 1_007, 1_009, 0]);
}

#[test]
fn a_single_task_is_not_moved_at_its_slice() {
    let mut bench = five_ticks_on();
    bench.call(TSLICE, 5, 2, 0);
    ticks(&mut bench, 1);
    assert_eq!((bench.charge(1), bench.tick(), bench.charge(1)), (1, 1, 0));
    assert_eq!((marks(&bench)[0], bench.ready(1)), (1_000, 7));
}

#[test]
fn a_priority_that_moves_it_marks() {
    for (task, priority, level) in [(1, 9, 9), (1, 2, 2), (1, 6, 6), (2, 5, 5), (3, 30, 30)] {
        let mut bench = five_ticks_on();
        assert_eq!(bench.call(CHANGE_PRIORITY, task, priority, 0).0, 0);
        assert_eq!(bench.level(level).last().copied(), Some(task as u8));
        assert_eq!((bench.entered(task as usize), bench.ready(task)), (1_005, 0));
        ticks(&mut bench, 1);
        assert_eq!(bench.call(CHANGE_PRIORITY, task, 0, 0).0, 0); // and back
        assert_eq!(bench.entered(task as usize), 1_006);
        let others = [1, 2, 3].into_iter().filter(|&other| other != task);
        assert!(others.map(|other| bench.entered(other as usize)).all(|mark| mark == 1_000));
    }
}

#[test]
fn an_equal_priority_marks_nothing() {
    for (task, priority) in [(1, 5), (1, 0), (2, 6), (3, 0)] {
        let mut bench = five_ticks_on();
        assert_eq!(bench.call(CHANGE_PRIORITY, task, priority, 0), (0, 1));
        assert_eq!((marks(&bench), bench.ready(task)), ([1_000, 1_000, 1_000, 0], 5));
    }
}

#[test]
fn the_priority_of_who_is_in_no_level_marks_nothing() {
    for wait in [Call::of(SLEEP, 9, 0, 0), Call::of(ACQUIRE, 1, 9, 0), Call::of(SUSPEND, 1, 0, 0)] {
        let mut bench = five_ticks_on();
        bench.make(wait);
        assert_eq!((bench.call(CHANGE_PRIORITY, 1, 9, 0), bench.ready(1)), ((0, 2), 5), "{wait}");
        assert_eq!(marks(&bench)[0], 1_000);
    }
}

/// Calls that leave a task where it is leave its mark: preemption, calls served at once, those that count, those on others.
#[test]
fn whatever_leaves_the_task_in_its_place_leaves_its_mark() {
    let mut bench = five_ticks_on();
    let calls = [
        (WAKEUP, 1, 0, 0),
        (SLEEP, 9, 0, 0),
        (ACTIVATE, 1, 0, 0),
        (SIGNAL, 1, 0, 0),
        (ACQUIRE, 1, 9, 0),
        (SET, 1, 7, 0),
        (EVENT_POLLING, 1, 1, 0),
        (CLEAR, 1, 7, 0),
        (TSLICE, 5, 3, 0),
        (TSLICE, 6, 3, 0),
        (READY_TICKS, 1, 0, 0),
    ];
    for (service, a, b, c) in calls {
        assert_eq!(bench.call(service, a, b, c), (0, 1), "{}", Call::of(service, a, b, c));
        assert_eq!(marks(&bench), [1_000, 1_000, 1_000, 0], "{}", Call::of(service, a, b, c));
    }
    assert_eq!(bench.call1(ACTIVATE, 4), (0, 4)); // takes over
    assert_eq!((bench.tick(), bench.call1(EXIT, 0)), (4, (0, 1))); // and gives back
    assert_eq!((marks(&bench), bench.ready(1), bench.ready(2)), ([1_000, 1_000, 1_000, 0], 6, 6));
}

#[test]
fn ticks_over_the_wrap() {
    for (start, after) in [(u32::MAX, 1), (u32::MAX - 2, 3), (u32::MAX - 2, 10), (u32::MAX, 0), (0, 4)] {
        let mut bench = Bench::at(start);
        bench.call(CREATE, 1, 5, 1);
        assert_eq!(bench.entered(1), start);
        ticks(&mut bench, after as usize);
        assert_eq!((bench.kernel.time, bench.ready(1)), (start.wrapping_add(after), after));
    }
    let mut bench = Bench::at(u32::MAX); // an entry at the wrap itself has the mark 0 of one that never was
    bench.call(CREATE, 1, 5, 1);
    bench.call1(SLEEP, 1);
    ticks(&mut bench, 1);
    assert_eq!((bench.kernel.time, bench.entered(1), bench.ready(1)), (0, 0, 0));
    ticks(&mut bench, 7);
    assert_eq!(bench.ready(1), 7);

    let mut bench = Bench::at(5); // the longest that can be told, and one tick more
    bench.call(CREATE, 1, 5, 1);
    bench.kernel.time = 4;
    assert_eq!(bench.ready(1), u32::MAX);
    ticks(&mut bench, 1);
    assert_eq!(bench.ready(1), 0);
}

#[test]
fn refusals_are_those_of_wakeup_but_for_its_overflow() {
    let mut bench = five_ticks_on();
    for number in [0, 25, 26, 256, 257, u32::MAX] {
        assert_eq!((bench.call1(READY_TICKS, number), bench.value), ((-5, 1), 0));
        assert_eq!(bench.wrongly(READY_TICKS, number, 0, 0), (-5, 1)); // before the context
    }
    for number in [5, 24] {
        assert_eq!((bench.call1(READY_TICKS, number), bench.wrongly(READY_TICKS, number, 0, 0)), ((-9, 1), (-9, 1)));
    }
    assert_eq!((bench.call1(READY_TICKS, 4), bench.wrongly(READY_TICKS, 4, 0, 0)), ((-2, 1), (-2, 1))); // dormant
    for number in [1, 2, 3] {
        assert_eq!((bench.wrongly(READY_TICKS, number, 0, 0), bench.value), ((-2, 1), 0)); // from an interrupt
        assert_eq!((bench.call1(READY_TICKS, number), bench.value), ((0, 1), 5));
    }
    for number in 0..=25 {
        let mut other = five_ticks_on();
        let wakeup = other.call1(WAKEUP, number).0;
        assert_eq!(bench.call1(READY_TICKS, number).0, wakeup, "task {number}");
    }
    assert_eq!((bench.call1(WAKEUP, 1), bench.call1(WAKEUP, 1)), ((0, 1), (-1, 1)));
    assert_eq!((bench.call1(READY_TICKS, 1), bench.value), ((0, 1), 5)); // no count of it is ever at its top
}

/// Start-up and idle code may ask too.
#[test]
fn nobody_needs_to_run() {
    let mut bench = five_ticks_on();
    for t in [1, 2, 3] {
        bench.call1(SUSPEND, t);
    }
    assert_eq!(bench.call1(READY_TICKS, 2), (0, 0));
    assert_eq!(bench.value, 5);
}
