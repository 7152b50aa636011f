//! The charges of request P3, sentence by sentence: the charge is the task's own, and what it is lost by and kept through.
//! Each test stands in the middle of a slice, where the two would differ.

mod common;
use common::Bench;
use peer::services::*;

/// Level 6, slice 3: tasks 1, 2 and 3; task 1 has run for two ticks. Level 9 has slice 5 and nobody.
fn in_the_middle() -> Bench {
    let mut bench = Bench::fresh();
    bench.call(TSLICE, 6, 3, 0);
    bench.call(TSLICE, 9, 5, 0);
    for t in [1, 2, 3] {
        assert_eq!(bench.call(CREATE, t, 6, 1), (0, 1));
    }
    assert_eq!(ticks(&mut bench, 2), [1, 1]);
    assert_eq!(charges(&bench), [2, 0, 0]);
    bench
}

/// The same with task 4 at level 2, which has taken over.
fn preempted() -> Bench {
    let mut bench = in_the_middle();
    assert_eq!(bench.call(CREATE, 4, 2, 1), (0, 4));
    assert_eq!(charges(&bench), [2, 0, 0]);
    bench
}

fn ticks(bench: &mut Bench, count: usize) -> Vec<u32> {
    (0..count).map(|_| bench.tick()).collect()
}

fn charges(bench: &Bench) -> [u16; 3] {
    [1, 2, 3].map(|t| bench.charge(t))
}

#[test]
fn a_sleeper_takes_nothing_from_the_next_and_comes_back_with_a_whole_slice() {
    let mut bench = in_the_middle();
    assert_eq!(bench.call1(SLEEP, 1), (1, 2));
    assert_eq!(charges(&bench), [0, 0, 0]);
    assert_eq!(bench.tick(), 2); // charged to task 2, then the sleep runs out
    assert_eq!((charges(&bench), bench.level(6)), ([0, 1, 0], &[2, 3, 1][..]));
    assert_eq!(ticks(&mut bench, 8), [2, 3, 3, 3, 1, 1, 1, 2]);
}

#[test]
fn whoever_stops_being_runnable_loses_its_charge() {
    for (service, a, b) in [(SLEEP, 9, 0), (ACQUIRE, 1, 9), (SUSPEND, 1, 0), (EXIT, 0, 0)] {
        let mut bench = in_the_middle();
        bench.call(SEM_CREATE, 1, 0, 1);
        assert!(bench.call(service, a, b, 0).0 >= 0);
        assert_eq!((charges(&bench), bench.level(6)), ([0, 0, 0], &[2, 3][..]), "{}", Call::of(service, a, b, 0));
        assert_eq!(ticks(&mut bench, 3), [2, 2, 3]);
    }
    let mut bench = in_the_middle();
    bench.call(EVENT_CREATE, 1, 0, 0);
    assert_eq!(bench.wait(1, 1, 0, 9), (1, 2));
    assert_eq!(charges(&bench), [0, 0, 0]);
    for service in [SUSPEND, TERMINATE] {
        let mut bench = preempted();
        assert_eq!(bench.call1(service, 1), (0, 4));
        assert_eq!((charges(&bench), bench.level(6)), ([0, 0, 0], &[2, 3][..]));
    }
}

#[test]
fn whoever_becomes_runnable_has_none() {
    for (leave, back) in
        [((SLEEP, 9), IWAKEUP), ((SLEEP, 9), IRELEASE_WAIT), ((SUSPEND, 1), RESUME), ((EXIT, 0), IACTIVATE)]
    {
        let mut bench = in_the_middle();
        bench.call1(leave.0, leave.1);
        assert_eq!(bench.call1(back, 1), (0, 2));
        assert_eq!((charges(&bench), bench.level(6)), ([0, 0, 0], &[2, 3, 1][..]));
        assert_eq!(ticks(&mut bench, 9), [2, 2, 3, 3, 3, 1, 1, 1, 2]);
    }
    let mut bench = in_the_middle();
    bench.call1(EXIT, 0);
    assert_eq!((bench.call1(DELETE, 1).0, bench.call(CREATE, 1, 6, 1).0), (0, 0)); // another task of that number
    assert_eq!(charges(&bench), [0, 0, 0]);
}

#[test]
fn whoever_is_alone_and_comes_back_begins_anew() {
    let mut bench = Bench::fresh();
    bench.call(TSLICE, 6, 3, 0);
    bench.call(CREATE, 1, 6, 1);
    ticks(&mut bench, 2);
    assert_eq!((bench.charge(1), bench.call1(SLEEP, 2)), (2, (1, 0)));
    assert_eq!((ticks(&mut bench, 2), bench.charge(1)), (vec![0, 1], 0)); // nobody is charged
    bench.call(CREATE, 2, 6, 1);
    assert_eq!(ticks(&mut bench, 3), [1, 1, 2]);
}

#[test]
fn a_preempted_task_keeps_its_charge() {
    let mut bench = preempted();
    bench.call(TSLICE, 2, 4, 0);
    assert_eq!(ticks(&mut bench, 3), [4, 4, 4]);
    assert_eq!((charges(&bench), bench.charge(4)), ([2, 0, 0], 3)); // each level has its first
    assert_eq!(bench.call1(EXIT, 0), (0, 1));
    assert_eq!((charges(&bench), bench.charge(4)), ([2, 0, 0], 0));
    assert_eq!(bench.tick(), 2); // its third
    assert_eq!((charges(&bench), bench.level(6)), ([0, 0, 0], &[2, 3, 1][..]));
}

#[test]
fn the_task_that_ran_as_the_tick_came_is_charged() {
    let mut bench = in_the_middle();
    bench.call(TSLICE, 2, 4, 0);
    bench.call(CREATE, 4, 2, 1);
    assert_eq!(bench.call1(SLEEP, 1), (1, 1));
    assert_eq!(bench.tick(), 4); // charged to task 1, which is rotated; then 4 comes back
    assert_eq!((charges(&bench), bench.charge(4), bench.level(6)), ([0, 0, 0], 0, &[2, 3, 1][..]));
}

#[test]
fn rotation_leaves_neither_of_the_two_a_charge() {
    let mut bench = in_the_middle();
    assert_eq!(bench.tick(), 2);
    assert_eq!((charges(&bench), bench.level(6)), ([0, 0, 0], &[2, 3, 1][..]));
    assert_eq!((bench.tick(), charges(&bench)), (2, [0, 1, 0]));
}

#[test]
fn setting_a_slice_clears_the_charge_of_the_level_s_tasks() {
    for slice in [3, 2, 5, 1_000, 1] {
        for mut bench in [in_the_middle(), preempted()] {
            assert_eq!(bench.call(TSLICE, 6, slice, 0).0, 0);
            assert_eq!((charges(&bench), bench.level(6)), ([0, 0, 0], &[1, 2, 3][..]));
        }
        let mut bench = in_the_middle();
        bench.call(TSLICE, 6, slice, 0);
        let whole = slice as usize;
        assert_eq!(ticks(&mut bench, whole).iter().position(|&running| running == 2), Some(whole - 1));
    }
    for level in [5, 7, 9] {
        let mut bench = in_the_middle();
        assert_eq!(bench.call(TSLICE, level, 3, 0), (0, 1));
        assert_eq!(charges(&bench), [2, 0, 0]); // another level's slice
    }
}

#[test]
fn without_a_slice_nobody_is_charged() {
    let mut bench = in_the_middle();
    assert_eq!(bench.call(TSLICE, 6, 0, 0), (0, 1));
    assert_eq!((ticks(&mut bench, 5), charges(&bench)), (vec![1; 5], [0, 0, 0]));
    bench.call(TSLICE, 6, 3, 0);
    assert_eq!(ticks(&mut bench, 3), [1, 1, 2]); // the ticks before do not count
}

#[test]
fn an_equal_priority_leaves_the_charge() {
    for (task, priority) in [(1, 6), (1, 0), (2, 6), (3, 0)] {
        let mut bench = in_the_middle();
        assert_eq!(bench.call(CHANGE_PRIORITY, task, priority, 0), (0, 1));
        assert_eq!((charges(&bench), bench.level(6)), ([2, 0, 0], &[1, 2, 3][..]));
        assert_eq!(bench.tick(), 2);
    }
}

#[test]
fn another_priority_clears_the_charge() {
    let mut bench = in_the_middle();
    assert_eq!(bench.call(CHANGE_PRIORITY, 1, 9, 0), (0, 2));
    assert_eq!((charges(&bench), bench.level(9)), ([0, 0, 0], &[1][..]));
    assert_eq!(bench.call(CHANGE_PRIORITY, 1, 0, 0), (0, 2)); // and back
    assert_eq!((charges(&bench), bench.level(6)), ([0, 0, 0], &[2, 3, 1][..]));

    let mut bench = in_the_middle(); // better, so it runs on
    bench.call(TSLICE, 4, 3, 0);
    assert_eq!(bench.call(CHANGE_PRIORITY, 1, 4, 0), (0, 1));
    assert_eq!(charges(&bench), [0, 0, 0]);
    assert_eq!((bench.tick(), charges(&bench)), (1, [1, 0, 0]));

    let mut bench = preempted();
    assert_eq!(bench.call(CHANGE_PRIORITY, 1, 9, 0), (0, 4));
    assert_eq!(charges(&bench), [0, 0, 0]);
    let mut bench = in_the_middle();
    assert_eq!(bench.call(CHANGE_PRIORITY, 2, 9, 0), (0, 1));
    assert_eq!(charges(&bench), [2, 0, 0]); // of another task
}

#[test]
fn alone_in_its_level_the_charge_goes_back_to_0_at_the_slice() {
    let mut bench = Bench::fresh();
    bench.call(TSLICE, 6, 3, 0);
    bench.call(CREATE, 1, 6, 1);
    let after: Vec<(u32, u16)> = (0..7).map(|_| (bench.tick(), bench.charge(1))).collect();
    assert_eq!(after, [(1, 1), (1, 2), (1, 0), (1, 1), (1, 2), (1, 0), (1, 1)]);
    bench.call(CREATE, 2, 6, 1); // a newcomer waits for what is left of that slice
    assert_eq!(ticks(&mut bench, 5), [1, 2, 2, 2, 1]);
}

#[test]
fn an_exit_with_an_activation_counted_begins_anew() {
    let mut bench = in_the_middle();
    bench.call1(ACTIVATE, 1);
    assert_eq!(charges(&bench), [2, 0, 0]);
    assert_eq!(bench.call1(EXIT, 0), (0, 2));
    assert_eq!((charges(&bench), bench.level(6)), ([0, 0, 0], &[2, 3, 1][..]));

    let mut bench = Bench::fresh(); // alone it runs on, with a whole slice before it
    bench.call(TSLICE, 6, 3, 0);
    bench.call(CREATE, 1, 6, 1);
    ticks(&mut bench, 2);
    bench.call1(ACTIVATE, 1);
    assert_eq!((bench.charge(1), bench.call1(EXIT, 0), bench.charge(1)), (2, (0, 1), 0));
    bench.call(CREATE, 2, 6, 1);
    assert_eq!(ticks(&mut bench, 3), [1, 1, 2]);

    let mut bench = preempted(); // and so it is with termination
    bench.call1(ACTIVATE, 1);
    assert_eq!(bench.call1(TERMINATE, 1), (0, 4));
    assert_eq!((charges(&bench), bench.level(6)), ([0, 0, 0], &[2, 3, 1][..]));
}

/// Calls that leave task 1 where it is leave its charge: those served at once, those on others, those that count.
#[test]
fn whatever_leaves_the_task_in_its_place_leaves_its_charge() {
    let mut bench = in_the_middle();
    bench.call(SEM_CREATE, 1, 1, 2);
    bench.call(EVENT_CREATE, 1, 0, 7);
    bench.call(CREATE, 5, 9, 0);
    let calls = [
        (WAKEUP, 1, 0, 0),
        (SLEEP, 9, 0, 0),
        (ACTIVATE, 1, 0, 0),
        (ACQUIRE, 1, 9, 0),
        (SIGNAL, 1, 0, 0),
        (ISIGNAL, 1, 0, 0),
        (POLLING, 1, 0, 0),
        (EVENT_POLLING, 1, 1, 0),
        (SET, 1, 8, 0),
        (CLEAR, 1, 8, 0),
        (ACTIVATE, 5, 0, 0),
        (SUSPEND, 2, 0, 0),
        (RESUME, 2, 0, 0),
        (TERMINATE, 3, 0, 0),
        (DELETE, 3, 0, 0),
        (CREATE, 3, 6, 1),
    ];
    for (service, a, b, c) in calls {
        assert_eq!(bench.call(service, a, b, c), (0, 1), "{}", Call::of(service, a, b, c));
        assert_eq!(charges(&bench), [2, 0, 0], "{}", Call::of(service, a, b, c));
    }
    assert_eq!(bench.wait(1, 1, 0, 9), (0, 1));
    assert_eq!((charges(&bench), bench.level(6)), ([2, 0, 0], &[1, 2, 3][..]));
    assert_eq!(bench.tick(), 2);
}
