//! Single calls on a state with 24 tasks: the soundness check, the checked call by value and in place, and the peer's call.
//! A batch is many calls, each on the state that the one before left, from the same start; the start is put back untimed.

use crate::library::{call, call_in_place, is_sound};
use crate::timing::{in_turn, timed, Work};
use peer::kernel::Kernel;
use peer::layout::{store, Reply, State};
use peer::services::*;
use std::hint::black_box;

const BATCH: usize = 1000;

struct Case {
    name: &'static str,
    /// Besides 24 runnable tasks at one level.
    first: Vec<Call>,
    /// Again and again.
    again: Vec<Call>,
    refused: bool,
}

fn cases() -> Vec<Case> {
    let case = |name, first, again| Case { name, first, again, refused: false };
    let semaphore = |start| vec![Call::of(SEM_CREATE, 1, start, 65_535)];
    let tick = Call::of(TICK, 0, 0, 0);
    let (signal, acquire) = (Call::of(SIGNAL, 1, 0, 0), Call::of(ACQUIRE, 1, u32::MAX, 0));
    vec![
        case("a tick, 24 tasks asleep", vec![Call::of(SLEEP, 4_000_000_000, 0, 0); 24], vec![tick]),
        case("a tick, 24 tasks that take turns", vec![Call::of(TSLICE, 9, 1, 0)], vec![tick]),
        case("a signal that counts", semaphore(0), vec![signal]),
        case("an acquire that is met", semaphore(65_535), vec![acquire]),
        case("an acquire that waits, a signal that wakes: the mean", semaphore(0), vec![acquire, signal]),
        case("ready_ticks of the last task", vec![], vec![Call::of(READY_TICKS, 24, 0, 0)]),
        Case { refused: true, ..case("a refused call", vec![], vec![Call { context: I, ..Call::of(EXIT, 0, 0, 0) }]) },
    ]
}

pub fn report(rounds: usize) {
    println!("\n### Single calls, 24 tasks\n");
    println!("| call | peer | peer's check | check | checked, by value | checked, in place | in place less check |");
    println!("|---|---:|---:|---:|---:|---:|---:|");
    for case in cases() {
        let mut kernel = Kernel::fresh();
        let tasks = (1..=24).map(|t| Call::of(CREATE, t, 9, 1));
        tasks.chain(case.first.iter().copied()).for_each(|one| assert!(kernel.call(&one).code >= 0, "{one}"));
        let states = states(&kernel, &case);
        let times = in_turn(rounds, works(&kernel, &states, &case.again));
        print!("| {} |", case.name);
        for (place, time) in times.iter().enumerate() {
            let digits = usize::from(place == 0);
            print!(" {:.digits$} ({:.digits$}) |", each(time.best), each(time.median));
        }
        let [_, _, check, _, call] = &times[..] else { unreachable!() };
        println!(" {:.0} ({:.0}) |", each(call.best) - each(check.best), each(call.median) - each(check.median));
    }
    println!("\nNanoseconds a call, best (median) of the batches of {BATCH} calls; a check is that of a whole state's soundness.");
}

fn each(batch: f64) -> f64 {
    batch / BATCH as f64
}

/// The start, and the states that the first calls leave; a batch is run on all sides first, and they must agree.
fn states(start: &Kernel, case: &Case) -> Vec<State> {
    let mut kernel = start.clone();
    let mut reply = Reply { code: 0, running: 0, value: 0, state: store(start) };
    let mut lent = reply.state;
    let mut states = vec![];
    for one in case.again.iter().cycle().take(BATCH) {
        if states.len() < case.again.len() {
            states.push(lent);
        }
        let answer = kernel.call(one);
        assert_eq!(answer.code < 0, case.refused, "{one}");
        reply = call(reply.state, one);
        assert_eq!((reply.code, reply.running, reply.value), (answer.code, answer.running, answer.value), "{one}");
        let report = call_in_place(&mut lent, one);
        assert_eq!((report.code, report.running, report.value), (answer.code, answer.running, answer.value), "{one}");
    }
    assert!(store(&kernel) == reply.state && lent == reply.state, "{}", case.name);
    states
}

/// The peer's call, its check, the library's check, the call by value, the call in place: a batch of each.
fn works<'a>(start: &'a Kernel, states: &'a [State], again: &'a [Call]) -> Vec<Work<'a>> {
    let calls = move || again.iter().cycle().take(BATCH).map(black_box);
    let checks = move || states.iter().cycle().take(BATCH).map(black_box);
    vec![
        Box::new(move || {
            let mut kernel = start.clone();
            timed(|| calls().for_each(|one| keep(kernel.call(one))))
        }),
        Box::new(move || timed(|| checks().for_each(|state| keep(peer::sound::is_sound(state))))),
        Box::new(move || timed(|| checks().for_each(|state| keep(is_sound(*state))))),
        Box::new(move || {
            let mut reply = Reply { code: 0, running: 0, value: 0, state: states[0] };
            timed(|| {
                for one in calls() {
                    reply = call(reply.state, one);
                    black_box(&reply);
                }
            })
        }),
        Box::new(move || {
            let mut lent = states[0];
            timed(|| calls().for_each(|one| keep(call_in_place(&mut lent, one))))
        }),
    ]
}

/// Lets nothing that led to this be left out.
fn keep<T>(value: T) {
    black_box(value);
}
