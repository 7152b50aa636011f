//! The lists that are timed, each as long as a file may be: what the calls do differs, the size does not.
//! All are readable; the random calls and the refusals are refused in part.

use peer::gen::World;
use peer::lists::LONGEST_FILE;
use peer::services::*;

/// Calls that make ready, and those that follow again and again.
type Parts = (Vec<Call>, Vec<Call>);
/// The name of a list, what it does, and its calls.
type Named = (&'static str, &'static str, fn() -> Parts);

pub struct Workload {
    pub name: &'static str,
    pub about: &'static str,
    pub file: Vec<u8>,
    pub calls: usize,
}

/// A list of these calls, the second part again and again, as far as the file's size allows; `most` bounds the calls.
pub fn list(first: &[Call], again: &[Call], most: usize) -> (Vec<u8>, usize) {
    let width = if first.iter().chain(again).any(|call| call.numbers() == 4) { 4 } else { 3 };
    let mut file = peer::gen_lists::header(width).to_vec();
    let mut calls = 0;
    for call in first.iter().chain(again.iter().cycle()) {
        let line = call.line(width);
        if calls == most || file.len() + 1 + line.len() > LONGEST_FILE {
            break;
        }
        file.push(b'\n');
        file.extend_from_slice(line.as_bytes());
        calls += 1;
    }
    (file, calls)
}

fn tick() -> Call {
    Call::of(TICK, 0, 0, 0)
}

/// So many tasks, all runnable, at these levels in turn.
fn tasks(count: u32, levels: &[u32]) -> Vec<Call> {
    (1..=count).map(|t| Call::of(CREATE, t, levels[t as usize % levels.len()], 1)).collect()
}

/// Every task sleeps for long; then ticks alone.
fn sleepers() -> Parts {
    let mut first = tasks(24, &[9]);
    first.extend((0..24).map(|_| Call::of(SLEEP, 1_000_000, 0, 0)));
    (first, vec![tick()])
}

/// Every task is runnable at one level whose slice is one tick.
fn turns() -> Parts {
    let mut first = tasks(24, &[9]);
    first.push(Call::of(TSLICE, 9, 1, 0));
    (first, vec![tick()])
}

/// Tasks of one level take turns at a semaphore: two waits, then two releases.
fn signals() -> Parts {
    let mut first = tasks(24, &[9]);
    first.push(Call::of(SEM_CREATE, 1, 0, 1));
    let wait = Call::of(ACQUIRE, 1, u32::MAX, 0);
    (first, vec![wait, wait, Call::of(SIGNAL, 1, 0, 0), Call::of(ISIGNAL, 1, 0, 0)])
}

/// Four tasks wait for bits of one flag, and a set wakes them all.
fn flags() -> Parts {
    let mut first = tasks(6, &[9]);
    first.push(Call::of(EVENT_CREATE, 1, 0, 0));
    let wait = Call::wait(1, 3, 1, 500);
    (first, vec![wait, wait, wait, wait, Call::of(ISET, 1, 3, 0), Call::of(ICLEAR, 1, 3, 0)])
}

/// Tasks of one level at a queue of four places: an interrupt hands over to one who waits, four elements go in, a fifth waits outside, and all
/// come out in every way.
fn queues() -> Parts {
    let mut first = tasks(6, &[9]);
    first.push(Call::of(QUEUE_CREATE, 1, 4, 0));
    let receive = Call::of(RECEIVE, 1, 500, 0);
    let mut again = vec![receive, Call::of(ISEND_POLLING, 1, 20, 0)];
    again.extend((21..=23).map(|element| Call::of(SEND, 1, element, 500)));
    again.extend([Call::of(SEND_POLLING, 1, 24, 0), Call::of(SEND, 1, 25, 500), receive, receive]);
    again.extend([Call::of(RECEIVE_POLLING, 1, 0, 0), Call::of(IRECEIVE, 1, 0, 0), receive]);
    (first, again)
}

/// The playback box: relay, reading, screen and library; keys and sensors release, the running task waits, ticks go on.
fn playback() -> Parts {
    let mut first = vec![
        Call::of(CREATE, 1, 2, 1),
        Call::of(CREATE, 2, 3, 1),
        Call::of(CREATE, 3, 10, 1),
        Call::of(CREATE, 4, 10, 1),
        Call::of(TSLICE, 10, 5, 0),
    ];
    first.extend((1..=4).map(|s| Call::of(SEM_CREATE, s, 0, 65_535)));
    let wait = |s| Call::of(ACQUIRE, s, u32::MAX, 0);
    let key = |s| Call::of(ISIGNAL, s, 0, 0);
    first.extend([wait(1), wait(2)]);
    let mut again = vec![key(2), wait(2), key(1), wait(1)];
    again.extend([tick(); 6]);
    again.extend([wait(3), key(3), tick(), Call::of(SLEEP, 3, 0, 0), tick(), tick(), tick()]);
    (first, again)
}

/// Sixteen random worlds, one after another in one list: creations of what exists already are refused.
fn random() -> Parts {
    ((1..=16).flat_map(|seed| World::of_lists(seed).run(250)).collect(), vec![tick()])
}

/// The most calls that a file has: the shortest line, which is refused.
fn refusals() -> Parts {
    (tasks(1, &[9]), vec![Call { context: I, ..Call::of(EXIT, 0, 0, 0) }])
}

pub fn all(most: usize) -> Vec<Workload> {
    let parts: [Named; 8] = [
        ("random", "random calls of all services", random),
        ("box", "the playback box's four tasks", playback),
        ("sleepers", "24 tasks asleep, ticks", sleepers),
        ("turns", "24 tasks at one level, slice 1, ticks", turns),
        ("signals", "24 tasks, waits and releases", signals),
        ("flags", "four waiters, a set that wakes all", flags),
        ("queues", "a queue of four: handed over, filled, emptied", queues),
        ("refusals", "the most calls of a file, all but one refused", refusals),
    ];
    parts
        .into_iter()
        .map(|(name, about, part)| {
            let (first, again) = part();
            let (file, calls) = list(&first, &again, most);
            Workload { name, about, file, calls }
        })
        .collect()
}
