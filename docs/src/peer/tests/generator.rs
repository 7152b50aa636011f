//! What the random calls reach: every service with every code it can give, and the rare meetings that the rules are about.
//! Each call is made on the bench, so every reached state is also tested for soundness and for unchanged refusals.

mod common;
mod meetings;
use common::Bench;
use meetings::meetings;
use peer::gen::{Rng, World};
use peer::gen_files::{bad_list, put_word};
use peer::gen_lists::{join, lines, make_endless, readable, NEARLY_THE_WORD, WORD};
use peer::gen_states::{any_times, charges, damage, entries, reached, start};
use peer::layout::{load, State};
use peer::lists::{read_list, run_calls};
use peer::services::*;
use peer::slots::{charge_of, entered_of};
use peer::sound::is_sound;
use std::collections::BTreeMap;

const RUNS: u64 = 2_400;
const LENGTH: usize = 300;

/// The codes that each service can answer with.
const CODES: [(u32, &[i32]); LAST as usize] = [
    (CREATE, &[0, -2, -5]),
    (DELETE, &[0, -2, -5, -9]),
    (ACTIVATE, &[0, -1, -2, -5, -9]),
    (IACTIVATE, &[0, -1, -2, -5, -9]),
    (EXIT, &[0, -2]),
    (TERMINATE, &[0, -2, -5, -9]),
    (SUSPEND, &[0, -1, -2, -3, -5, -9]),
    (RESUME, &[0, -2, -3, -5, -9]),
    (SLEEP, &[0, 1, -2, -5]),
    (WAKEUP, &[0, -1, -2, -5, -9]),
    (IWAKEUP, &[0, -1, -2, -5, -9]),
    (RELEASE_WAIT, &[0, -2, -5, -9]),
    (IRELEASE_WAIT, &[0, -2, -5, -9]),
    (CHANGE_PRIORITY, &[0, -2, -5, -9]),
    (TSLICE, &[0, -2, -5]),
    (TICK, &[0, -2]),
    (SEM_CREATE, &[0, -2, -5]),
    (SEM_DELETE, &[0, -2, -5, -9]),
    (SIGNAL, &[0, -1, -2, -5, -9]),
    (ISIGNAL, &[0, -1, -2, -5, -9]),
    (ACQUIRE, &[0, 1, -2, -5, -9]),
    (POLLING, &[0, -2, -4, -5, -9]),
    (IPOLLING, &[0, -2, -4, -5, -9]),
    (EVENT_CREATE, &[0, -2, -5]),
    (EVENT_DELETE, &[0, -2, -5, -9]),
    (SET, &[0, -2, -5, -9]),
    (ISET, &[0, -2, -5, -9]),
    (CLEAR, &[0, -2, -5, -9]),
    (ICLEAR, &[0, -2, -5, -9]),
    (EVENT_WAIT, &[0, 1, -2, -5, -8, -9]),
    (EVENT_POLLING, &[0, -2, -4, -5, -8, -9]),
    (EVENT_IWAIT, &[0, -2, -4, -5, -8, -9]),
    (READY_TICKS, &[0, -2, -5, -9]),
    (QUEUE_CREATE, &[0, -2, -5]),
    (QUEUE_DELETE, &[0, -2, -5, -9]),
    (SEND, &[0, 1, -2, -5, -9]),
    (SEND_POLLING, &[0, -2, -4, -5, -9]),
    (ISEND_POLLING, &[0, -2, -4, -5, -9]),
    (RECEIVE, &[0, 1, -2, -5, -9]),
    (RECEIVE_POLLING, &[0, -2, -4, -5, -9]),
    (IRECEIVE, &[0, -2, -4, -5, -9]),
];

const MEETINGS: usize = 118;

#[test]
fn random_calls_reach_every_code_and_meeting() {
    let mut codes: BTreeMap<(u32, i32), usize> = BTreeMap::new();
    let mut met: BTreeMap<&str, usize> = BTreeMap::new();
    for seed in 0..RUNS {
        let mut world = World::new(seed);
        let calls = world.run(LENGTH);
        let mut bench = Bench::at(start(&mut world.rng));
        for call in calls {
            let before = bench.kernel.clone();
            let (code, _) = bench.make(call);
            *codes.entry((call.service, code)).or_default() += 1;
            if code >= 0 {
                for meeting in meetings(&before, &call, &bench.kernel) {
                    *met.entry(meeting).or_default() += 1;
                }
            }
        }
    }
    println!("{codes:?}\n{met:#?}");
    for (service, possible) in CODES {
        let given: Vec<i32> = codes.keys().filter(|key| key.0 == service).map(|key| key.1).collect();
        let mut wanted = possible.to_vec();
        wanted.sort();
        assert_eq!(given, wanted, "{}", SERVICES[service as usize].name);
    }
    for (what, times) in codes.iter().map(|(what, times)| (format!("{what:?}"), times)) {
        assert!(*times >= 20, "{what} only {times} times");
    }
    assert_eq!(met.len(), MEETINGS, "{met:#?}");
    for (what, times) in met {
        assert!(times >= 20, "{what} only {times} times");
    }
}

/// Who has this charge, and how it stands to the slice of the level.
fn charged(sound: &State, task: usize, charge: u32) -> (&'static str, &'static str) {
    let kernel = load(sound).expect("the state before is sound");
    let record = kernel.tasks[task];
    let level = &kernel.levels[record.priority as usize];
    let who = match level.queue.as_slice().iter().position(|&t| usize::from(t) == task) {
        Some(0) => "first",
        Some(1) => "second",
        Some(_) => "further back",
        None if record.base == 0 => "not created",
        None if !record.active => "dormant",
        None if record.is_waiting() => "waiting",
        None => "suspended",
    };
    let how = match charge.cmp(&u32::from(level.slice)) {
        _ if charge == 0 => "none",
        _ if level.slice == 0 => "no slice",
        std::cmp::Ordering::Less => "below",
        std::cmp::Ordering::Equal => "at",
        std::cmp::Ordering::Greater => "above",
    };
    (who, how)
}

#[test]
fn damaged_charges_are_of_every_kind() {
    let mut rng = Rng::new(17);
    let mut met: BTreeMap<_, usize> = BTreeMap::new();
    for seed in 0..1_000 {
        let (_, state) = reached(seed);
        let picked = std::iter::repeat_with(|| damage(&mut rng, &state)).take(10);
        for damage in picked.chain(charges(&state)) {
            let Some(task) = (1..=24).find(|&t| damage.slot == charge_of(t)) else { continue };
            let kind = charged(&state, task, damage.value);
            let harmless = kind.1 == "none" || kind == ("first", "below");
            assert_eq!(is_sound(&damage.apply(&state)), harmless, "seed {seed}, {damage}: {kind:?}");
            *met.entry(kind).or_default() += 1;
        }
    }
    println!("{met:#?}");
    for who in ["first", "second", "further back", "waiting", "suspended", "dormant"] {
        for how in ["no slice", "below", "at", "above"] {
            assert!(met.get(&(who, how)).is_some_and(|&times| times >= 20), "{who}, {how}");
        }
    }
    assert!(met[&("first", "none")] >= 20 && met[&("not created", "no slice")] >= 20);
}

#[test]
fn damaged_times_of_entry_are_of_every_kind() {
    let mut rng = Rng::new(19);
    let mut met: BTreeMap<_, usize> = BTreeMap::new();
    for seed in 0..1_000 {
        let (_, state) = reached(seed);
        let picked = std::iter::repeat_with(|| damage(&mut rng, &state)).take(10);
        for damage in picked.chain(entries(&state)) {
            let Some(task) = (1..=24).find(|&t| damage.slot == entered_of(t)) else { continue };
            let who = charged(&state, task, 0).0;
            let may_have_one = !matches!(who, "dormant" | "not created");
            assert_eq!(
                is_sound(&damage.apply(&state)),
                may_have_one || damage.value == 0,
                "seed {seed}, {damage}: {who}"
            );
            let when = match damage.value.cmp(&state.numbers.time) {
                _ if damage.value == 0 => "never",
                std::cmp::Ordering::Less => "before",
                std::cmp::Ordering::Equal => "now",
                std::cmp::Ordering::Greater => "before the wrap",
            };
            *met.entry((who, when)).or_default() += 1;
        }
        let any = any_times(&mut rng, &state).iter().fold(state, |state, damage| damage.apply(&state));
        assert!(is_sound(&any), "seed {seed}");
    }
    println!("{met:#?}");
    for who in ["first", "second", "further back", "waiting", "suspended", "dormant", "not created"] {
        for when in ["before", "now", "before the wrap"] {
            assert!(met.get(&(who, when)).is_some_and(|&times| times >= 20), "{who}, {when}");
        }
    }
}

#[test]
fn the_same_seed_gives_the_same_calls() {
    assert_eq!(World::new(5).run(500), World::new(5).run(500));
    assert_ne!(World::new(5).run(500), World::new(6).run(500));
}

#[test]
fn no_world_of_lists_asks_for_ready_ticks() {
    let asks = |calls: &[Call]| calls.iter().any(|call| call.service == READY_TICKS);
    assert!((0..300).all(|seed| !asks(&World::of_lists(seed).run(300))));
    assert!((0..300).filter(|&seed| asks(&World::new(seed).run(300))).count() > 250);
    let tasks = (0..300).flat_map(|seed| World::new(seed).run(300)).filter(|call| call.service == READY_TICKS);
    let (inside, outside): (Vec<u32>, Vec<u32>) = tasks.map(|call| call.a).partition(|task| (1..=24).contains(task));
    assert!(inside.len() > 1_000 && outside.len() > 50, "{} in range, {} not", inside.len(), outside.len());
}

#[test]
fn lists_of_random_calls_are_read_back() {
    for seed in 0..300 {
        let mut world = World::of_lists(seed);
        let calls = world.run(100);
        let file = readable(&mut world.rng, &calls);
        let read = read_list(&file).expect("a readable list");
        assert_eq!(lines(&read, 4), lines(&calls, 4)); // unused numbers are not written
        assert_eq!(run_calls(&read), run_calls(&calls));
    }
}

fn has(bytes: &[u8], text: &str) -> bool {
    bytes.windows(text.len()).any(|part| part == text.as_bytes())
}

#[test]
fn readable_lists_have_the_word_in_every_timeout() {
    for (what, endless) in [("as they come", false), ("endless", true)] {
        let mut met: BTreeMap<(String, usize), usize> = BTreeMap::new();
        for seed in 0..1_000 {
            let mut world = World::of_lists(seed);
            let mut calls = world.run(150);
            if endless {
                make_endless(&mut world.rng, &mut calls);
            }
            let text = String::from_utf8(readable(&mut world.rng, &calls)).expect("a readable list is ASCII");
            for line in text.lines().filter(|line| line.contains(WORD)) {
                let fields: Vec<&str> = line.split(',').collect();
                *met.entry((fields[1].to_string(), fields.len())).or_default() += 1;
            }
        }
        println!("{what}: {met:#?}");
        let places: Vec<(&str, usize)> = met.keys().map(|(service, fields)| (service.as_str(), *fields)).collect();
        let both = ["tn_queue_receive", "tn_queue_send", "tn_sem_acquire", "tn_task_sleep"].into_iter();
        let both = both.flat_map(|service| [5, 6].map(|fields| (service, fields)));
        assert_eq!(places, [("tn_event_wait", 6)].into_iter().chain(both).collect::<Vec<_>>());
        let least = if endless { 100 } else { 10 };
        assert!(met.values().all(|&times| times >= least), "{what}");
    }
}

#[test]
fn damaged_lists_have_the_word_and_nearly_the_word() {
    let mut rng = Rng::new(23);
    let mut met: BTreeMap<(&str, &str), usize> = BTreeMap::new();
    for seed in 0..10_000 {
        let calls = World::of_lists(seed).run(20);
        let bad = bad_list(&mut rng, &calls);
        let line = bad.file.split(|&byte| byte == b'\n').nth(bad.line - 1).expect("the damaged line");
        for text in NEARLY_THE_WORD.into_iter().chain([WORD]).filter(|text| has(line, text)) {
            *met.entry((bad.damage, text)).or_default() += 1;
        }
        let mut file = join(&mut rng, &lines(&calls, 4)); // without the word
        put_word(&mut rng, &mut file);
        if has(&file, WORD) {
            *met.entry(("put", if read_list(&file).is_ok() { "read" } else { "refused" })).or_default() += 1;
        }
    }
    println!("{met:#?}");
    let with_it =
        ["the word for another number", "unused field filled", "foreign byte", "CR inside"].map(|what| (what, WORD));
    let nearly = ["nearly the word", "nearly the word for a timeout"].into_iter();
    let nearly = nearly.flat_map(|damage| NEARLY_THE_WORD.map(|near| (damage, near)));
    for what in nearly.chain(with_it) {
        assert!(met.get(&what).is_some_and(|&times| times >= 5), "{what:?}");
    }
    assert!(met[&("put", "read")] >= 100 && met[&("put", "refused")] >= 1_000);
}
