//! What the damaged states and the random lists reach of data queues: every way in which the numbers of a queue can be wrong or only other,
//! and every service of theirs in a list.

use peer::gen::{Rng, World};
use peer::gen_lists::readable;
use peer::gen_states::{damage, reached, stocks};
use peer::layout::{load, State, QUEUE_PLACES, TASK_PLACES};
use peer::lists::read_list;
use peer::services::*;
use peer::slots::{capacity_of, element_of, kind_of, taken_of};
use peer::sound::is_sound;
use std::collections::BTreeMap;

/// Who waits on a queue, and how full it is.
fn standing(sound: &State, queue: usize) -> (&'static str, &'static str) {
    let queue = &load(sound).expect("the state before is sound").queues[queue];
    let who = match (queue.senders.is_empty(), queue.receivers.is_empty()) {
        (true, true) => "nobody waits",
        (false, _) => "senders wait",
        _ => "receivers wait",
    };
    let how = match (queue.created, queue.stored.len()) {
        (false, _) => "not created",
        (true, 0) if queue.capacity == 0 => "no capacity",
        (true, 0) => "empty",
        (true, _) if queue.has_room() => "with room",
        (true, _) => "full",
    };
    (who, how)
}

/// Which of a queue's numbers, and of which queue.
fn what(state: &State, slot: usize) -> Option<(&'static str, usize)> {
    (1..QUEUE_PLACES).find_map(|queue| {
        let behind = state.numbers.taken[queue] as usize;
        let element = (0..16).find(|&place| slot == element_of(queue, place));
        let which = match element {
            Some(place) if place < behind => "element",
            Some(_) => "place behind",
            None if slot == capacity_of(queue) => "capacity",
            None if slot == taken_of(queue) => "taken",
            None => return None,
        };
        Some((which, queue))
    })
}

#[test]
fn damaged_stocks_are_of_every_kind() {
    let mut rng = Rng::new(26);
    let mut met: BTreeMap<_, usize> = BTreeMap::new();
    let mut sides = [0; 2];
    for seed in 0..1_500 {
        let (_, state) = reached(seed);
        let picked = std::iter::repeat_with(|| damage(&mut rng, &state)).take(10).collect::<Vec<_>>();
        for damage in picked.into_iter().chain(stocks(&state)) {
            let sound = is_sound(&damage.apply(&state));
            if (1..TASK_PLACES).any(|t| damage.slot == kind_of(t) && state.tasks[t].wait.kind + damage.value as u8 == 9)
            {
                sides[usize::from(sound)] += 1;
            }
            let Some((which, queue)) = what(&state, damage.slot) else { continue };
            assert!(sound || which != "element", "seed {seed}, {damage}"); // any element is one
            assert!(!sound || which != "place behind", "seed {seed}, {damage}");
            *met.entry((which, standing(&state, queue), sound)).or_default() += 1;
        }
    }
    println!("{met:#?}\n{sides:?}");
    let least = |which, who, how, sound| {
        let times = met.get(&(which, (who, how), sound)).copied().unwrap_or(0);
        assert!(times >= 20, "{which}, {who}, {how}, sound {sound}: {times}");
    };
    for (who, how) in [
        ("nobody waits", "not created"),
        ("nobody waits", "no capacity"),
        ("nobody waits", "empty"),
        ("nobody waits", "with room"),
        ("nobody waits", "full"),
        ("senders wait", "no capacity"),
        ("senders wait", "full"),
        ("receivers wait", "no capacity"),
        ("receivers wait", "empty"),
    ] {
        least("capacity", who, how, false);
        if who != "senders wait" {
            least("capacity", who, how, true);
        }
        least("taken", who, how, false);
        least("place behind", who, how, false);
    }
    least("taken", "nobody waits", "empty", true); // an element 0 more
    least("element", "nobody waits", "full", true);
    least("element", "senders wait", "full", true);
    assert!(sides.iter().all(|&times| times >= 20), "{sides:?}"); // alone it may wait for the other side
}

#[test]
fn lists_hold_every_service_of_data_queues() {
    let mut met: BTreeMap<u32, usize> = BTreeMap::new();
    for seed in 0..300 {
        let mut world = World::of_lists(seed);
        let calls = world.run(150);
        for call in read_list(&readable(&mut world.rng, &calls)).expect("a readable list") {
            *met.entry(call.service).or_default() += 1;
        }
    }
    assert!((QUEUE_CREATE..=IRECEIVE).all(|service| met[&service] >= 100), "{met:?}");
}
