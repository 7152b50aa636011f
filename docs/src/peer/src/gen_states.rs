//! States of the library's layout: those that random calls reach, from any time, and those with one number damaged.
//! A damage is kept as place and value, so that it can be made again after other calls.

use crate::gen::{Rng, World, LIMITS};
use crate::kernel::Kernel;
use crate::layout::{store, State, ELEMENTS, QUEUE_PLACES, TASK_PLACES};
use crate::services::Call;
use crate::slots;

/// Calls on the fresh state at some time.
pub struct Run {
    pub time: u32,
    pub calls: Vec<Call>,
}

impl Run {
    /// The state that they lead to.
    pub fn end(&self) -> Kernel {
        after(self.time, &self.calls)
    }
}

/// The state after these calls from the fresh one at this time.
pub fn after(time: u32, calls: &[Call]) -> Kernel {
    let mut kernel = Kernel::fresh();
    kernel.time = time;
    for call in calls {
        kernel.call(call);
    }
    kernel
}

/// Where a run begins: at 0, at any time, or so shortly before the time wraps that it may do so in the run.
pub fn start(rng: &mut Rng) -> u32 {
    match rng.below(4) {
        0 => 0,
        1 => rng.any() as u32,
        _ => u32::MAX - rng.from(0, 60),
    }
}

/// A run of random calls and the state it reaches.
pub fn reached(seed: u64) -> (Run, State) {
    let mut world = World::new(seed);
    let length = world.rng.from(1, 150) as usize;
    let calls = world.run(length);
    let run = Run { time: start(&mut world.rng), calls };
    let state = store(&run.end());
    (run, state)
}

#[derive(Clone, Copy, PartialEq, Eq, Debug)]
pub struct Damage {
    pub slot: usize,
    pub value: u32,
}

impl Damage {
    pub fn apply(&self, state: &State) -> State {
        let mut damaged = *state;
        slots::set(&mut damaged, self.slot, self.value);
        damaged
    }
}

impl std::fmt::Display for Damage {
    fn fmt(&self, f: &mut std::fmt::Formatter<'_>) -> std::fmt::Result {
        write!(f, "{} = {}", slots::name(self.slot), self.value)
    }
}

/// Each task with charges near the slice of its level: the first may have those below it, everyone else may have none.
pub fn charges(state: &State) -> Vec<Damage> {
    let mut damages = Vec::new();
    for task in 1..TASK_PLACES {
        let slot = slots::charge_of(task);
        let slice = state.numbers.slices[usize::from(state.tasks[task].priority)];
        for value in [0, 1, slice.wrapping_sub(1), slice, slice + 1, slice + 65_536] {
            if value != state.tasks[task].charge {
                damages.push(Damage { slot, value });
            }
        }
    }
    damages
}

/// Each task with times of entry around the state's own time and at the limits: a dormant task, and one not created, may have none.
pub fn entries(state: &State) -> Vec<Damage> {
    let now = state.numbers.time;
    let mut damages = Vec::new();
    for task in 1..TASK_PLACES {
        let slot = slots::entered_of(task);
        for value in [0, 1, now, now.wrapping_add(1), now.wrapping_sub(1), now ^ (1 << 31), 65_536, u32::MAX] {
            if value != state.tasks[task].entered {
                damages.push(Damage { slot, value });
            }
        }
    }
    damages
}

/// Any time, and any time of entry for each task that may have one: a sound state stays sound.
pub fn any_times(rng: &mut Rng, state: &State) -> Vec<Damage> {
    let mut damages = vec![Damage { slot: slots::TIME, value: start(rng) }];
    for task in (1..TASK_PLACES).filter(|&task| state.tasks[task].active == 1) {
        let value = if rng.percent(50) { rng.any() as u32 } else { start(rng).wrapping_add(rng.from(0, 120)) };
        damages.push(Damage { slot: slots::entered_of(task), value });
    }
    damages
}

/// Each data queue with other capacities and numbers of elements near those that it has, its newest element and the place behind it
/// otherwise, and each wait on one turned into a wait for the other side.
pub fn stocks(state: &State) -> Vec<Damage> {
    let mut damages = Vec::new();
    let mut other = |slot: usize, value: u32| {
        if slots::get(state, slot) != value {
            damages.push(Damage { slot, value });
        }
    };
    for queue in 1..QUEUE_PLACES {
        let (capacity, taken) = (state.numbers.capacities[queue], state.numbers.taken[queue]);
        for value in [0, 1, taken, taken + 1, taken + 2, 17, 18, 256 + capacity] {
            other(slots::capacity_of(queue), value);
        }
        for value in [0, 1, taken.wrapping_sub(1), taken + 1, capacity.wrapping_sub(1), capacity, 256 + taken] {
            other(slots::taken_of(queue), value);
        }
        let behind = taken as usize;
        for place in [behind.wrapping_sub(1), behind, behind + 1, ELEMENTS - 1] {
            for value in [0, 1, 1 << 31] {
                if place < ELEMENTS {
                    other(slots::element_of(queue, place), value);
                }
            }
        }
    }
    for task in (1..TASK_PLACES).filter(|&task| state.tasks[task].wait.kind >= 4) {
        other(slots::kind_of(task), 9 - u32::from(state.tasks[task].wait.kind));
    }
    damages
}

/// A damage of a charge, of a time of entry, of a data queue, of any number, of one that is in use, or of a neighbour of one in use; the state is
/// sound before.
pub fn damage(rng: &mut Rng, state: &State) -> Damage {
    if rng.percent(10) {
        return rng.pick(&charges(state));
    }
    if rng.percent(10) {
        return rng.pick(&entries(state));
    }
    if rng.percent(10) {
        return rng.pick(&stocks(state));
    }
    let any = rng.below(slots::SLOTS);
    let used = (0..slots::SLOTS).map(|step| (any + step) % slots::SLOTS).find(|&slot| slots::get(state, slot) != 0);
    let slot = match (used, rng.below(3)) {
        (Some(used), 0) => used,
        (Some(used), 1) => (used + rng.pick(&[1, slots::SLOTS - 1])) % slots::SLOTS,
        _ => any,
    };
    damage_at(rng, state, slot)
}

/// A new value for one number: most often one that could stand there in some state.
pub fn damage_at(rng: &mut Rng, state: &State, slot: usize) -> Damage {
    let old = slots::get(state, slot);
    for _ in 0..10 {
        let value = match rng.below(10) {
            0 => 0,
            1 => old.wrapping_add(1),
            2 => old.wrapping_sub(1),
            3 => rng.from(1, 5),
            4 => rng.pick(&[4, 10, 11]),
            5 => rng.from(1, 30),
            6 => rng.pick(&LIMITS),
            7 => old ^ (1 << rng.below(32)),
            8 => old | ((rng.any() as u32) << rng.pick(&[8, 16])), // the lower bits stay
            _ => rng.any() as u32,
        };
        let damage = Damage { slot, value };
        if slots::get(&damage.apply(state), slot) != old {
            return damage;
        }
    }
    Damage { slot, value: old.wrapping_add(1) }
}
