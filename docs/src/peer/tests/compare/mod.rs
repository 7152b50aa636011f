//! How one reply of the library, by value and on a lent state, is compared with the peer's, on a state that calls lead to or a damaged one.
//! What differs is cut down to the fewest calls and damages that still show it, and printed.
#![allow(dead_code)]

use crate::library::{call, call_in_place, is_sound as library_is_sound};
use peer::gen_states::{Damage, Run};
use peer::kernel::UNSOUND;
use peer::layout::{self, store, Reply, State};
use peer::services::Call;
use peer::shrink::shrink;
use peer::slots::differences;
use peer::sound::is_sound;

const ENTRIES: [&str; 2] = ["library", "library in place"];

/// The replies of the library's two entries.
pub fn library_calls(state: &State, asked: &Call) -> [Reply; 2] {
    [call(state, asked), call_in_place(state, asked)]
}

/// How the first of the library's replies that differs from the peer's differs from it.
pub fn unlike(ours: &Reply, theirs: &[Reply; 2]) -> Option<String> {
    let (entry, theirs) = ENTRIES.iter().zip(theirs).find(|(_, theirs)| ours != *theirs)?;
    let answer = |reply: &Reply| format!("({}, {}, {})", reply.code, reply.running, reply.value);
    let answer = format!("peer {}, {entry} {}", answer(ours), answer(theirs));
    Some(format!("{answer}\n{}", differences(&ours.state, &theirs.state).join("\n")))
}

pub fn text(calls: &[Call]) -> String {
    calls.iter().map(|call| format!("{call}\n")).collect()
}

/// Damages the state that the run reaches, then tests it and makes one more call; says what differs.
fn damaged_differs(run: &Run, damages: &[Damage], last: &Call) -> Option<String> {
    let mut state = store(&run.end());
    for damage in damages {
        state = damage.apply(&state);
    }
    state_differs(&state, last)
}

pub fn state_differs(state: &State, last: &Call) -> Option<String> {
    let sound = is_sound(state);
    if library_is_sound(state) != sound {
        return Some(format!("sound? peer {sound}, library {}", !sound));
    }
    let theirs = library_calls(state, last);
    let [Reply { code, running, value, .. }, _] = theirs;
    if !sound && (code, running, value) != (UNSOUND, 0, 0) {
        return Some(format!("unsound, but the library answers ({code}, {running}, {value})"));
    }
    unlike(&layout::call(state, *last), &theirs)
}

pub fn test_damaged(seed: u64, run: &Run, damages: &[Damage], last: &Call) {
    if damaged_differs(run, damages, last).is_none() {
        return;
    }
    let of = |calls: &[Call]| Run { time: run.time, calls: calls.to_vec() };
    let damages = shrink(damages, |damages| damaged_differs(run, damages, last).is_some());
    let fewest = of(&shrink(&run.calls, |calls| damaged_differs(&of(calls), &damages, last).is_some()));
    let how = damaged_differs(&fewest, &damages, last).unwrap_or_default();
    let damaged: String = damages.iter().map(|damage| format!("{damage}\n")).collect();
    let (time, calls) = (run.time, text(&fewest.calls));
    panic!("seed {seed}, from time {time}:\n{calls}then the damages\n{damaged}then {last}: {how}");
}
