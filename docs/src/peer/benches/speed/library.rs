//! The library's entries, as the header declares them for C.
//! `check` holds each of them to the peer's answers before anything is timed.

use peer::gen::World;
use peer::layout::{self, Reply, State};
use peer::services::Call;

pub const OBJECT: &str = if cfg!(target_arch = "x86_64") {
    "the shipped archive"
} else {
    "not the shipped object: its LLVM module compiled for this processor"
};

#[repr(C)]
#[derive(PartialEq, Debug)]
pub struct Report {
    pub code: i32,
    pub running: u32,
    pub value: u32,
}

extern "C" {
    fn gritgarland_call(s: State, context: u32, service: u32, a: u32, b: u32, c: u32, d: u32) -> Reply;
    fn gritgarland_call_in_place(s: *mut State, context: u32, service: u32, a: u32, b: u32, c: u32, d: u32) -> Report;
    fn gritgarland_is_sound(s: State) -> bool;
    fn run_list(file: *const u8, n: usize, answer: *mut u8, m: usize) -> i64;
}

#[inline(always)]
pub fn call(state: State, call: &Call) -> Reply {
    // SAFETY: the layout is the library's, and any bytes are a State.
    unsafe { gritgarland_call(state, call.context, call.service, call.a, call.b, call.c, call.d) }
}

#[inline(always)]
pub fn call_in_place(state: &mut State, call: &Call) -> Report {
    // SAFETY: as above, and the pointer is to a state that nobody else has.
    unsafe { gritgarland_call_in_place(state, call.context, call.service, call.a, call.b, call.c, call.d) }
}

#[inline(always)]
pub fn is_sound(state: State) -> bool {
    // SAFETY: as above.
    unsafe { gritgarland_is_sound(state) }
}

#[inline(always)]
pub fn list(file: &[u8], answer: &mut [u8]) -> i64 {
    // SAFETY: both parts are as long as is said, and do not overlap.
    unsafe { run_list(file.as_ptr(), file.len(), answer.as_mut_ptr(), answer.len()) }
}

/// Random calls through every entry that takes a state: the peer's reply and state each time, of sound and unsound states.
pub fn check() {
    for seed in 1..=20 {
        let mut state = State::FRESH;
        for one in World::new(seed).run(200) {
            let expected = layout::call(&state, one);
            assert_eq!(call(state, &one), expected, "by value: {one}");
            let mut lent = state;
            let report = call_in_place(&mut lent, &one);
            let Reply { code, running, value, state: next } = expected;
            assert_eq!((report, lent), (Report { code, running, value }, next), "in place: {one}");
            assert!(is_sound(next), "after {one}");
            state = next;
        }
        state.levels[0].places[0] = 1;
        assert!(!is_sound(state));
        let one = Call::of(peer::services::TICK, 0, 0, 0);
        assert_eq!(call(state, &one), layout::call(&state, one));
    }
}
