//! The proved library as the tests call it: linked, or behind a pipe on a machine that can't link it (it is for x86-64).
//! Behind the pipe is tests/serve of this project, one process for each thread that asks.
#![allow(dead_code)]

use peer::layout::{Reply, State};
use peer::services::Call;

/// Behind the pipe only one in so many of the linked runs is made.
pub const SHARE: u64 = if cfg!(linked) { 1 } else { 5 };

#[cfg(linked)]
mod entry {
    use super::{Call, Reply, State};

    #[repr(C)]
    struct Report {
        code: i32,
        running: u32,
        value: u32,
    }

    extern "C" {
        fn gritgarland_call(s: State, context: u32, service: u32, a: u32, b: u32, c: u32, d: u32) -> Reply;
        fn gritgarland_call_in_place(
            s: *mut State,
            context: u32,
            service: u32,
            a: u32,
            b: u32,
            c: u32,
            d: u32,
        ) -> Report;
        fn gritgarland_is_sound(s: State) -> bool;
        fn run_list(file: *const u8, n: usize, answer: *mut u8, m: usize) -> i64;
    }

    pub fn call(state: &State, call: &Call) -> Reply {
        // SAFETY: the layout is the library's, and any bytes are a State.
        unsafe { gritgarland_call(*state, call.context, call.service, call.a, call.b, call.c, call.d) }
    }

    pub fn call_in_place(state: &State, call: &Call) -> Reply {
        let mut lent = *state;
        // SAFETY: as above, and the pointer is to a state that nobody else has.
        let Report { code, running, value } =
            unsafe { gritgarland_call_in_place(&mut lent, call.context, call.service, call.a, call.b, call.c, call.d) };
        Reply { code, running, value, state: lent }
    }

    pub fn is_sound(state: &State) -> bool {
        // SAFETY: as above.
        unsafe { gritgarland_is_sound(*state) }
    }

    pub fn list(file: &[u8], answer: &mut [u8]) -> i64 {
        // SAFETY: both parts are as long as is said, and do not overlap.
        unsafe { run_list(file.as_ptr(), file.len(), answer.as_mut_ptr(), answer.len()) }
    }
}

#[cfg(not(linked))]
mod entry {
    use super::{Call, Reply, State};
    use std::cell::RefCell;
    use std::io::{BufReader, Read, Write};
    use std::mem::{size_of, MaybeUninit};
    use std::process::{Child, ChildStdin, ChildStdout, Command, Stdio};

    struct Served {
        child: Child,
        to: ChildStdin,
        from: BufReader<ChildStdout>,
    }

    impl Drop for Served {
        fn drop(&mut self) {
            let _ = self.child.kill();
            let _ = self.child.wait();
        }
    }

    fn start() -> Served {
        let words =
            std::env::var("GRITGARLAND_SERVE").expect("GRITGARLAND_SERVE names the command that serves the library");
        let mut words = words.split(' ');
        let mut command = Command::new(words.next().unwrap_or_default());
        let mut child =
            command.args(words).stdin(Stdio::piped()).stdout(Stdio::piped()).spawn().expect("the library is served");
        let to = child.stdin.take().expect("its standard input");
        let from = BufReader::with_capacity(1 << 17, child.stdout.take().expect("its standard output"));
        Served { child, to, from }
    }

    thread_local! {
        static SERVED: RefCell<Served> = RefCell::new(start());
    }

    fn ask(request: &[u8], answers: &mut [&mut [u8]]) {
        SERVED.with_borrow_mut(|served| {
            served.to.write_all(request).expect("the library takes a request");
            for part in answers {
                served.from.read_exact(part).expect("the library answers");
            }
        })
    }

    fn bytes_of(state: &State) -> &[u8] {
        // SAFETY: a State is plain numbers, and no byte of it is padding.
        unsafe { std::slice::from_raw_parts((state as *const State).cast(), size_of::<State>()) }
    }

    pub fn call(state: &State, call: &Call) -> Reply {
        replied(b'C', state, call)
    }

    pub fn call_in_place(state: &State, call: &Call) -> Reply {
        replied(b'P', state, call)
    }

    fn replied(what: u8, state: &State, call: &Call) -> Reply {
        let mut request = vec![what];
        request.extend_from_slice(bytes_of(state));
        for number in [call.context, call.service, call.a, call.b, call.c, call.d] {
            request.extend_from_slice(&number.to_le_bytes());
        }
        let mut reply = MaybeUninit::<Reply>::zeroed();
        // SAFETY: a Reply is plain numbers, so any bytes are one, and the part is as long as a Reply.
        unsafe {
            let part = std::slice::from_raw_parts_mut(reply.as_mut_ptr().cast(), size_of::<Reply>());
            ask(&request, &mut [part]);
            reply.assume_init()
        }
    }

    pub fn is_sound(state: &State) -> bool {
        let mut request = vec![b'S'];
        request.extend_from_slice(bytes_of(state));
        let mut sound = [0];
        ask(&request, &mut [&mut sound]);
        sound[0] != 0
    }

    pub fn list(file: &[u8], answer: &mut [u8]) -> i64 {
        let mut request = vec![b'L'];
        request.extend_from_slice(&(file.len() as u32).to_le_bytes());
        request.extend_from_slice(&(answer.len() as u32).to_le_bytes());
        request.extend_from_slice(file);
        request.extend_from_slice(answer);
        let mut result = [0; 8];
        ask(&request, &mut [&mut result, answer]);
        i64::from_le_bytes(result)
    }
}

#[allow(unused_imports)]
pub use entry::{call, call_in_place, is_sound, list};
