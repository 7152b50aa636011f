//! Random lists as text, readable ones and damaged ones, from repeatable random calls. An endless timeout is a word in some of them.
//! Every damage of a single line makes that line unreadable, so the runner's answer to such a file is known.

use crate::gen::Rng;
use crate::kernel::FOREVER;
use crate::services::{Call, ACQUIRE, EXIT, READY_TICKS, RECEIVE, SEND, SERVICES, SLEEP};

/// The header of a list with three or four numbers on every line.
pub fn header(width: usize) -> &'static [u8] {
    if width == 3 {
        b"ctx,service,a,b,c"
    } else {
        b"ctx,service,a,b,c,d"
    }
}

/// The width of a list of these calls: four numbers where a call takes four, else either.
pub fn width(rng: &mut Rng, calls: &[Call]) -> usize {
    if calls.iter().any(|call| call.numbers() == 4) {
        4
    } else {
        rng.pick(&[3, 4])
    }
}

/// First lines that are no header; with any line end, or none, the answer is -11.
pub const BAD_HEADERS: [&[u8]; 21] = [
    b"",
    b"\r",
    b"ctx",
    b"ctx,service,a,b",
    b"ctx,service,a,b,",
    b"ctx,service,a,b,c,",
    b"ctx,service,a,b,c,e",
    b"ctx,service,a,b,c,D",
    b"ctx,service,a,b,c,d,",
    b"ctx,service,a,b,c,d,e",
    b"ctx,service,a,b,c,d ",
    b"ctx,service,a,b,C",
    b"CTX,service,a,b,c",
    b" ctx,service,a,b,c",
    b"ctx,service,a,b,c ",
    b"ctx,service,a,b,c\r\r",
    b"ctx\r,service,a,b,c",
    b"ctx;service;a;b;c",
    b"\xef\xbb\xbfctx,service,a,b,c",
    b"\"ctx\",\"service\",\"a\",\"b\",\"c\"",
    b"T,tn_task_exit,,,",
];

const UNKNOWN_NAMES: [&str; 26] = [
    "",
    " ",
    "tn_fmem_get",
    "tn_task_isuspend",
    "tn_event_sett",
    "tn_event_isset",
    "tn_event_ichar",
    "tn_event_await",
    "tn_event_wait_pollin",
    "tn_mutex_lock",
    "tn_queue_isend",
    "tn_queue_ireceive_polling",
    "tn_queue_reveive_polling",
    "tn_queue_receive_pollin",
    "tn_queue_sendd",
    "tn_start_system",
    "tn_sys_time_get",
    "tn_sem_acquir",
    "tn_sem_acquiree",
    "tn_tick_int_processin",
    "TN_TASK_EXIT",
    " tn_task_exit",
    "tn_task_exit ",
    "tn_task_exit()",
    "ready_ticks",
    "tn_ready_ticks",
];

const TOO_LARGE: [&str; 8] = [
    "4294967296",
    "4294967300",
    "5000000000",
    "9999999999",
    "10000000000",
    "18446744073709551616",
    "18446744073709551617",
    "340282366920938463463374607431768211457",
];

/// The word that may stand for an endless timeout.
pub const WORD: &str = "forever";

/// In no field can these be read.
pub const NEARLY_THE_WORD: [&str; 18] = [
    "Forever",
    "FOREVER",
    "foreveR",
    "foreve",
    "orever",
    "forevers",
    "forever1",
    "1forever",
    "forever ",
    " forever",
    "forever\t",
    "forever\0",
    "\"forever\"",
    "for ever",
    "forever4294967295",
    "foreverforever",
    "-forever",
    "endless",
];

/// A damage makes of a call, in a list of this width, a line that can't be read, or nothing if the call has no place for it.
type Damage = fn(&mut Rng, &Call, usize) -> Option<Vec<u8>>;

pub const LINE_DAMAGES: [(&str, Damage); 26] = [
    ("empty line", |_, _, _| Some(Vec::new())),
    ("CR alone", |_, _, _| Some(b"\r".to_vec())),
    ("CR inside", |rng, call, width| inserted(rng, call, width, b"\r")),
    ("CR before the line end", |_, call, width| Some([&line(call, width), &b"\r\r"[..]].concat())),
    ("LF inside", |_, call, width| Some(call.line(width).replacen("tn_", "tn\n_", 1).into_bytes())),
    ("no such context", |rng, call, width| {
        with_field(call, width, 0, rng.pick(&["t", "i", "", " T", "T ", "TT", "TI", "X", "\"T\"", "0"]))
    }),
    ("no such service", |rng, call, width| with_field(call, width, 1, rng.pick(&UNKNOWN_NAMES))),
    ("a service that no list holds", |rng, _, width| Some(line(&Call::of(READY_TICKS, rng.from(0, 25), 0, 0), width))),
    ("one letter of the service", one_letter),
    ("used field blank", |rng, call, width| changed_number(rng, call, width, |_, _| String::new())),
    ("unused field filled", unused_filled),
    ("too few fields", |_, call, width| Some(fields(call, width)[..width + 1].join(",").into_bytes())),
    ("too many fields", |rng, call, width| {
        Some(format!("{},{}", call.line(width), rng.pick(&["", "0", "1"])).into_bytes())
    }),
    ("another separator", |rng, call, width| {
        Some(fields(call, width).join(rng.pick(&[";", "\t", " ", ", "])).into_bytes())
    }),
    ("needless zero", |rng, call, width| changed_number(rng, call, width, |_, n| format!("0{n}"))),
    ("sign", |rng, call, width| changed_number(rng, call, width, |rng, n| format!("{}{n}", rng.pick(&["+", "-"])))),
    ("number too large", |rng, call, width| {
        changed_number(rng, call, width, |rng, _| rng.pick(&TOO_LARGE).to_string())
    }),
    ("not a digit", |rng, call, width| changed_number(rng, call, width, not_a_digit)),
    ("quotes", |rng, call, width| changed_number(rng, call, width, |_, n| format!("\"{n}\""))),
    ("the word for another number", |rng, call, width| {
        let others: Vec<usize> = (0..call.numbers()).filter(|&place| call.timeout() != Some(place)).collect();
        (!others.is_empty()).then(|| with_field(call, width, 2 + rng.pick(&others), WORD))?
    }),
    ("nearly the word", |rng, call, width| {
        changed_number(rng, call, width, |rng, _| rng.pick(&NEARLY_THE_WORD).to_string())
    }),
    ("nearly the word for a timeout", |rng, _, width| {
        let [sleep, acquire] = [Call::of(SLEEP, 1, 0, 0), Call::of(ACQUIRE, 1, 2, 0)];
        let [send, receive] = [Call::of(SEND, 1, 2, 3), Call::of(RECEIVE, 1, 2, 0)];
        let calls = [sleep, acquire, send, receive, Call::wait(1, 2, 0, 5)];
        let call = rng.pick(&calls[..width + 1]);
        with_field(&call, width, 2 + call.timeout()?, rng.pick(&NEARLY_THE_WORD))
    }),
    ("foreign byte", |rng, call, width| {
        let byte = rng.pick(&[0, 9, 11, 12, 26, 34, 127, 128, 160, 0xef, 255]);
        inserted(rng, call, width, &[byte])
    }),
    ("exit with a number", |rng, _, width| with_field(&Call::of(EXIT, 0, 0, 0), width, 2, rng.pick(&["0", "1"]))),
    ("a wait under the old header", |rng, _, width| {
        let numbers = rng.pick(&[3, 4]);
        (width == 3).then(|| line(&Call::wait(1, 2, 0, 5), numbers))
    }),
    ("the other header's width", |_, call, width| (call.numbers() < 4).then(|| line(call, 7 - width))),
];

pub fn line(call: &Call, width: usize) -> Vec<u8> {
    call.line(width).into_bytes()
}

/// The line, half of the time with the word for an endless timeout.
pub fn line_with_word(rng: &mut Rng, call: &Call, width: usize) -> Vec<u8> {
    let endless = call.timeout().filter(|&place| [call.a, call.b, call.c, call.d][place] == FOREVER);
    let worded = endless.filter(|_| rng.percent(50)).and_then(|place| with_field(call, width, 2 + place, WORD));
    worded.unwrap_or_else(|| line(call, width))
}

fn fields(call: &Call, width: usize) -> Vec<String> {
    call.line(width).split(',').map(str::to_string).collect()
}

fn with_field(call: &Call, width: usize, place: usize, text: &str) -> Option<Vec<u8>> {
    let mut fields = fields(call, width);
    fields[place] = text.to_string();
    Some(fields.join(",").into_bytes())
}

/// One of the numbers that the call uses, put otherwise.
fn changed_number(rng: &mut Rng, call: &Call, width: usize, change: fn(&mut Rng, &str) -> String) -> Option<Vec<u8>> {
    let used = call.numbers();
    if used == 0 {
        return None;
    }
    let place = 2 + rng.below(used);
    let text = change(rng, &fields(call, width)[place]);
    with_field(call, width, place, &text)
}

fn unused_filled(rng: &mut Rng, call: &Call, width: usize) -> Option<Vec<u8>> {
    let used = call.numbers();
    if used == width {
        return None;
    }
    let place = 2 + used + rng.below(width - used);
    with_field(call, width, place, rng.pick(&["0", "1", " ", "\"\"", WORD]))
}

/// No service has a Z.
fn one_letter(rng: &mut Rng, call: &Call, width: usize) -> Option<Vec<u8>> {
    let mut line = line(call, width);
    let name = SERVICES[call.service as usize].name;
    line[2 + rng.below(name.len())] = b'Z';
    Some(line)
}

fn not_a_digit(rng: &mut Rng, number: &str) -> String {
    let mut text = number.to_string();
    let place = rng.below(text.len() + 1);
    text.insert_str(place, rng.pick(&[" ", "/", ":", ".", "_", "x", "e1", "forever", "٣"]));
    text
}

/// The bytes stand before some byte of the line, so never at its end.
fn inserted(rng: &mut Rng, call: &Call, width: usize, bytes: &[u8]) -> Option<Vec<u8>> {
    let line = line_with_word(rng, call, width);
    let place = rng.below(line.len());
    Some([&line[..place], bytes, &line[place..]].concat())
}

/// One damage that the call has a place for: its name and the line.
pub fn damaged_line(rng: &mut Rng, call: &Call, width: usize) -> (&'static str, Vec<u8>) {
    loop {
        let (name, damage) = rng.pick(&LINE_DAMAGES);
        if let Some(line) = damage(rng, call, width) {
            return (name, line);
        }
    }
}

/// Puts lines together with LF, CRLF or both; the last line may stay without a line end.
pub fn join(rng: &mut Rng, lines: &[Vec<u8>]) -> Vec<u8> {
    let both: [&[u8]; 2] = [b"\n", b"\r\n"];
    let ends = rng.pick(&[&both[..1], &both[1..], &both[..]]);
    let open = rng.percent(30);
    let mut file = Vec::new();
    for (place, line) in lines.iter().enumerate() {
        file.extend_from_slice(line);
        let last = place + 1 == lines.len();
        // Without its line end an empty line is no line.
        if !(last && open && !line.is_empty()) {
            file.extend_from_slice(rng.pick(ends));
        }
    }
    file
}

/// Makes half of the calls' timeouts endless.
pub fn make_endless(rng: &mut Rng, calls: &mut [Call]) {
    for call in calls {
        if rng.percent(50) {
            match call.timeout() {
                Some(0) => call.a = FOREVER,
                Some(1) => call.b = FOREVER,
                Some(2) => call.c = FOREVER,
                Some(_) => call.d = FOREVER,
                None => {}
            }
        }
    }
}

/// A readable list of these calls.
pub fn readable(rng: &mut Rng, calls: &[Call]) -> Vec<u8> {
    let width = width(rng, calls);
    let lines = lines_with_words(rng, calls, width);
    join(rng, &lines)
}

pub fn lines(calls: &[Call], width: usize) -> Vec<Vec<u8>> {
    std::iter::once(header(width).to_vec()).chain(calls.iter().map(|call| line(call, width))).collect()
}

pub fn lines_with_words(rng: &mut Rng, calls: &[Call], width: usize) -> Vec<Vec<u8>> {
    std::iter::once(header(width).to_vec()).chain(calls.iter().map(|call| line_with_word(rng, call, width))).collect()
}
