//! The word for the endless timeout: in every timeout, under both headers and before every line end, it is the number that it stands for.
//! In any other field, and in any other spelling, it can't be read.

mod answers;
use answers::{code_of, run};
use peer::gen_lists::{header, line, NEARLY_THE_WORD, WORD};
use peer::lists::read_list;
use peer::services::*;

const DIGITS: &str = "4294967295";

/// The timeouts by document 000: the service, and which of its numbers it is.
const TIMEOUTS: [(u32, usize); 5] = [(SLEEP, 0), (ACQUIRE, 1), (EVENT_WAIT, 3), (SEND, 2), (RECEIVE, 1)];

/// Under each header every service that it has room for.
fn services() -> impl Iterator<Item = (usize, u32)> {
    let all = [3, 4].into_iter().flat_map(|width| in_lists().map(move |service| (width, service)));
    all.filter(|&(width, service)| SERVICES[service as usize].numbers <= width)
}

/// The call's line with this text for one of its fields, as line 3 of a list that ends so.
fn list(call: &Call, width: usize, field: usize, text: &str, end: &str) -> Vec<u8> {
    let mut fields: Vec<String> = call.line(width).split(',').map(str::to_string).collect();
    fields[field] = text.to_string();
    let first = line(&Call::of(EXIT, 0, 0, 0), width);
    [header(width), b"\r\n", &first, b"\n", fields.join(",").as_bytes(), end.as_bytes()].concat()
}

#[test]
fn in_every_timeout_it_is_the_number() {
    let mut lists = 0;
    for (width, service) in services() {
        let Some(&(_, place)) = TIMEOUTS.iter().find(|&&(timed, _)| timed == service) else { continue };
        for (context, end) in [T, I].into_iter().flat_map(|context| ["\n", "\r\n", ""].map(|end| (context, end))) {
            let mut numbers = [1, 2, 3, 4];
            numbers[place] = u32::MAX;
            numbers[SERVICES[service as usize].numbers..].fill(0);
            let [a, b, c, d] = numbers;
            let call = Call { context, service, a, b, c, d };
            let [word, digits] = [WORD, DIGITS].map(|text| list(&call, width, 2 + place, text, end));
            assert_eq!(read_list(&word), Ok(vec![Call::of(EXIT, 0, 0, 0), call]));
            assert_eq!(read_list(&digits), read_list(&word));
            assert_eq!(run(&word), run(&digits));
            lists += 1;
        }
    }
    assert_eq!(lists, 9 * 6); // a flag wait stands under one header alone
}

#[test]
fn in_no_other_field_and_by_no_other_spelling() {
    let texts = || NEARLY_THE_WORD.into_iter().chain([WORD]);
    let mut read = 0;
    for (width, service) in services() {
        let good = Call { d: 4, ..Call::of(service, 1, 2, 3) };
        for (field, text) in (0..width + 2).flat_map(|field| texts().map(move |text| (field, text))) {
            let is_timeout = text == WORD && TIMEOUTS.iter().any(|&(s, place)| (s, 2 + place) == (service, field));
            for (end, result) in [("\n", 32), ("\r\n", 32), ("", 32), ("\nT,tn_task_exit\n", -14)] {
                let file = list(&good, width, field, text, end);
                let result = if is_timeout { result } else { -13 };
                assert_eq!(code_of(&file), result, "{:?}", String::from_utf8_lossy(&file));
                read += usize::from(result == 32);
            }
        }
    }
    assert_eq!(read, 9 * 3);
}

/// The word with one of its bytes left out, or another in its place, and with a byte more at every place; and a file that ends in its midst.
#[test]
fn one_byte_of_it() {
    let good = Call::of(SLEEP, 1, 0, 0);
    let file = |text: &[u8]| [&b"ctx,service,a,b,c\nT,tn_task_sleep,"[..], text, b",,\n"].concat();
    assert_eq!(read_list(&file(WORD.as_bytes())), Ok(vec![Call { a: u32::MAX, ..good }]));
    for place in 0..=WORD.len() {
        let (before, after) = WORD.as_bytes().split_at(place);
        for byte in 0..=255 {
            assert_eq!(read_list(&file(&[before, &[byte], after].concat())), Err(2), "{byte} at {place}");
            if after.first().is_some_and(|&was| was != byte) {
                assert_eq!(read_list(&file(&[before, &[byte], &after[1..]].concat())), Err(2), "{byte} for {place}");
            }
        }
        if place < WORD.len() {
            assert_eq!(read_list(&file(&[before, &after[1..]].concat())), Err(2), "without {place}");
            assert_eq!(read_list(&[&b"ctx,service,a,b,c,d\nT,tn_event_wait,1,1,0,"[..], before].concat()), Err(2));
        }
    }
}

#[test]
fn the_last_field_ends_with_it() {
    let file = |after: &str| format!("ctx,service,a,b,c,d\nT,tn_event_wait,1,1,0,{WORD}{after}").into_bytes();
    for after in ["", "\n", "\r\n"] {
        assert_eq!(read_list(&file(after)), Ok(vec![Call::wait(1, 1, 0, u32::MAX)]), "{after:?}");
    }
    for after in ["\r", "\r\r\n", "\n\n", ",", ",\n", " \n", "0"] {
        let line = if after == "\n\n" { 3 } else { 2 };
        assert_eq!(read_list(&file(after)), Err(line), "{after:?}");
    }
}

/// Three tasks wait without end, each in its way, and ticks pass; then each wait is ended by another's call.
const WAITS: &str = "T,tn_sem_create,1,0,1,
T,tn_event_create,1,0,0,
T,tn_task_create,1,1,1,
T,tn_task_sleep,forever,,,
T,tn_task_create,2,2,1,
T,tn_sem_acquire,1,forever,,
T,tn_task_create,3,3,1,
T,tn_event_wait,1,1,0,forever
I,tn_tick_int_processing,,,,
I,tn_event_iset,1,1,,
I,tn_sem_isignal,1,,,
I,tn_task_iwakeup,1,,,
";
const ANSWER: &str =
    "n,code,running\r\n1,0,0\r\n2,0,0\r\n3,0,1\r\n4,1,0\r\n5,0,2\r\n6,1,0\r\n7,0,3\r\n8,1,0\r\n9,0,0\r\n10,0,3\r\n\
                      11,0,2\r\n12,0,1\r\n";

#[test]
fn the_waits_are_endless() {
    let ticks = "I,tn_tick_int_processing,,,,\n".repeat(2_000);
    let wide = format!("ctx,service,a,b,c,d\n{WAITS}");
    for file in [wide.clone(), wide.replace('\n', "\r\n"), wide.replace(WORD, DIGITS)] {
        assert_eq!(run(file.as_bytes()).1, ANSWER.as_bytes());
    }
    let long = format!("ctx,service,a,b,c,d\n{}{ticks}", &WAITS[..WAITS.find("I,tn_event_iset").unwrap()]);
    let (_, answer) = run(long.as_bytes());
    assert!(answer.ends_with(b"\r\n2009,0,0\r\n"));
    let kept: Vec<&str> = WAITS.lines().filter(|line| !line.contains("tn_event")).collect();
    let narrow: String = kept.iter().map(|line| format!("\n{}", &line[..line.len() - 1])).collect();
    let narrow = format!("ctx,service,a,b,c{narrow}");
    assert_eq!(run(narrow.as_bytes()), run(narrow.replace(WORD, DIGITS).as_bytes()));
    assert!(run(narrow.as_bytes()).1.ends_with(b"\r\n8,0,2\r\n9,0,1\r\n"));
}
