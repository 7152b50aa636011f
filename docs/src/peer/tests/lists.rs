//! Lists of calls: document 01's worked list, its refusals and their order, and files damaged in every way.

mod answers;
use answers::{code_of, run, FILL};
use peer::gen::{Rng, World};
use peer::gen_files::{bad_end, bad_list, damage_bytes, exact};
use peer::gen_lists::{damaged_line, header, join, lines, readable, BAD_HEADERS, LINE_DAMAGES};
use peer::lists::{read_list, run_list};
use peer::services::*;

const WORKED: &str = "ctx,service,a,b,c
T,tn_sem_create,1,0,1
T,tn_task_create,1,5,1
T,tn_task_create,2,5,1
T,tn_sem_acquire,1,2,
I,tn_tick_int_processing,,,
I,tn_sem_isignal,1,,
T,tn_sem_signal,1,,
T,tn_sem_signal,1,,
T,tn_task_exit,,,
T,tn_sem_polling,1,,
";
const WORKED_ANSWER: &str = "n,code,running\r\n1,0,0\r\n2,0,1\r\n3,0,1\r\n4,1,2\r\n5,0,2\r\n6,0,2\r\n7,0,2\r\n\
                             8,-1,2\r\n9,0,1\r\n10,0,1\r\n";

fn with_header(rest: &str) -> Vec<u8> {
    format!("ctx,service,a,b,c\n{rest}").into_bytes()
}

#[test]
fn worked_list_byte_for_byte() {
    let open = WORKED.trim_end().to_string();
    for file in [WORKED.to_string(), WORKED.replace('\n', "\r\n"), open.clone(), open.replace('\n', "\r\n")] {
        let (result, answer) = run(file.as_bytes());
        assert_eq!(answer, WORKED_ANSWER.as_bytes());
        assert_eq!(result, WORKED_ANSWER.len() as i64);
    }
}

#[test]
fn small_files() {
    for (file, result) in [
        ("", -11),
        ("\n", -11),
        ("\r\n", -11),
        ("ctx,service,a,b,c", 16),
        ("ctx,service,a,b,c\n", 16),
        ("ctx,service,a,b,c\r\n", 16),
        ("ctx,service,a,b,c\r", -11),
        ("ctx,service,a,b,c\r\r\n", -11),
        ("ctx,service,a,b,c\n\n", -12),
        ("ctx,service,a,b,c\r\n\r\n", -12),
        ("ctx,service,a,b,c\n\r", -12),
        ("\u{feff}ctx,service,a,b,c\n", -11),
        ("ctx,service,a,b,c\nT,tn_task_exit,,,\n\n", -13),
        ("ctx,service,a,b,c\nT,tn_task_exit,,,\r", -12),
        ("ctx,service,a,b,c\nT,tn_task_exit,,,\rT,tn_task_exit,,,\n", -12),
        ("ctx,service,a,b,c\nT,tn_task_exit,0,,\n", -12),
    ] {
        assert_eq!(code_of(file.as_bytes()), result, "{file:?}");
    }
    assert_eq!(run(b"ctx,service,a,b,c").1, b"n,code,running\r\n");
}

/// A hold until a key press: task 1 waits endlessly for the key's bit, and the interrupt sets it.
const HELD: &str = "ctx,service,a,b,c,d
T,tn_event_create,1,3,0,
T,tn_task_create,1,2,1,
T,tn_event_wait,1,1,0,4294967295
I,tn_tick_int_processing,,,,
I,tn_event_iset,1,1,,
T,tn_event_wait_polling,1,1,0,
T,tn_event_clear,1,4294967295,,
T,tn_event_wait,1,0,0,1
";
const HELD_ANSWER: &str =
    "n,code,running\r\n1,0,0\r\n2,0,1\r\n3,1,0\r\n4,0,0\r\n5,0,1\r\n6,-4,1\r\n7,0,1\r\n8,-5,1\r\n";

#[test]
fn a_hold_as_a_flag_wait() {
    for file in [HELD.to_string(), HELD.replace('\n', "\r\n")] {
        let (result, answer) = run(file.as_bytes());
        assert_eq!(answer, HELD_ANSWER.as_bytes());
        assert_eq!(result, HELD_ANSWER.len() as i64);
    }
}

#[test]
fn two_headers() {
    for (file, result) in [
        ("ctx,service,a,b,c,d", 16),
        ("ctx,service,a,b,c,d\r\n", 16),
        ("ctx,service,a,b,c,d\r", -11),
        ("ctx,service,a,b,c,d\n\n", -12),
        ("ctx,service,a,b,c,d\nT,tn_task_exit,,,,\n", 24),
        ("ctx,service,a,b,c,d\nT,tn_task_exit,,,\n", -12),
        ("ctx,service,a,b,c,d\nT,tn_task_exit,,,,,\n", -12),
        ("ctx,service,a,b,c,d\nT,tn_event_wait,1,1,0,\n", -12),
        ("ctx,service,a,b,c\nT,tn_event_wait,1,1,0,5\n", -12),
        ("ctx,service,a,b,c\nT,tn_event_wait,1,1,0\n", -12),
        ("ctx,service,a,b,c\nI,tn_event_iwait,1,1,0\n", 24),
        ("ctx,service,a,b,c\nT,tn_task_exit,,,,\n", -12),
    ] {
        assert_eq!(code_of(file.as_bytes()), result, "{file:?}");
    }
}

#[test]
fn numbers_at_their_limits_and_the_wrong_context_are_readable() {
    let file = with_header(
        "T,tn_task_sleep,0,,\nT,tn_task_sleep,4294967295,,\nI,tn_task_create,1,5,1\nT,tn_sem_create,4294967295,0,10",
    );
    assert_eq!(run(&file).1, b"n,code,running\r\n1,-5,0\r\n2,-2,0\r\n3,-2,0\r\n4,-5,0\r\n");
    let call = read_list(&with_header("I,tn_task_create,24,0,4294967295")).unwrap()[0];
    assert_eq!(call, Call { context: I, service: CREATE, a: 24, b: 0, c: u32::MAX, d: 0 });
}

#[test]
fn every_service_is_read_by_its_name() {
    for service in in_lists() {
        for context in [T, I] {
            let call = Call { context, service, a: 0, b: 0, c: 0, d: 0 };
            let wide = format!("ctx,service,a,b,c,d\n{}", call.line(4));
            assert_eq!(read_list(wide.as_bytes()), Ok(vec![call]));
            let narrow = read_list(&with_header(&call.line(3)));
            assert_eq!(narrow, if service == EVENT_WAIT { Err(2) } else { Ok(vec![call]) });
        }
    }
}

/// It has no name in document 000: with whatever numbers, fields and context, its line is one of an unknown service.
#[test]
fn no_list_holds_ready_ticks() {
    for context in ["T", "I"] {
        for fields in ["1,,", "1,,,", "1", "", ",,", ",,,", "0,,", "25,,", "1,0,", "1,0,0", "1,0,0,0"] {
            for name in ["ready_ticks", "tn_ready_ticks", "tn_task_ready_ticks", "READY_TICKS"] {
                for header in ["ctx,service,a,b,c", "ctx,service,a,b,c,d"] {
                    let blanks = if header.ends_with('d') { ",,,," } else { ",,," };
                    let file = format!("{header}\nT,tn_task_exit{blanks}\n{context},{name},{fields}\n");
                    assert_eq!(code_of(file.as_bytes()), -13, "{file:?}");
                }
            }
        }
    }
    for (width, end) in [(3, ""), (4, "\n")] {
        let line = Call::of(READY_TICKS, 1, 0, 0).line(width);
        assert_eq!(read_list(format!("{}\n{line}{end}", String::from_utf8_lossy(header(width))).as_bytes()), Err(2));
    }
}

#[test]
fn every_damage_is_answered_with_its_line() {
    let mut rng = Rng::new(1);
    let mut seen = std::collections::BTreeSet::new();
    for seed in 0..3_000 {
        let calls = World::of_lists(seed).run(1 + seed as usize % 12);
        let bad = if seed % 10 == 0 { bad_end(&mut rng, &calls) } else { bad_list(&mut rng, &calls) };
        let text = String::from_utf8_lossy(&bad.file);
        assert_eq!(code_of(&bad.file), -(10 + bad.line as i64), "{}: {text:?}", bad.damage);
        seen.insert(bad.damage);
    }
    assert_eq!(seen.len(), LINE_DAMAGES.len() + 2, "{seen:?}"); // and the header, and the CR at the end
}

#[test]
fn every_damage_on_every_service_in_every_place() {
    let mut rng = Rng::new(2);
    for (service, width) in in_lists().flat_map(|service| [(service, 3), (service, 4)]) {
        let good = Call { d: 4, ..Call::of(service, 1, 2, 3) };
        if good.numbers() > width {
            continue;
        }
        for (name, damage) in LINE_DAMAGES {
            let Some(bad) = damage(&mut rng, &good, width) else { continue };
            for place in 1..=3 {
                let mut lines = lines(&[good, good, good], width);
                lines[place] = bad.clone();
                let file = join(&mut rng, &lines);
                assert_eq!(code_of(&file), -(11 + place as i64), "{name}: {:?}", String::from_utf8_lossy(&file));
            }
        }
    }
    for header in BAD_HEADERS {
        for end in ["", "\n", "\r\n", "\nT,tn_task_exit,,,\n"] {
            assert_eq!(code_of(&[header, end.as_bytes()].concat()), -11);
        }
    }
}

#[test]
fn a_short_buffer_stays_untouched() {
    for size in 0..WORKED_ANSWER.len() {
        let mut answer = vec![FILL; size];
        assert_eq!(run_list(WORKED.as_bytes(), &mut answer), -2);
        assert!(answer.iter().all(|&byte| byte == FILL));
    }
    let mut answer = vec![FILL; WORKED_ANSWER.len() + 3];
    for size in [WORKED_ANSWER.len(), WORKED_ANSWER.len() + 3] {
        assert_eq!(run_list(WORKED.as_bytes(), &mut answer[..size]), WORKED_ANSWER.len() as i64);
        assert_eq!(answer, [WORKED_ANSWER.as_bytes(), &[FILL; 3]].concat());
    }
}

#[test]
fn refusals_in_their_order() {
    let bad = [&exact(7, 65_500)[..], b"\n"].concat();
    let line = bad.iter().filter(|&&byte| byte == b'\n').count() as i64;
    assert_eq!(run_list(&bad, &mut []), -(10 + line)); // the line before the buffer
    assert_eq!(run_list(&[&bad[..], &[b'\n'; 100]].concat(), &mut []), -1); // the length before the line
    assert_eq!(run_list(&vec![b'x'; 65_536], &mut []), -11);
    assert_eq!(run_list(&vec![b'x'; 65_537], &mut []), -1);
    assert_eq!(run_list(b"ctx,service,a,b,c", &mut []), -2);
    assert_eq!(run_list(b"", &mut []), -11);
}

#[test]
fn files_of_the_longest_length() {
    for seed in 0..20 {
        for length in [65_535, 65_536] {
            let file = exact(seed, length);
            assert_eq!(file.len(), length);
            let (result, answer) = run(&file);
            assert!(result > 16);
            let calls = file.iter().filter(|&&byte| byte == b'\n').count() - 1;
            let last = String::from_utf8_lossy(&answer[answer.len() - 20..]).into_owned();
            assert!(last.contains(&format!("\r\n{calls},")), "{last}");
        }
        assert_eq!(code_of(&exact(seed, 65_537)), -1);
    }
    let most = format!("ctx,service,a,b,c\n{}", "T,tn_task_exit,,,\n".repeat(3_639));
    assert_eq!(code_of(most.as_bytes()), 38_938);
    let most = format!("ctx,service,a,b,c,d\n{}", "T,tn_task_exit,,,,\n".repeat(3_448));
    assert!(most.len() <= 65_536 && most.len() + 19 > 65_536);
    assert_eq!(code_of(most.as_bytes()), 36_837);
}

/// The lines of a file with their line ends, as a reader would count them.
fn split(file: &[u8]) -> Vec<&[u8]> {
    file.split_inclusive(|&byte| byte == b'\n').collect()
}

#[test]
fn damaged_bytes_never_panic_and_name_the_first_bad_line() {
    let mut rng = Rng::new(3);
    for seed in 0..30_000 {
        let calls = World::of_lists(seed).run(seed as usize % 16);
        let mut file = readable(&mut rng, &calls);
        damage_bytes(&mut rng, &mut file);
        let (result, answer) = run(&file);
        let lines = split(&file);
        if result >= 16 {
            let rows = answer.split(|&byte| byte == b'\n').count() - 1;
            assert_eq!(rows, lines.len());
        } else {
            let line = usize::try_from(-result - 10).unwrap();
            assert!((1..=lines.len().max(1)).contains(&line));
            if line > 1 {
                assert!(code_of(&lines[..line - 1].concat()) >= 16);
            }
            if line < lines.len() {
                assert_eq!(code_of(&lines[..line].concat()), result);
            }
        }
    }
}

#[test]
fn any_bytes_at_all_never_panic() {
    let mut rng = Rng::new(4);
    for _ in 0..20_000 {
        let length = rng.below(80);
        let mut file: Vec<u8> = (0..length).map(|_| rng.any() as u8).collect();
        let width = rng.pick(&[3, 4]);
        if rng.percent(50) {
            file.splice(0..0, [header(width), b"\n"].concat());
        }
        if rng.percent(30) {
            let (_, line) = damaged_line(&mut rng, &Call::of(ACQUIRE, 1, 2, 0), width);
            file.extend_from_slice(&line);
        }
        run(&file);
    }
}
