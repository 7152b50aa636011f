//! The proved list runner against the peer's: the signed number and every byte of the buffer, before and after.
//! What differs is cut down to the fewest lines that still show it, and printed.
#![cfg(library)]

use peer::gen::{Rng, World};
use peer::gen_files::{bad_end, bad_list, damage_bytes, exact, put_word};
use peer::gen_lists::{make_endless, readable, WORD};
use peer::lists::LONGEST_FILE;
use peer::shrink::shrink;

mod library;

/// So many bytes before and after the buffer must stay as well.
const GUARD: usize = 64;

/// Bytes that differ from place to place, to see any that is moved or written.
fn filled(length: usize) -> Vec<u8> {
    let mut rng = Rng::new(length as u64);
    (0..length).map(|_| rng.any() as u8).collect()
}

/// Runs the file on both sides with a buffer of this size; says what differs.
fn size_differs(file: &[u8], size: usize) -> Option<String> {
    let mut ours = filled(size + 2 * GUARD);
    let mut theirs = ours.clone();
    let handed = file.to_vec();
    let our_result = peer::lists::run_list(file, &mut ours[GUARD..GUARD + size]);
    let their_result = library::list(&handed, &mut theirs[GUARD..GUARD + size]);
    if our_result != their_result {
        return Some(format!("buffer of {size}: peer {our_result}, library {their_result}"));
    }
    if handed != file {
        return Some(format!("buffer of {size}: the library changed the file"));
    }
    let place = (0..ours.len()).find(|&place| ours[place] != theirs[place])?;
    let at = place as i64 - GUARD as i64;
    Some(format!("buffer of {size}: byte {at} is {} for the peer, {} for the library", ours[place], theirs[place]))
}

/// No buffer, buffers around an answer of this length, and one that is larger than any answer.
fn sizes(length: usize) -> [usize; 10] {
    let short = length.saturating_sub(17);
    [0, 1, short, length - 2, length - 1, length, length + 1, length + 2, length + 33, 65_536]
}

fn answer_length(file: &[u8]) -> usize {
    let full = peer::lists::run_list(file, &mut vec![0; 65_536]);
    usize::try_from(full).unwrap_or(16)
}

/// Says what differs with the buffer of one of the sizes.
fn differs_with(file: &[u8], which: usize) -> Option<String> {
    size_differs(file, sizes(answer_length(file))[which])
}

fn test(what: &str, file: &[u8]) {
    let length = answer_length(file);
    let Some(which) = (0..10).find(|&which| size_differs(file, sizes(length)[which]).is_some()) else {
        return;
    };
    let lines: Vec<&[u8]> = file.split_inclusive(|&byte| byte == b'\n').collect();
    let fewest = shrink(&lines, |lines| differs_with(&lines.concat(), which).is_some()).concat();
    let how = differs_with(&fewest, which).unwrap_or_default();
    panic!("{what}:\n{:?}\n{how}", String::from_utf8_lossy(&fewest));
}

#[test]
fn random_lists() {
    for seed in 0..2_000 {
        let mut world = World::of_lists(seed);
        let length = world.rng.below(150);
        let calls = world.run(length);
        test(&format!("seed {seed}"), &readable(&mut world.rng, &calls));
    }
}

/// What the library gives and leaves in the buffer.
fn library_answer(file: &[u8]) -> (i64, Vec<u8>) {
    let mut answer = filled(LONGEST_FILE);
    (library::list(file, &mut answer), answer)
}

#[test]
fn the_word_and_its_digits() {
    let short = (0..2_000).map(|seed| {
        let mut world = World::of_lists(seed);
        let length = world.rng.below(150);
        let mut calls = world.run(length);
        make_endless(&mut world.rng, &mut calls);
        readable(&mut world.rng, &calls)
    });
    let (mut compared, mut most) = (0, 0);
    for file in short.chain((0..40).map(|seed| exact(seed, 64_000))) {
        let words = String::from_utf8(file).expect("a readable list is ASCII");
        let digits = words.replace(WORD, "4294967295");
        if words == digits || digits.len() > LONGEST_FILE {
            continue;
        }
        test("with words", words.as_bytes());
        let (result, answer) = library_answer(words.as_bytes());
        assert!(result > 0, "{result}: {words:?}");
        assert!((result, answer) == library_answer(digits.as_bytes()), "{words:?}");
        compared += 1;
        most = most.max(digits.len());
    }
    assert!(compared > 500 && most > 64_000, "{compared} lists, the longest of {most} bytes");
}

#[test]
fn every_buffer_size() {
    let mut world = World::of_lists(21);
    for length in [0, 1, 12, 120] {
        let calls = world.run(length);
        let file = readable(&mut world.rng, &calls);
        for size in 0..answer_length(&file) + 5 {
            assert_eq!(size_differs(&file, size), None);
        }
    }
}

#[test]
fn damaged_lines() {
    for seed in 0..10_000 {
        let mut world = World::of_lists(seed);
        let length = world.rng.from(1, 20) as usize;
        let calls = world.run(length);
        let bad = if seed % 20 == 0 { bad_end(&mut world.rng, &calls) } else { bad_list(&mut world.rng, &calls) };
        let mut answer = [0; 1_000];
        assert_eq!(peer::lists::run_list(&bad.file, &mut answer), -(10 + bad.line as i64), "{}", bad.damage);
        test(&format!("seed {seed}, {}", bad.damage), &bad.file);
    }
}

#[test]
fn words_in_any_field() {
    for seed in 0..10_000 {
        let mut world = World::of_lists(seed);
        let length = world.rng.from(1, 20) as usize;
        let calls = world.run(length);
        let mut file = readable(&mut world.rng, &calls);
        put_word(&mut world.rng, &mut file);
        test(&format!("seed {seed}"), &file);
    }
}

#[test]
fn damaged_bytes() {
    for seed in 0..20_000 {
        let mut world = World::of_lists(seed);
        let length = world.rng.below(20);
        let calls = world.run(length);
        let mut file = readable(&mut world.rng, &calls);
        damage_bytes(&mut world.rng, &mut file);
        test(&format!("seed {seed}"), &file);
    }
}

#[test]
fn any_bytes_at_all() {
    let mut rng = Rng::new(22);
    for round in 0..5_000 {
        let length = rng.below(60);
        let mut file: Vec<u8> =
            (0..length).map(|_| if rng.percent(50) { rng.pick(b"T,I\r\n0tn_") } else { rng.any() as u8 }).collect();
        if rng.percent(70) {
            file.splice(0..0, rng.pick(&[&b"ctx,service,a,b,c\n"[..], b"ctx,service,a,b,c,d\n"]).iter().copied());
        }
        test(&format!("round {round}"), &file);
    }
}

#[test]
fn the_longest_files() {
    for seed in 0..10 {
        for length in [65_535, 65_536, 65_537, 65_538, 131_072] {
            test(&format!("seed {seed}, {length} bytes"), &exact(seed, length));
        }
        let mut file = exact(seed, 65_536);
        let last = file.len() - 1;
        file[last] = b'\r'; // the last line can't be read
        test(&format!("seed {seed}, damaged at its end"), &file);
    }
    let most = format!("ctx,service,a,b,c\n{}", "T,tn_task_exit,,,\n".repeat(3_639));
    test("the most calls", most.as_bytes());
    test("one line too many", format!("{most}\n").as_bytes());
}
