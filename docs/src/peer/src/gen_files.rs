//! Whole files for the runner: lists with one damaged line, lists with damaged bytes, and lists of an exact length.
//! All of them come from a repeatable generator and are handed over as bytes.

use crate::gen::{Rng, World};
use crate::gen_lists::*;
use crate::services::{Call, EXIT};

/// A list in which the first unreadable line is known, with what was done to it.
pub struct BadList {
    pub file: Vec<u8>,
    pub line: usize,
    pub damage: &'static str,
}

/// A list of these calls with one damaged line; what follows it may be anything.
pub fn bad_list(rng: &mut Rng, calls: &[Call]) -> BadList {
    let width = width(rng, calls);
    let mut lines = lines_with_words(rng, calls, width);
    let place = rng.below(lines.len());
    let damage = if place == 0 {
        lines[0] = rng.pick(&BAD_HEADERS).to_vec();
        "header"
    } else {
        let (name, line) = damaged_line(rng, &calls[place - 1], width);
        lines[place] = line;
        name
    };
    if place + 1 < lines.len() && rng.percent(30) {
        let later = place + 1 + rng.below(lines.len() - place - 1);
        lines[later] = damaged_line(rng, &calls[later - 1], width).1;
    }
    BadList { file: join(rng, &lines), line: place + 1, damage }
}

/// A list whose last line ends in a CR alone.
pub fn bad_end(rng: &mut Rng, calls: &[Call]) -> BadList {
    let mut file = readable(rng, calls);
    while file.last().is_some_and(|&byte| byte == b'\n' || byte == b'\r') {
        file.pop();
    }
    file.push(b'\r');
    BadList { file, line: calls.len() + 1, damage: "CR at the end" }
}

/// One to four changes of single bytes, cuts, repeats, line ends and fields, wherever they fall.
pub fn damage_bytes(rng: &mut Rng, file: &mut Vec<u8>) {
    for _ in 0..rng.from(1, 4) {
        if file.is_empty() {
            file.push(rng.any() as u8);
        }
        let at = rng.below(file.len());
        match rng.below(13) {
            0 => file[at] ^= 1 << rng.below(8),
            1 => file[at] = rng.any() as u8,
            2 => file[at] = rng.pick(b"\r\n,,0019TIt_ \""),
            3 => file.insert(at, rng.pick(b"\r\n\n,,01TI_ \"")),
            4 => drop(file.remove(at)),
            5 => file.truncate(at),
            6 => drop(file.drain(..at)),
            7 => file.push(rng.pick(b"\r\n,0")),
            8 => swap_line_end(rng, file),
            9 => {
                let to = (at + rng.below(40)).min(file.len());
                let piece = file[at..to].to_vec();
                let place = rng.below(file.len() + 1);
                file.splice(place..place, piece);
            }
            10 => {
                let to = (at + rng.below(40)).min(file.len());
                file.drain(at..to);
            }
            11 => put_word(rng, file),
            _ => {
                let other = rng.below(file.len());
                file.swap(at, other);
            }
        }
    }
}

/// Writes one of the file's fields for numbers otherwise, a blank one too: as the word, or nearly so.
pub fn put_word(rng: &mut Rng, file: &mut Vec<u8>) {
    let is_letter = |place: usize| file.get(place).is_some_and(u8::is_ascii_lowercase);
    let starts = (1..=file.len()).filter(|&place| file[place - 1] == b',' && !is_letter(place));
    let starts: Vec<usize> = starts.collect();
    if starts.is_empty() {
        return;
    }
    let start = rng.pick(&starts);
    let digits = file[start..].iter().take_while(|byte| byte.is_ascii_digit()).count();
    let text = if rng.percent(60) { WORD } else { rng.pick(&NEARLY_THE_WORD) };
    file.splice(start..start + digits, text.bytes());
}

/// Writes one of the file's line ends otherwise: LF, CRLF, CR, CR CR LF, LF LF or LF CR.
fn swap_line_end(rng: &mut Rng, file: &mut Vec<u8>) {
    let ends: Vec<usize> = (0..file.len()).filter(|&place| file[place] == b'\n').collect();
    if ends.is_empty() {
        return;
    }
    let end = rng.pick(&ends);
    let start = if end > 0 && file[end - 1] == b'\r' { end - 1 } else { end };
    let other: &[u8] = rng.pick(&[&b"\n"[..], b"\r\n", b"\r", b"\r\r\n", b"\n\n", b"\n\r"]);
    file.splice(start..=end, other.iter().copied());
}

/// A readable list of exactly this length, at least 400 bytes: random calls, then exits that fill the rest.
pub fn exact(seed: u64, length: usize) -> Vec<u8> {
    let mut world = World::of_lists(seed);
    let calls = world.run(length / 17);
    let width = width(&mut world.rng, &calls);
    let exit = line(&Call::of(EXIT, 0, 0, 0), width);
    let short = exit.len() + 1; // with LF; with CRLF it is one longer
    let tail = short * (short - 1); // from here on every length is made of the two
    let mut file = [header(width), b"\n"].concat();
    for call in calls {
        let line = line_with_word(&mut world.rng, &call, width);
        if file.len() + line.len() + 1 + tail > length {
            break;
        }
        file.extend_from_slice(&line);
        file.push(b'\n');
    }
    let left = length - file.len();
    let long = left % short; // so many of the lines end in CRLF
    for place in 0..(left - long) / short {
        file.extend_from_slice(&exit);
        file.extend_from_slice(if place < long { b"\r\n" } else { b"\n" });
    }
    file
}
