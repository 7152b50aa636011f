//! Lists of the largest size, through the library's `run_list` and the peer's: the same bytes first, then the times.
//! The buffers of the answers are not cleared between the runs.

use crate::library;
use crate::timing::{in_turn, timed, Work};
use crate::workloads;
use std::hint::black_box;

/// Bytes of the longest answer to any file, as the header has it.
const LONGEST_ANSWER: usize = 42_576;

pub fn report(rounds: usize) {
    println!("\n### Lists of the largest size\n");
    println!(
        "| list | what its calls do | calls | refused | peer, ns a call | library, ns a call | ratio of the best | ratio of the medians |"
    );
    println!("|---|---|---:|---:|---:|---:|---:|---:|");
    let (mut best, mut median) = (0.0, 0.0);
    let lists = workloads::all(usize::MAX);
    for list in &lists {
        let refused = check(&list.file);
        let times = in_turn(rounds, works(&list.file).into());
        let [peer, library] = &times[..] else { unreachable!() };
        let (to_best, to_median) = (library.best / peer.best, library.median / peer.median);
        println!(
            "| {} | {} | {} | {refused} | {:.1} | {:.1} | {to_best:.2} | {to_median:.2} |",
            list.name,
            list.about,
            list.calls,
            peer.best / list.calls as f64,
            library.best / list.calls as f64
        );
        best += to_best.ln();
        median += to_median.ln();
    }
    let mean = |sum: f64| (sum / lists.len() as f64).exp();
    println!("| geometric mean | | | | | | {:.2} | {:.2} |", mean(best), mean(median));
}

/// The peer's run of a list, and the library's.
pub fn works(file: &[u8]) -> [Work<'_>; 2] {
    let (mut peers, mut librarys) = (vec![0; LONGEST_ANSWER], vec![0; LONGEST_ANSWER]);
    [
        Box::new(move || timed(|| peer::lists::run_list(black_box(file), &mut peers))),
        Box::new(move || timed(|| library::list(black_box(file), &mut librarys))),
    ]
}

/// Both give the same number and write the same bytes, and none beyond them. How many calls the list has that are refused.
pub fn check(file: &[u8]) -> usize {
    let (mut peers, mut librarys) = ([9; LONGEST_ANSWER], [9; LONGEST_ANSWER]);
    let written = peer::lists::run_list(file, &mut peers);
    assert!(written > 0, "the peer refused a list: {written}");
    assert_eq!(library::list(file, &mut librarys), written);
    assert!(librarys == peers, "the answers differ");
    peers[..written as usize].windows(2).filter(|two| two == b",-").count()
}
