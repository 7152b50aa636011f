//! Times the proved library beside the peer, in one process, and prints Markdown: `cargo bench`, or tools/measure, which builds all.
//! Words: `rounds=N` (each thing is timed so often, at least 300) and `plot=FILE` (where the plot goes).

#[cfg(linked)]
mod calls;
#[cfg(linked)]
mod growth;
#[cfg(linked)]
mod library;
#[cfg(linked)]
mod lists;
#[cfg(linked)]
mod plot;
#[cfg(linked)]
mod timing;
#[cfg(linked)]
mod workloads;

#[cfg(not(linked))]
fn main() {
    eprintln!("speed: the library is not linked: GRITGARLAND_LIB_DIR must name the directory of libgritgarland.a.");
    eprintln!("speed: tools/measure makes it and sets that.");
    std::process::exit(1);
}

#[cfg(linked)]
fn main() {
    let mut rounds = 1000;
    let mut plot = None;
    for word in std::env::args().skip(1) {
        if let Some(number) = word.strip_prefix("rounds=") {
            rounds = number.parse::<usize>().expect("rounds=N").max(300);
        } else if let Some(file) = word.strip_prefix("plot=") {
            plot = Some(file.to_string());
        } else {
            assert_eq!(word, "--bench", "words are rounds=N and plot=FILE");
        }
    }
    println!("- library: {}", library::OBJECT);
    println!("- rounds: {rounds}, the library and the peer in turn");
    library::check();
    lists::report(rounds);
    growth::report(rounds, plot.as_deref());
    calls::report(rounds);
}
