//! How the time of a list grows with its calls: lists cut to 1/8, 2/8 .. 8/8 of their calls, and how far that is from a line.
//! The line is the one through the first and the last time.

use crate::library;
use crate::lists::{check, works};
use crate::plot::{self, Curve};
use crate::timing::in_turn;
use crate::workloads::{self, Workload};

const PLOTTED: &str = "box";
const PARTS: usize = 8;

pub fn report(rounds: usize, file: Option<&str>) {
    println!("\n### Growth with the number of calls\n");
    println!("| list | calls | peer, µs | library, µs | peer, ns a call | library, ns a call |");
    println!("|---|---:|---:|---:|---:|---:|");
    let mut lines = vec![];
    for name in [PLOTTED, "signals"] {
        let most = cut(name, usize::MAX).calls;
        let lists: Vec<Workload> = (1..=PARTS).map(|part| cut(name, most * part / PARTS)).collect();
        for list in &lists {
            check(&list.file);
        }
        let times = in_turn(rounds, lists.iter().flat_map(|list| works(&list.file)).collect());
        let side = |side: usize| -> Vec<(f64, f64)> {
            lists.iter().zip(times.chunks(2)).map(|(list, both)| (list.calls as f64, both[side].best)).collect()
        };
        let (peer, library) = (side(0), side(1));
        for (&(calls, peer), &(_, library)) in peer.iter().zip(&library) {
            let (peer_us, library_us) = (peer / 1000.0, library / 1000.0);
            let (peer_each, library_each) = (peer / calls, library / calls);
            println!("| {name} | {calls} | {peer_us:.1} | {library_us:.1} | {peer_each:.1} | {library_each:.1} |");
        }
        lines.push(format!("{name}: peer {:.1} %, library {:.1} %", 100.0 * bend(&peer), 100.0 * bend(&library)));
        if let (PLOTTED, Some(file)) = (name, file) {
            let curves = [
                Curve { name: "library", color: "#b03a2e", points: &library },
                Curve { name: "peer", color: "#1f618d", points: &peer },
            ];
            let title = "The playback box's list: its time against its calls";
            let below = format!("The library: {}.", library::OBJECT);
            std::fs::write(file, plot::draw(title, &below, &curves)).expect("the plot is written");
        }
    }
    println!("\nLargest distance of a best time from the straight line through the first and the last, in parts of that line:");
    println!("{}.", lines.join("; "));
}

fn cut(name: &str, most: usize) -> Workload {
    workloads::all(most).into_iter().find(|list| list.name == name).expect("a list of that name")
}

/// The largest distance of a point from the line through the ends, beside the line's height there.
fn bend(points: &[(f64, f64)]) -> f64 {
    let ((x0, y0), (x1, y1)) = (points[0], points[points.len() - 1]);
    let line = |x: f64| y0 + (y1 - y0) * (x - x0) / (x1 - x0);
    points.iter().map(|&(x, y)| (y - line(x)).abs() / line(x)).fold(0.0, f64::max)
}
