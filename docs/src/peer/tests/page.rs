//! docs/EXAMPLES.md's columns of the level's tasks, the charge of the first, the times of entry and what is in a data queue, held to the
//! kernel after each line of the list. The rows and answers of its tables are held to the lists by tests/examples.sh.

use peer::kernel::{Kernel, Wait};
use peer::lists::read_list;
use peer::services::{Call, READY_TICKS};
use std::fs;

const TOP: &str = concat!(env!("CARGO_MANIFEST_DIR"), "/../../..");

/// Level 6 as the page writes it: its tasks from first to last, and the charge of the first.
fn column(kernel: &Kernel) -> String {
    let queue = &kernel.levels[6].queue;
    let tasks: Vec<String> = queue.as_slice().iter().map(|task| task.to_string()).collect();
    let tasks = if tasks.is_empty() { "none".to_string() } else { tasks.join(" ") };
    format!("{tasks} / {}", kernel.tasks[queue.first()].charge)
}

/// The rows of the section that begins so.
fn rows(start: &str) -> Vec<String> {
    let page = fs::read_to_string(format!("{TOP}/docs/EXAMPLES.md")).expect("the page");
    let section = page.split("\n## ").find(|section| section.starts_with(start)).expect("its section");
    section.lines().filter(|line| line.contains("| `T,") || line.contains("| `I,")).map(str::to_string).collect()
}

fn calls_of(list: &str) -> Vec<Call> {
    read_list(&fs::read(format!("{TOP}/examples/{list}.csv")).expect("the list")).expect("a readable list")
}

fn calls() -> Vec<Call> {
    calls_of("round-robin")
}

#[test]
fn the_list_of_turns() {
    let rows = rows("Taking turns:");
    let shown: Vec<&str> = rows.iter().map(|line| line.split(" | ").nth(3).expect("the fourth column")).collect();
    let calls = calls();
    let mut kernel = Kernel::fresh();
    let computed: Vec<String> = calls
        .iter()
        .map(|call| {
            kernel.call(call);
            column(&kernel)
        })
        .collect();
    assert!(computed.len() > 20);
    assert_eq!(shown, computed);
}

/// The time of entry and the ticks since, or the code that refuses them.
fn since(kernel: &mut Kernel, task: u32) -> String {
    let answer = kernel.call(&Call::of(READY_TICKS, task, 0, 0));
    match answer.code {
        0 => format!("{} / {}", kernel.tasks[task as usize].entered, answer.value),
        code => code.to_string(),
    }
}

#[test]
fn the_times_of_entry() {
    let mut kernel = Kernel::fresh();
    let computed: Vec<String> = (2..)
        .zip(calls())
        .map(|(line, call)| {
            kernel.call(&call);
            let [first, second, third] = [1, 2, 3].map(|task| since(&mut kernel, task));
            format!("| {line} | `{}` | {} | {first} | {second} | {third} | ", call.line(3), kernel.time)
        })
        .collect();
    let rows = rows("Since when each is ready:");
    assert!(rows.len() > 10);
    for row in rows {
        assert!(computed.iter().any(|line| row.starts_with(line)), "{row}");
    }
}

/// Data queue 1 as the page writes it: its elements, the oldest first, and behind a stroke who waits there, and for what.
fn queue_column(kernel: &Kernel) -> String {
    let queue = &kernel.queues[1];
    let stored: Vec<String> = queue.stored.iter().map(u32::to_string).collect();
    let stored = if stored.is_empty() { "none".to_string() } else { stored.join(" ") };
    let waits = |t: &u8| match kernel.tasks[usize::from(*t)].wait {
        Wait::Send(_, element) => format!(" / {t} sends {element}"),
        _ => format!(" / {t} receives"),
    };
    let waiting = queue.senders.as_slice().iter().chain(queue.receivers.as_slice()).map(waits);
    stored + &waiting.collect::<String>()
}

#[test]
fn the_list_of_messages() {
    let rows = rows("Temperatures by message:");
    let shown: Vec<&str> = rows.iter().map(|line| line.split(" | ").nth(3).expect("the fourth column")).collect();
    let mut kernel = Kernel::fresh();
    let computed: Vec<String> = calls_of("reading-and-relay")
        .iter()
        .map(|call| {
            kernel.call(call);
            queue_column(&kernel)
        })
        .collect();
    assert!(computed.len() > 20);
    assert_eq!(shown, computed);
}
