//! Those of data queues: hand-overs, receives from a full queue, waits that end in the middle, deletions, and the limits of a capacity.

use peer::kernel::{DataQueue, Kernel};
use peer::services::*;

pub fn meetings(before: &Kernel, call: &Call, after: &Kernel) -> Vec<&'static str> {
    let mut seen = Vec::new();
    for (old, new) in before.queues.iter().zip(&after.queues) {
        seen.extend(gone(call.service, old.senders.as_slice(), new.senders.as_slice()));
        if new.senders.as_slice().len() >= 12 {
            seen.push("a data queue with 12 senders");
        }
        if new.receivers.as_slice().len() >= 12 {
            seen.push("a data queue with 12 receivers");
        }
    }
    if !(QUEUE_CREATE..=IRECEIVE).contains(&call.service) {
        return seen;
    }
    let (old, new) = (&before.queues[call.a as usize], &after.queues[call.a as usize]);
    let (sender, receiver) = (before.tasks[old.senders.first()], before.tasks[old.receivers.first()]);
    match call.service {
        QUEUE_CREATE => seen.push(match call.b {
            0 => "no capacity",
            16 => "the largest capacity",
            _ => "a capacity between",
        }),
        QUEUE_DELETE => seen.extend(deletion(old)),
        SEND | SEND_POLLING | ISEND_POLLING if new.senders != old.senders => {
            seen.push(if old.capacity == 0 {
                "a sender waits without capacity"
            } else {
                "a sender waits at a full queue"
            });
            if !old.senders.is_empty() {
                seen.push("a sender waits behind another");
            }
            if before.tasks[before.running()].handed != 0 {
                seen.push("a send waits after something was handed over");
            }
        }
        SEND | SEND_POLLING | ISEND_POLLING if receiver.is_waiting() => {
            seen.push(match call.service {
                SEND => "a send hands over",
                SEND_POLLING => "a polling send hands over",
                _ => "an interrupt's send hands over",
            });
            if receiver.suspended {
                seen.push("a suspended receiver is served");
            }
            if old.receivers.as_slice().len() >= 2 {
                seen.push("a receiver is served, and the next is not");
            }
            seen.push(if old.capacity == 0 { "a hand-over without capacity" } else { "a hand-over past the places" });
            if call.b == 0 {
                seen.push("an element 0 is handed over");
            }
        }
        SEND | SEND_POLLING | ISEND_POLLING => {
            if new.stored.len() == new.capacity {
                seen.push(if new.capacity == 16 { "16 elements fill a queue" } else { "an element fills a queue" });
            }
            if old.stored.contains(&call.b) {
                seen.push("equal elements are stored");
            }
        }
        RECEIVE if new.receivers != old.receivers => {
            seen.push(if old.receivers.is_empty() { "a receiver waits" } else { "a receiver waits behind another" })
        }
        _ => seen.extend(received(call.service, old, new)), // a receive or poll that got its element
    }
    if sender.is_waiting() && sender.suspended && new.senders.first() != old.senders.first() && call.service >= RECEIVE
    {
        seen.push("a suspended sender's element goes in");
    }
    seen
}

/// Those who waited to send and wait no more: the first, the last, or one between two others.
fn gone(service: u32, old: &[u8], new: &[u8]) -> Option<&'static str> {
    let place = old.iter().position(|t| !new.contains(t))?;
    match service {
        TICK if place > 0 && place + 1 < old.len() => Some("a sender between two others times out"),
        TICK if place == 0 && new.len() > 1 => Some("the first of several senders times out"),
        TERMINATE => Some("a sender is terminated"),
        IRELEASE_WAIT => Some("a sender is released"),
        _ => None,
    }
}

fn deletion(old: &DataQueue) -> Vec<&'static str> {
    let mut seen = Vec::new();
    if !old.stored.is_empty() {
        seen.push("a deletion with stored elements");
    }
    if !old.stored.is_empty() && !old.senders.is_empty() {
        seen.push("a deletion with stored elements and senders");
    }
    if old.senders.as_slice().len() >= 3 {
        seen.push("a deletion with 3 senders");
    }
    if old.receivers.as_slice().len() >= 3 {
        seen.push("a deletion with 3 receivers");
    }
    seen
}

fn received(service: u32, old: &DataQueue, new: &DataQueue) -> Vec<&'static str> {
    let mut seen = Vec::new();
    let senders = old.senders.as_slice().len();
    if old.capacity == 0 {
        seen.push(match service {
            RECEIVE => "a receive takes from a sender's hand",
            RECEIVE_POLLING => "a poll takes from a sender's hand",
            _ => "an interrupt takes from a sender's hand",
        });
    } else if senders > 0 {
        seen.push(if senders > 1 { "a receive with several senders" } else { "a receive with one sender" });
    }
    if old.stored.front() == Some(&0) {
        seen.push("an element 0 is received");
    }
    if old.stored.len() >= 2 && senders == 0 {
        seen.push("a receive leaves elements");
    }
    if new.stored.is_empty() && old.capacity == 16 {
        seen.push("a queue of 16 is emptied");
    }
    seen
}
