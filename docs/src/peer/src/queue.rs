//! A queue of task numbers, first come first served, in a fixed array with its length beside it.
//! No task stands in a queue twice, so 24 places are always enough.

pub const PLACES: usize = 24;

#[derive(Clone, Copy)]
pub struct Queue {
    len: u8,
    items: [u8; PLACES],
}

impl Queue {
    pub const EMPTY: Queue = Queue { len: 0, items: [0; PLACES] };

    /// The tasks in the queue, first to last.
    pub fn as_slice(&self) -> &[u8] {
        &self.items[..self.len as usize]
    }

    pub fn is_empty(&self) -> bool {
        self.len == 0
    }

    /// The first task, or 0 when there is none.
    pub fn first(&self) -> usize {
        if self.len == 0 {
            0
        } else {
            self.items[0] as usize
        }
    }

    pub fn join(&mut self, task: usize) {
        self.items[self.len as usize] = task as u8;
        self.len += 1;
    }

    /// Those behind the task move up by one place.
    pub fn leave(&mut self, task: usize) {
        if let Some(place) = self.as_slice().iter().position(|&t| t as usize == task) {
            self.items.copy_within(place + 1..self.len as usize, place);
            self.len -= 1;
        }
    }

    /// The first becomes the last, if there are two or more; says whether it did.
    pub fn turn(&mut self) -> bool {
        let len = self.len as usize;
        if len < 2 {
            return false;
        }
        let first = self.items[0];
        self.items.copy_within(1..len, 0);
        self.items[len - 1] = first;
        true
    }
}

impl PartialEq for Queue {
    fn eq(&self, other: &Queue) -> bool {
        self.as_slice() == other.as_slice()
    }
}

impl Eq for Queue {}

impl std::fmt::Debug for Queue {
    fn fmt(&self, f: &mut std::fmt::Formatter<'_>) -> std::fmt::Result {
        self.as_slice().fmt(f)
    }
}
