//! The services on data queues: create to the receiving polls.
//! An element goes to the first who waits for one, or in behind those stored; who finds no room waits with it in hand.

use crate::kernel::*;

impl Kernel {
    /// The created data queue of this number.
    fn data_queue(&self, number: u32) -> Result<usize, i32> {
        in_range(number, 1, QUEUES)?;
        if self.queues[number as usize].created {
            Ok(number as usize)
        } else {
            Err(NOEXS)
        }
    }

    pub(crate) fn queue_create(&mut self, here: bool, number: u32, capacity: u32) -> Outcome {
        in_range(capacity, 0, LARGEST_CAPACITY)?;
        match self.data_queue(number) {
            Ok(_) => return Err(WRONG_PARAM), // it exists
            Err(NOEXS) => {}
            Err(code) => return Err(code),
        }
        allowed(here)?;
        let queue = &mut self.queues[number as usize];
        queue.created = true;
        queue.capacity = capacity as usize;
        Ok(NO_ERR)
    }

    /// What is stored goes with the queue. Either senders wait on it or receivers, never both.
    pub(crate) fn queue_delete(&mut self, here: bool, number: u32) -> Outcome {
        let q = self.data_queue(number)?;
        allowed(here)?;
        while !self.queues[q].senders.is_empty() {
            self.end_wait(self.queues[q].senders.first(), DLT);
        }
        while !self.queues[q].receivers.is_empty() {
            self.end_wait(self.queues[q].receivers.first(), DLT);
        }
        self.queues[q] = DataQueue::NONE;
        Ok(NO_ERR)
    }

    pub(crate) fn queue_send(&mut self, here: bool, number: u32, element: u32, timeout: u32) -> Outcome {
        in_range(timeout, 1, FOREVER)?;
        let q = self.data_queue(number)?;
        allowed(here)?;
        let t = self.caller()?;
        if self.passed_on(q, element) {
            return Ok(NO_ERR);
        }
        self.begin_wait(t, Wait::Send(q as u8, element), timeout);
        Ok(PENDING)
    }

    pub(crate) fn queue_send_polling(&mut self, here: bool, number: u32, element: u32) -> Outcome {
        let q = self.data_queue(number)?;
        allowed(here)?;
        if self.passed_on(q, element) {
            Ok(NO_ERR)
        } else {
            Err(TIMEOUT)
        }
    }

    pub(crate) fn queue_receive(&mut self, here: bool, number: u32, timeout: u32) -> Result<(i32, u32), i32> {
        in_range(timeout, 1, FOREVER)?;
        let q = self.data_queue(number)?;
        allowed(here)?;
        let t = self.caller()?;
        match self.taken_out(q) {
            Some(element) => Ok((NO_ERR, element)),
            None => {
                self.begin_wait(t, Wait::Receive(q as u8), timeout);
                Ok((PENDING, 0))
            }
        }
    }

    pub(crate) fn queue_receive_polling(&mut self, here: bool, number: u32) -> Result<(i32, u32), i32> {
        let q = self.data_queue(number)?;
        allowed(here)?;
        match self.taken_out(q) {
            Some(element) => Ok((NO_ERR, element)),
            None => Err(TIMEOUT),
        }
    }

    /// The element goes to the first receiver, or in last; says whether it found a place.
    fn passed_on(&mut self, q: usize, element: u32) -> bool {
        let queue = &mut self.queues[q];
        if !queue.receivers.is_empty() {
            let first = queue.receivers.first();
            self.end_wait(first, NO_ERR);
            self.tasks[first].handed = element;
            true
        } else if queue.has_room() {
            queue.stored.push_back(element);
            true
        } else {
            false
        }
    }

    /// The oldest element, if there is one. The first sender's goes in behind the others, which in a queue without room of its own makes
    /// it the oldest itself; then its wait is over.
    fn taken_out(&mut self, q: usize) -> Option<u32> {
        let first = self.queues[q].senders.first();
        if let Wait::Send(_, element) = self.tasks[first].wait {
            self.queues[q].stored.push_back(element);
            self.end_wait(first, NO_ERR);
        }
        self.queues[q].stored.pop_front()
    }
}
