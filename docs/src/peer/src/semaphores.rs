//! The services on semaphores: create to polling.
//! A resource goes to the first waiter or into the count, never to both.

use crate::kernel::*;

impl Kernel {
    /// The created semaphore of this number.
    fn semaphore(&self, number: u32) -> Result<usize, i32> {
        in_range(number, 1, SEMAPHORES)?;
        if self.semaphores[number as usize].maximum == 0 {
            Err(NOEXS)
        } else {
            Ok(number as usize)
        }
    }

    pub(crate) fn sem_create(&mut self, here: bool, number: u32, start: u32, maximum: u32) -> Outcome {
        in_range(maximum, 1, LARGEST_MAXIMUM)?;
        in_range(start, 0, maximum)?;
        match self.semaphore(number) {
            Ok(_) => return Err(WRONG_PARAM), // it exists
            Err(NOEXS) => {}
            Err(code) => return Err(code),
        }
        allowed(here)?;
        let semaphore = &mut self.semaphores[number as usize];
        semaphore.count = start as u16;
        semaphore.maximum = maximum as u16;
        Ok(NO_ERR)
    }

    pub(crate) fn sem_delete(&mut self, here: bool, number: u32) -> Outcome {
        let s = self.semaphore(number)?;
        allowed(here)?;
        while !self.semaphores[s].queue.is_empty() {
            self.end_wait(self.semaphores[s].queue.first(), DLT);
        }
        self.semaphores[s] = Semaphore::NONE;
        Ok(NO_ERR)
    }

    pub(crate) fn sem_signal(&mut self, here: bool, number: u32) -> Outcome {
        let s = self.semaphore(number)?;
        allowed(here)?;
        let semaphore = &mut self.semaphores[s];
        if !semaphore.queue.is_empty() {
            let first = semaphore.queue.first();
            self.end_wait(first, NO_ERR);
        } else if semaphore.count < semaphore.maximum {
            semaphore.count += 1;
        } else {
            return Err(OVERFLOW);
        }
        Ok(NO_ERR)
    }

    pub(crate) fn sem_acquire(&mut self, here: bool, number: u32, timeout: u32) -> Outcome {
        in_range(timeout, 1, FOREVER)?;
        let s = self.semaphore(number)?;
        allowed(here)?;
        let t = self.caller()?;
        if self.semaphores[s].count > 0 {
            self.semaphores[s].count -= 1;
            return Ok(NO_ERR);
        }
        self.begin_wait(t, Wait::Semaphore(s as u8), timeout);
        Ok(PENDING)
    }

    pub(crate) fn sem_polling(&mut self, here: bool, number: u32) -> Outcome {
        let s = self.semaphore(number)?;
        allowed(here)?;
        if self.semaphores[s].count == 0 {
            return Err(TIMEOUT);
        }
        self.semaphores[s].count -= 1;
        Ok(NO_ERR)
    }
}
