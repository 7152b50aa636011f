//! The services on event flags: create to the polls.
//! A set serves every waiter that it meets, in queue order; CLR zeroes the bits as soon as somebody was met.

use crate::kernel::*;

const SINGLE: u32 = 1;
const CLR: u32 = 2;

/// What a wait or poll asks for: a pattern that is not empty, and a mode.
fn asked(pattern: u32, mode: u32) -> Result<Asked, i32> {
    in_range(pattern, 1, u32::MAX)?;
    in_range(mode, 0, 1)?;
    Ok(Asked { pattern, all: mode == 1 })
}

impl Kernel {
    /// The created flag of this number.
    fn flag(&self, number: u32) -> Result<usize, i32> {
        in_range(number, 1, FLAGS)?;
        if self.flags[number as usize].created {
            Ok(number as usize)
        } else {
            Err(NOEXS)
        }
    }

    pub(crate) fn event_create(&mut self, here: bool, number: u32, attributes: u32, bits: u32) -> Outcome {
        in_range(attributes, 0, SINGLE + CLR)?;
        if attributes == CLR {
            return Err(WRONG_PARAM); // CLR goes with SINGLE only
        }
        match self.flag(number) {
            Ok(_) => return Err(WRONG_PARAM), // it exists
            Err(NOEXS) => {}
            Err(code) => return Err(code),
        }
        allowed(here)?;
        let flag = &mut self.flags[number as usize];
        flag.created = true;
        flag.single = attributes & SINGLE != 0;
        flag.clr = attributes & CLR != 0;
        flag.bits = bits;
        Ok(NO_ERR)
    }

    pub(crate) fn event_delete(&mut self, here: bool, number: u32) -> Outcome {
        let f = self.flag(number)?;
        allowed(here)?;
        while !self.flags[f].queue.is_empty() {
            self.end_wait(self.flags[f].queue.first(), DLT);
        }
        self.flags[f] = Flag::NONE;
        Ok(NO_ERR)
    }

    pub(crate) fn event_set(&mut self, here: bool, number: u32, bits: u32) -> Outcome {
        in_range(bits, 1, u32::MAX)?;
        let f = self.flag(number)?;
        allowed(here)?;
        self.flags[f].bits |= bits;
        let Flag { queue, clr, bits, .. } = self.flags[f];
        let mut met = false;
        for &t in queue.as_slice() {
            let t = usize::from(t);
            if matches!(self.tasks[t].wait, Wait::Flag(_, asked) if asked.is_met_by(bits)) {
                self.end_wait(t, NO_ERR);
                self.tasks[t].handed = bits;
                met = true;
            }
        }
        if met && clr {
            self.flags[f].bits = 0;
        }
        Ok(NO_ERR)
    }

    pub(crate) fn event_clear(&mut self, here: bool, number: u32, bits: u32) -> Outcome {
        in_range(bits, 1, u32::MAX)?;
        let f = self.flag(number)?;
        allowed(here)?;
        self.flags[f].bits &= !bits;
        Ok(NO_ERR)
    }

    pub(crate) fn event_wait(
        &mut self,
        here: bool,
        number: u32,
        pattern: u32,
        mode: u32,
        timeout: u32,
    ) -> Result<(i32, u32), i32> {
        let asked = asked(pattern, mode)?;
        in_range(timeout, 1, FOREVER)?;
        let f = self.flag(number)?;
        allowed(here)?;
        let t = self.caller()?;
        match self.bits_at_once(f, asked)? {
            Some(bits) => Ok((NO_ERR, bits)),
            None => {
                self.begin_wait(t, Wait::Flag(f as u8, asked), timeout);
                Ok((PENDING, 0))
            }
        }
    }

    pub(crate) fn event_poll(&mut self, here: bool, number: u32, pattern: u32, mode: u32) -> Result<(i32, u32), i32> {
        let asked = asked(pattern, mode)?;
        let f = self.flag(number)?;
        allowed(here)?;
        match self.bits_at_once(f, asked)? {
            Some(bits) => Ok((NO_ERR, bits)),
            None => Err(TIMEOUT),
        }
    }

    /// The bits of a flag that meets what is asked; with CLR they are then gone. SINGLE lets nobody in beside its waiter.
    fn bits_at_once(&mut self, f: usize, asked: Asked) -> Result<Option<u32>, i32> {
        let flag = &mut self.flags[f];
        if flag.single && !flag.queue.is_empty() {
            return Err(ILUSE);
        }
        if !asked.is_met_by(flag.bits) {
            return Ok(None);
        }
        let bits = flag.bits;
        if flag.clr {
            flag.bits = 0;
        }
        Ok(Some(bits))
    }
}
