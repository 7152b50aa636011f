//! Time slices and the tick.
//! A tick counts time, then charges the task that was running as it came, then lets the timeouts fall.

use crate::kernel::*;

impl Kernel {
    pub(crate) fn tslice_ticks(&mut self, here: bool, level: u32, slice: u32) -> Outcome {
        in_range(level, 1, LEVELS)?;
        in_range(slice, 0, LARGEST_SLICE)?;
        allowed(here)?;
        let level = &mut self.levels[level as usize];
        level.slice = slice as u16;
        for &t in level.queue.as_slice() {
            self.tasks[t as usize].charge = 0;
        }
        Ok(NO_ERR)
    }

    pub(crate) fn tick(&mut self, here: bool) -> Outcome {
        allowed(here)?;
        self.time = self.time.wrapping_add(1);
        self.charge_running_task();
        self.let_timeouts_fall();
        Ok(NO_ERR)
    }

    /// At the slice of its level the charge goes back to 0, and the level's first, if not alone, becomes last: it enters anew.
    fn charge_running_task(&mut self) {
        let running = self.running();
        if running == 0 {
            return;
        }
        let task = &mut self.tasks[running];
        let level = &mut self.levels[task.priority as usize];
        if level.slice == 0 {
            return;
        }
        if task.charge + 1 < level.slice {
            task.charge += 1;
        } else {
            task.charge = 0;
            if level.queue.turn() {
                task.entered = self.time;
            }
        }
    }

    /// In ascending task number, suspended waiters too.
    fn let_timeouts_fall(&mut self) {
        let mut left = self.timed();
        while left != 0 {
            let t = left.trailing_zeros() as usize;
            left &= left - 1;
            let task = &mut self.tasks[t];
            task.remaining -= 1;
            if task.remaining == 0 {
                let code = if task.wait == Wait::Sleep { NO_ERR } else { TIMEOUT };
                self.end_wait(t, code);
            }
        }
    }
}
