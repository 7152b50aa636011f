//! The services on tasks: create to change_priority, and ready_ticks.
//! Each makes its tests in the order of document 01: numbers, existence, context, then its own.

use crate::kernel::*;

impl Kernel {
    /// The created task of this number.
    fn task(&self, number: u32) -> Result<usize, i32> {
        in_range(number, 1, TASKS)?;
        if self.tasks[number as usize].base == 0 {
            Err(NOEXS)
        } else {
            Ok(number as usize)
        }
    }

    pub(crate) fn task_create(&mut self, here: bool, number: u32, priority: u32, option: u32) -> Outcome {
        in_range(priority, 1, LEVELS)?;
        in_range(option, 0, 1)?;
        match self.task(number) {
            Ok(_) => return Err(WRONG_PARAM), // it exists
            Err(NOEXS) => {}
            Err(code) => return Err(code),
        }
        allowed(here)?;
        let t = number as usize;
        self.tasks[t] = Task::dormant(priority as u8);
        if option == 1 {
            self.start(t);
        }
        Ok(NO_ERR)
    }

    pub(crate) fn task_delete(&mut self, here: bool, number: u32) -> Outcome {
        let t = self.task(number)?;
        allowed(here)?;
        if self.tasks[t].active {
            return Err(WCONTEXT);
        }
        self.tasks[t] = Task::NONE;
        Ok(NO_ERR)
    }

    pub(crate) fn task_activate(&mut self, here: bool, number: u32) -> Outcome {
        let t = self.task(number)?;
        allowed(here)?;
        if !self.tasks[t].active {
            self.start(t);
        } else if self.tasks[t].activations == 0 {
            self.tasks[t].activations = 1;
        } else {
            return Err(OVERFLOW);
        }
        Ok(NO_ERR)
    }

    pub(crate) fn task_exit(&mut self, here: bool) -> Outcome {
        allowed(here)?;
        let t = self.caller()?;
        self.become_dormant(t);
        Ok(NO_ERR)
    }

    pub(crate) fn task_terminate(&mut self, here: bool, number: u32) -> Outcome {
        let t = self.task(number)?;
        allowed(here)?;
        if t == self.running() || !self.tasks[t].active {
            return Err(WCONTEXT);
        }
        self.become_dormant(t);
        Ok(NO_ERR)
    }

    pub(crate) fn task_suspend(&mut self, here: bool, number: u32) -> Outcome {
        let t = self.task(number)?;
        allowed(here)?;
        if !self.tasks[t].active {
            return Err(WSTATE);
        }
        if self.tasks[t].suspended {
            return Err(OVERFLOW);
        }
        if !self.tasks[t].is_waiting() {
            self.leave_level(t);
        }
        self.tasks[t].suspended = true;
        Ok(NO_ERR)
    }

    pub(crate) fn task_resume(&mut self, here: bool, number: u32) -> Outcome {
        let t = self.task(number)?;
        allowed(here)?;
        if !self.tasks[t].suspended {
            return Err(WSTATE);
        }
        self.tasks[t].suspended = false;
        if !self.tasks[t].is_waiting() {
            self.enter_level(t);
        }
        Ok(NO_ERR)
    }

    pub(crate) fn task_sleep(&mut self, here: bool, timeout: u32) -> Outcome {
        in_range(timeout, 1, FOREVER)?;
        allowed(here)?;
        let t = self.caller()?;
        if self.tasks[t].wakeups == 1 {
            self.tasks[t].wakeups = 0;
            return Ok(NO_ERR);
        }
        self.begin_wait(t, Wait::Sleep, timeout);
        Ok(PENDING)
    }

    pub(crate) fn task_wakeup(&mut self, here: bool, number: u32) -> Outcome {
        let t = self.task(number)?;
        allowed(here)?;
        if !self.tasks[t].active {
            return Err(WCONTEXT);
        }
        if self.tasks[t].wait == Wait::Sleep {
            self.end_wait(t, NO_ERR);
        } else if self.tasks[t].wakeups == 0 {
            self.tasks[t].wakeups = 1;
        } else {
            return Err(OVERFLOW);
        }
        Ok(NO_ERR)
    }

    pub(crate) fn task_release_wait(&mut self, here: bool, number: u32) -> Outcome {
        let t = self.task(number)?;
        allowed(here)?;
        if !self.tasks[t].is_waiting() {
            return Err(WCONTEXT);
        }
        self.end_wait(t, RELEASED);
        Ok(NO_ERR)
    }

    pub(crate) fn task_change_priority(&mut self, here: bool, number: u32, priority: u32) -> Outcome {
        in_range(priority, 0, LEVELS)?;
        let t = self.task(number)?;
        allowed(here)?;
        let task = self.tasks[t];
        if !task.active {
            return Err(WCONTEXT);
        }
        let wanted = if priority == 0 { task.base } else { priority as u8 };
        if wanted == task.priority {
            return Ok(NO_ERR);
        }
        if task.is_runnable() {
            self.leave_level(t);
            self.tasks[t].priority = wanted;
            self.enter_level(t);
        } else {
            self.tasks[t].priority = wanted;
        }
        Ok(NO_ERR)
    }

    /// The ticks since the task last entered its level, whether or not it is still there; exact below 4,294,967,296.
    pub(crate) fn ready_ticks(&self, here: bool, number: u32) -> Result<(i32, u32), i32> {
        let t = self.task(number)?;
        allowed(here)?;
        if !self.tasks[t].active {
            return Err(WCONTEXT);
        }
        Ok((NO_ERR, self.time.wrapping_sub(self.tasks[t].entered)))
    }
}
