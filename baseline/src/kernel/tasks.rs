//! The calls on tasks: create, activate, sleep, cycle, end and kill. Rows that refuse come first, in the order of document 01's table.

use super::{
    Answer, Class, Kernel, Refusal, Session, Status, Task, TaskNo, LAST_PRIORITY, LONGEST_PERIOD,
    NRT_DEADLINE, WHOLE,
};

impl Kernel {
    pub fn create_hard(&mut self, period: u64, cost: u64) -> Answer {
        self.going()?;
        if !(1..=u64::from(LONGEST_PERIOD)).contains(&period) || !(1..=period).contains(&cost) {
            return Err(Refusal::OutsideSizes);
        }
        let task = self.free_record()?;
        let class = Class::Hard {
            period: period as u32,
            cost: cost as u32,
        };
        let total = self.total + class.share();
        if total > WHOLE {
            return Err(Refusal::NoGuarantee);
        }
        self.total = total;
        Ok(self.create(task, class, self.clock))
    }

    pub fn create_nrt(&mut self, priority: u64) -> Answer {
        self.going()?;
        if priority > u64::from(LAST_PRIORITY) {
            return Err(Refusal::OutsideSizes);
        }
        let task = self.free_record()?;
        let priority = priority as u8;
        let deadline = NRT_DEADLINE + u32::from(priority);
        Ok(self.create(task, Class::Nrt { priority }, deadline))
    }

    /// -4, or the lowest FREE record.
    #[inline]
    fn free_record(&self) -> Result<usize, Refusal> {
        self.tasks
            .iter()
            .position(|task| task.status == Status::Free)
            .ok_or(Refusal::NoTask)
    }

    #[inline]
    fn create(&mut self, task: usize, class: Class, deadline: u32) -> i64 {
        self.tasks[task] = Task {
            class,
            status: Status::Sleep,
            deadline,
            ..Task::FREE
        };
        task as i64
    }

    pub fn activate(&mut self, task: TaskNo) -> Answer {
        self.going()?;
        let task = self.task(task)?;
        if self.tasks[task].status != Status::Sleep {
            return Err(Refusal::WrongStatus);
        }
        if let Class::Hard { period, .. } = self.tasks[task].class {
            if self.clock < self.tasks[task].deadline {
                return Err(Refusal::TooSoon);
            }
            self.tasks[task].deadline = self.clock + period;
        }
        self.join(task, Status::Ready);
        self.schedule();
        Ok(0)
    }

    pub fn sleep(&mut self) -> Answer {
        self.going()?;
        self.not_main()?;
        self.join(self.running, Status::Sleep);
        self.dispatch();
        Ok(0)
    }

    pub fn cycle(&mut self) -> Answer {
        self.going()?;
        let task = self.running;
        // Main is NRT.
        if !self.tasks[task].class.is_hard() {
            return Err(Refusal::NotAllowed);
        }
        if self.clock < self.tasks[task].deadline {
            self.join(task, Status::Idle);
        } else {
            self.add_period(task);
            self.join(task, Status::Ready);
        }
        self.dispatch();
        Ok(0)
    }

    pub fn end(&mut self) -> Answer {
        self.going()?;
        self.not_main()?;
        self.ended(self.running);
        Ok(0)
    }

    pub fn kill(&mut self, task: TaskNo) -> Answer {
        self.going()?;
        if task.0 == 0 {
            return Err(Refusal::NotAllowed);
        }
        let task = self.task(task)?;
        if self.tasks[task].status == Status::Zombie {
            return Err(Refusal::WrongStatus);
        }
        self.ended(task);
        Ok(0)
    }

    /// A task that is not main ends.
    #[inline]
    fn ended(&mut self, task: usize) {
        if let Some(queue) = self.tasks[task].status.queue() {
            self.leave(queue, task);
        }
        for channel in &mut self.channels {
            channel.sessions[task] = Session::Closed;
        }
        if self.tasks[task].class.is_hard() {
            self.join(task, Status::Zombie);
        } else {
            self.tasks[task] = Task::FREE;
        }
        if task == self.running {
            self.dispatch();
        }
    }
}
