//! The questions, which change nothing.

use super::{Answer, Class, Kernel, Refusal, TaskNo, TASKS};

impl Kernel {
    pub fn clock(&self) -> Answer {
        self.going()?;
        Ok(i64::from(self.clock))
    }

    pub fn status(&self, TaskNo(number): TaskNo) -> Answer {
        self.going()?;
        if number >= TASKS as u64 {
            return Err(Refusal::NoSuchNumber);
        }
        Ok(self.tasks[number as usize].status.number())
    }

    pub fn deadline(&self, task: TaskNo) -> Answer {
        self.going()?;
        let task = self.task(task)?;
        Ok(i64::from(self.tasks[task].deadline))
    }

    pub fn period(&self, task: TaskNo) -> Answer {
        self.going()?;
        // -8 is of NRT tasks that are not FREE, so it and -6 never meet.
        let task = self.task(task)?;
        match self.tasks[task].class {
            Class::Hard { period, .. } => Ok(i64::from(period)),
            Class::Nrt { .. } => Err(Refusal::NotAllowed),
        }
    }

    pub fn slack(&self, task: TaskNo) -> Answer {
        self.going()?;
        let task = self.task(task)?;
        Ok(i64::from(self.tasks[task].deadline) - i64::from(self.clock))
    }
}
