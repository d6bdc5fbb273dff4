//! The clock tick.

use super::{Answer, Class, Kernel, Status, Stop, Task, IDLE, LIFETIME, ZOMBIE};

impl Kernel {
    pub fn tick(&mut self) -> Answer {
        self.going()?;
        self.clock += 1;
        let running = &self.tasks[self.running];
        if self.clock == LIFETIME {
            self.stop = Stop::Lifetime;
        } else if self.clock > running.deadline && running.class.is_hard() {
            self.stop = Stop::Overrun;
        } else {
            self.free_zombies();
            self.wake();
        }
        Ok(0)
    }

    #[inline]
    fn free_zombies(&mut self) {
        while let Some(task) = self.first_due(ZOMBIE) {
            self.leave(ZOMBIE, task);
            self.total -= self.tasks[task].class.share();
            self.tasks[task] = Task::FREE;
        }
    }

    #[inline]
    fn wake(&mut self) {
        let mut woke = false;
        while let Some(task) = self.first_due(IDLE) {
            self.leave(IDLE, task);
            self.add_period(task);
            self.join(task, Status::Ready);
            woke = true;
        }
        if woke {
            self.schedule();
        }
    }

    /// The next deadline of a HARD task.
    #[inline]
    pub(super) fn add_period(&mut self, task: usize) {
        if let Class::Hard { period, .. } = self.tasks[task].class {
            self.tasks[task].deadline += period;
        }
    }
}
