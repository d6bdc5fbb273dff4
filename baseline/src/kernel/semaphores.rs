//! The calls on semaphores.

use super::{Answer, Kernel, Refusal, Semaphore, SemaphoreNo, Status, HIGHEST_COUNT, WAITERS};

impl Kernel {
    pub fn new_semaphore(&mut self, count: u64) -> Answer {
        self.going()?;
        let count = u16::try_from(count).map_err(|_| Refusal::OutsideSizes)?;
        let semaphore = self
            .semaphores
            .iter()
            .position(|semaphore| !semaphore.used)
            .ok_or(Refusal::NoSemaphore)?;
        self.semaphores[semaphore] = Semaphore { used: true, count };
        Ok(semaphore as i64)
    }

    pub fn delete(&mut self, semaphore: SemaphoreNo) -> Answer {
        self.going()?;
        let semaphore = self.semaphore(semaphore)?;
        if self.first(WAITERS + semaphore).is_some() {
            return Err(Refusal::WrongStatus);
        }
        self.semaphores[semaphore] = Semaphore::UNUSED;
        Ok(0)
    }

    pub fn wait(&mut self, semaphore: SemaphoreNo) -> Answer {
        self.going()?;
        self.not_main()?;
        let task = self.running;
        if self.tasks[task].class.is_hard() {
            return Err(Refusal::NotAllowed);
        }
        let semaphore = self.semaphore(semaphore)?;
        let count = &mut self.semaphores[semaphore].count;
        if *count > 0 {
            *count -= 1;
        } else {
            self.join(task, Status::Wait(semaphore as u8));
            self.dispatch();
        }
        Ok(0)
    }

    pub fn signal(&mut self, semaphore: SemaphoreNo) -> Answer {
        self.going()?;
        let semaphore = self.semaphore(semaphore)?;
        if self.semaphores[semaphore].count == HIGHEST_COUNT {
            return Err(Refusal::WrongStatus);
        }
        let queue = WAITERS + semaphore;
        if let Some(task) = self.first(queue) {
            self.leave(queue, task);
            self.join(task, Status::Ready);
            self.schedule();
        } else {
            self.semaphores[semaphore].count += 1;
        }
        Ok(0)
    }
}
