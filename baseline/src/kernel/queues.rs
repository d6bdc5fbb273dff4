//! The queues, chains by rising deadline, and the two moves between them: dispatch and schedule.

use super::{Kernel, Link, Queue, Status, IDLE, NONE, READY, WAITERS, ZOMBIE};

impl Status {
    /// Where tasks of this status stand.
    #[inline]
    pub fn queue(self) -> Option<Queue> {
        match self {
            Status::Ready => Some(READY),
            Status::Idle => Some(IDLE),
            Status::Zombie => Some(ZOMBIE),
            Status::Wait(semaphore) => Some(WAITERS + usize::from(semaphore)),
            Status::Free | Status::Exe | Status::Sleep => None,
        }
    }
}

impl Kernel {
    /// A task that stands in no queue gets this status, and joins its queue behind those with the same deadline.
    #[inline]
    pub(super) fn join(&mut self, task: usize, status: Status) {
        self.tasks[task].status = status;
        if let Some(queue) = status.queue() {
            self.file(queue, task);
        }
    }

    #[inline]
    fn file(&mut self, queue: Queue, task: usize) {
        let deadline = self.tasks[task].deadline;
        let mut previous = NONE;
        let mut next = self.heads[queue];
        while next != NONE {
            let other = &self.tasks[next as usize];
            if other.deadline > deadline {
                break;
            }
            previous = next;
            next = other.next;
        }
        self.tasks[task].next = next;
        self.tasks[task].previous = previous;
        self.link(queue, previous, task as Link);
        if next != NONE {
            self.tasks[next as usize].previous = task as Link;
        }
    }

    /// Behind `previous`, or at the head, `next` comes.
    #[inline]
    fn link(&mut self, queue: Queue, previous: Link, next: Link) {
        if previous == NONE {
            self.heads[queue] = next;
        } else {
            self.tasks[previous as usize].next = next;
        }
    }

    /// A task leaves the queue in which it stands.
    #[inline]
    pub(super) fn leave(&mut self, queue: Queue, task: usize) {
        let record = &mut self.tasks[task];
        let (next, previous) = (record.next, record.previous);
        record.next = NONE;
        record.previous = NONE;
        self.link(queue, previous, next);
        if next != NONE {
            self.tasks[next as usize].previous = previous;
        }
    }

    #[inline]
    pub(super) fn first(&self, queue: Queue) -> Option<usize> {
        let head = self.heads[queue];
        (head != NONE).then_some(head as usize)
    }

    /// The first task of a queue, if its deadline is no later than the clock.
    #[inline]
    pub(super) fn first_due(&self, queue: Queue) -> Option<usize> {
        self.first(queue)
            .filter(|&task| self.tasks[task].deadline <= self.clock)
    }

    /// The first ready task runs. Where the running task has gone elsewhere, main is ready, so there is one.
    #[inline]
    pub(super) fn dispatch(&mut self) {
        if let Some(first) = self.first(READY) {
            self.leave(READY, first);
            self.tasks[first].status = Status::Exe;
            self.running = first;
        }
    }

    #[inline]
    pub(super) fn schedule(&mut self) {
        let running = self.running;
        let earlier = |first: usize| self.tasks[first].deadline < self.tasks[running].deadline;
        if self.first(READY).is_some_and(earlier) {
            self.join(running, Status::Ready);
            self.dispatch();
        }
    }
}
