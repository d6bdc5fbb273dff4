//! The test whether a state is sound, clause by clause as document 01 has them. No call uses it: `baseline verdict` says what it costs, and
//! `baseline flips` judges any words by it, so a `Kernel` that is tested need not come from calls.

use crate::kernel::{
    Channel, Class, Kernel, Session, Status, Stop, Task, FEWEST_BUFFERS, LAST_PRIORITY, LIFETIME,
    LONGEST_MESSAGE, LONGEST_PERIOD, MAIN, MAIN_PRIORITY, MOST_BUFFERS, NONE, NRT_DEADLINE, QUEUES,
    READY, SEMAPHORES, TASKS, WAITERS, WHOLE,
};

pub fn sound(kernel: &Kernel) -> bool {
    who_runs(kernel)
        && queues(kernel)
        && kernel
            .tasks
            .iter()
            .enumerate()
            .all(|(number, task)| record(kernel, number, task))
        && shares(kernel)
        && semaphores(kernel)
        && kernel
            .channels
            .iter()
            .all(|channel| sessions(kernel, channel))
        && time(kernel)
}

/// Exactly one task is EXE, the stored one, with deadline no later than the first ready one's.
fn who_runs(kernel: &Kernel) -> bool {
    kernel.running < TASKS
        && kernel
            .tasks
            .iter()
            .enumerate()
            .all(|(number, task)| (task.status == Status::Exe) == (number == kernel.running))
        && match usize::try_from(kernel.heads[READY]) {
            Ok(first) if first < TASKS => {
                kernel.tasks[kernel.running].deadline <= kernel.tasks[first].deadline
            }
            _ => kernel.heads[READY] == NONE,
        }
}

/// Each chain holds exactly the tasks of its status, once each, by rising deadline; links are mutual; tasks in no queue have none.
fn queues(kernel: &Kernel) -> bool {
    let mut met = 0u32;
    for queue in 0..QUEUES {
        let mut previous = NONE;
        let mut deadline = 0;
        let mut at = kernel.heads[queue];
        while at != NONE {
            let Some(task) = usize::try_from(at).ok().and_then(|at| kernel.tasks.get(at)) else {
                return false;
            };
            if task.status.queue() != Some(queue)
                || task.previous != previous
                || task.deadline < deadline
                || met & (1 << at) != 0
            {
                return false;
            }
            met |= 1 << at;
            previous = at;
            deadline = task.deadline;
            at = task.next;
        }
    }
    kernel.tasks.iter().enumerate().all(|(number, task)| {
        let queued = met & (1 << number) != 0;
        match task.status.queue() {
            Some(_) => queued,
            None => !queued && task.next == NONE && task.previous == NONE,
        }
    })
}

/// A record keeps its sizes, and its class, status and deadline go together.
fn record(kernel: &Kernel, number: usize, task: &Task) -> bool {
    let main = number == MAIN;
    let class = match task.class {
        Class::Hard { period, cost } => {
            !main
                && (1..=LONGEST_PERIOD).contains(&period)
                && (1..=period).contains(&cost)
                && task.deadline <= kernel.clock.saturating_add(period)
        }
        Class::Nrt { priority } => {
            let deadline = match task.status {
                Status::Free => 0,
                _ => NRT_DEADLINE + u32::from(priority),
            };
            task.deadline == deadline
                && if main {
                    priority == MAIN_PRIORITY
                } else {
                    priority <= LAST_PRIORITY
                }
        }
    };
    let status = match task.status {
        Status::Free => task.class == Task::FREE.class,
        Status::Idle | Status::Zombie => task.class.is_hard(),
        Status::Wait(semaphore) => {
            !task.class.is_hard()
                && kernel
                    .semaphores
                    .get(usize::from(semaphore))
                    .is_some_and(|named| named.used)
        }
        Status::Ready | Status::Exe | Status::Sleep => true,
    };
    class && status && (!main || matches!(task.status, Status::Exe | Status::Ready))
}

/// The stored total is the sum of the shares, at most all of the processor. A FREE record is NRT, and has none.
fn shares(kernel: &Kernel) -> bool {
    let sum: u64 = kernel
        .tasks
        .iter()
        .map(|task| u64::from(task.class.share()))
        .sum();
    sum == u64::from(kernel.total) && kernel.total <= WHOLE
}

/// A semaphore with count above 0 has no waiters; an unused one has count 0 and none.
fn semaphores(kernel: &Kernel) -> bool {
    (0..SEMAPHORES).all(|number| {
        let semaphore = kernel.semaphores[number];
        let nobody = kernel.heads[WAITERS + number] == NONE;
        if semaphore.used {
            semaphore.count == 0 || nobody
        } else {
            semaphore.count == 0 && nobody
        }
    })
}

/// An unused channel is blank. A used one keeps its sizes; its sessions have its buffers, and no buffer is written that is written by another, latest or read.
fn sessions(kernel: &Kernel, channel: &Channel) -> bool {
    if channel.size == 0 {
        return *channel == Channel::UNUSED;
    }
    let buffers = usize::from(channel.buffers);
    if usize::from(channel.size) > LONGEST_MESSAGE
        || !(FEWEST_BUFFERS..=MOST_BUFFERS).contains(&buffers)
        || channel
            .latest
            .is_some_and(|latest| latest >= channel.buffers)
    {
        return false;
    }
    let mut written = 0u32;
    let mut shown = channel.latest.map_or(0, |latest| 1u32 << latest);
    for (session, task) in channel.sessions.iter().zip(&kernel.tasks) {
        let (Session::Write(buffer) | Session::Reading(buffer)) = *session else {
            continue;
        };
        if matches!(task.status, Status::Free | Status::Zombie) || buffer >= channel.buffers {
            return false;
        }
        let bit = 1 << buffer;
        if let Session::Write(_) = session {
            if written & bit != 0 {
                return false;
            }
            written |= bit;
        } else {
            if channel.latest.is_none() {
                return false;
            }
            shown |= bit;
        }
    }
    written & shown == 0
}

/// The clock is lifetime exactly when stopped with -2; if not stopped, no IDLE task is due and no running HARD one is late.
fn time(kernel: &Kernel) -> bool {
    let going = kernel.stop == Stop::Going;
    kernel.clock <= LIFETIME
        && (kernel.clock == LIFETIME) == (kernel.stop == Stop::Lifetime)
        && (!going
            || kernel.tasks.iter().all(|task| match task.status {
                Status::Idle => task.deadline > kernel.clock,
                Status::Exe => !task.class.is_hard() || task.deadline >= kernel.clock,
                _ => true,
            }))
}
