//! States in which one clause of soundness is broken and no other, made by hand: a test without that clause would find them sound.
//! There is none for a cost above its period, since the share of that task alone is above all of the processor.

use crate::kernel::{
    Class, Kernel, Link, Status, IDLE, MAIN, MAIN_PRIORITY, NONE, NRT_DEADLINE, WAITERS, ZOMBIE,
};

// Tasks of the hall.
/// HARD and asleep. Its cost of 1 in 62,500 is a share of 16.
const HARD_SLEEPER: usize = 8;
/// NRT and asleep, without a session.
const NRT_SLEEPER: usize = 13;

/// Each of them from the hall, but for one.
pub fn alone(hall: &Kernel) -> [Kernel; 9] {
    [
        low_priority(hall.clone()),
        no_cost(hall.clone()),
        main_asleep(hall.clone()),
        main_priority(hall.clone()),
        main_hard(),
        hard_waits(hall.clone()),
        nrt_last(hall.clone(), Status::Idle, IDLE),
        nrt_last(hall.clone(), Status::Zombie, ZOMBIE),
        more_than_whole(hall.clone()),
    ]
}

/// Breaks alone: an NRT priority is at most 254, but for task 0. Its deadline is that of priority 255.
fn low_priority(mut kernel: Kernel) -> Kernel {
    nrt(&mut kernel, NRT_SLEEPER, MAIN_PRIORITY);
    kernel
}

/// Breaks alone: a cost is at least 1. The share of none is 0.
fn no_cost(mut kernel: Kernel) -> Kernel {
    hard(&mut kernel, HARD_SLEEPER, 62_500, 0);
    kernel
}

/// Breaks alone: task 0 is EXE or READY. It was the last in the ready queue.
fn main_asleep(mut kernel: Kernel) -> Kernel {
    let before = kernel.tasks[MAIN].previous;
    kernel.tasks[before as usize].next = NONE;
    kernel.tasks[MAIN].previous = NONE;
    kernel.tasks[MAIN].status = Status::Sleep;
    kernel
}

/// Breaks alone: task 0 is NRT 255. It is still the last in the ready queue.
fn main_priority(mut kernel: Kernel) -> Kernel {
    nrt(&mut kernel, MAIN, MAIN_PRIORITY - 1);
    kernel
}

/// Breaks alone: task 0 is NRT 255. In a fresh kernel it is HARD, and runs.
fn main_hard() -> Kernel {
    let mut kernel = Kernel::fresh();
    hard(&mut kernel, MAIN, 100, 1);
    kernel.tasks[MAIN].deadline = 100;
    kernel
}

/// Breaks alone: no HARD task is WAIT. It is at semaphore 0, whose count is 0, and nobody else is there.
fn hard_waits(mut kernel: Kernel) -> Kernel {
    kernel.tasks[HARD_SLEEPER].status = Status::Wait(0);
    kernel.heads[WAITERS] = HARD_SLEEPER as Link;
    kernel
}

/// Breaks alone: no NRT task is IDLE or ZOMBIE. It stands behind the HARD ones, whose deadlines are earlier.
fn nrt_last(mut kernel: Kernel, status: Status, queue: usize) -> Kernel {
    let mut last = kernel.heads[queue] as usize;
    while kernel.tasks[last].next != NONE {
        last = kernel.tasks[last].next as usize;
    }
    kernel.tasks[last].next = NRT_SLEEPER as Link;
    kernel.tasks[NRT_SLEEPER].previous = last as Link;
    kernel.tasks[NRT_SLEEPER].status = status;
    kernel
}

/// Breaks alone: the share total is at most 1,000,000, which it is in the hall. A period that is one less has a share of 17.
fn more_than_whole(mut kernel: Kernel) -> Kernel {
    hard(&mut kernel, HARD_SLEEPER, 62_499, 1);
    kernel
}

/// The task is NRT of this priority, with the deadline that goes with it.
fn nrt(kernel: &mut Kernel, task: usize, priority: u8) {
    kernel.tasks[task].class = Class::Nrt { priority };
    kernel.tasks[task].deadline = NRT_DEADLINE + u32::from(priority);
}

/// The task is HARD, and the total goes with its share.
fn hard(kernel: &mut Kernel, task: usize, period: u32, cost: u32) {
    let class = Class::Hard { period, cost };
    kernel.total = kernel.total - kernel.tasks[task].class.share() + class.share();
    kernel.tasks[task].class = class;
}
