//! A state as words of 32 bits, where docs/LAYOUT.md has them.

use crate::kernel::{
    Channel, Class, Kernel, Link, Semaphore, Session, Status, Stop, Task, CHANNELS, MOST_BUFFERS,
    NONE, QUEUES, SEMAPHORES, TASKS,
};

pub type Words = [u32; WORDS];

const CLOCK: usize = 0;
const STOP: usize = 1;
const RUNNING: usize = 2;
const TOTAL: usize = 3;
// The ranges behind these: one follows the other, without gaps.
const FIRST_HEAD: usize = 4;
const FIRST_SEMAPHORE: usize = FIRST_HEAD + QUEUES;
const FIRST_TASK: usize = FIRST_SEMAPHORE + SEMAPHORES;
const FIRST_SESSION: usize = FIRST_TASK + TASK_WORDS * TASKS;
const FIRST_CHANNEL: usize = FIRST_SESSION + TASKS * CHANNELS;
pub const WORDS: usize = FIRST_CHANNEL + CHANNEL_WORDS * CHANNELS;
const _: () = assert!(WORDS == 467);

const TASK_WORDS: usize = 8;
const CHANNEL_WORDS: usize = 3;

/// The place of a task's next link.
pub const fn next(task: usize) -> usize {
    FIRST_TASK + TASK_WORDS * task + 4
}

/// The word that stands for -1.
const NO_TASK: u32 = u32::MAX;

/// A WAIT at semaphore s is `WAIT` + s.
const WAIT: u32 = 6;

/// A write of buffer b is `WRITE` + b, a reading `READING` + b.
const WRITE: u32 = 1;
const READING: u32 = WRITE + MOST_BUFFERS as u32;

/// The words that show a kernel.
pub fn shown(kernel: &Kernel) -> Words {
    let mut words = [0; WORDS];
    words[CLOCK] = kernel.clock;
    words[STOP] = match kernel.stop {
        Stop::Going => 0,
        Stop::Overrun => 1,
        Stop::Lifetime => 2,
    };
    words[RUNNING] = kernel.running as u32;
    words[TOTAL] = kernel.total;
    for (word, head) in words[FIRST_HEAD..].iter_mut().zip(kernel.heads) {
        *word = link_shown(head);
    }
    for (word, semaphore) in words[FIRST_SEMAPHORE..].iter_mut().zip(&kernel.semaphores) {
        *word = if semaphore.used {
            u32::from(semaphore.count) + 1
        } else {
            0
        };
    }
    for (record, task) in words[FIRST_TASK..]
        .chunks_exact_mut(TASK_WORDS)
        .zip(&kernel.tasks)
    {
        record.copy_from_slice(&task_shown(task));
    }
    for (number, channel) in kernel.channels.iter().enumerate() {
        for (word, session) in words[FIRST_SESSION + TASKS * number..]
            .iter_mut()
            .zip(channel.sessions)
        {
            *word = match session {
                Session::Closed => 0,
                Session::Write(buffer) => WRITE + u32::from(buffer),
                Session::Reading(buffer) => READING + u32::from(buffer),
            };
        }
        words[FIRST_CHANNEL + CHANNEL_WORDS * number..][..CHANNEL_WORDS].copy_from_slice(&[
            u32::from(channel.size),
            u32::from(channel.buffers),
            channel.latest.map_or(0, |latest| u32::from(latest) + 1),
        ]);
    }
    words
}

fn task_shown(task: &Task) -> [u32; TASK_WORDS] {
    let (period, amount) = match task.class {
        Class::Hard { period, cost } => (period, cost),
        Class::Nrt { priority } => (0, u32::from(priority)),
    };
    let status = match task.status {
        Status::Free => 0,
        Status::Sleep => 1,
        Status::Exe => 2,
        Status::Ready => 3,
        Status::Idle => 4,
        Status::Zombie => 5,
        Status::Wait(semaphore) => WAIT + u32::from(semaphore),
    };
    let (next, previous) = (link_shown(task.next), link_shown(task.previous));
    [period, amount, status, task.deadline, next, previous, 0, 0]
}

fn link_shown(link: Link) -> u32 {
    u32::try_from(link).unwrap_or(NO_TASK)
}

/// The kernel that is seen in words. There is none where the stop or a spare word is not in form, and none where a word means a number that
/// `Kernel` has no room for: each of these is out of what a sound state allows, so such words are not sound either.
pub fn seen(words: &Words) -> Option<Kernel> {
    let mut kernel = Kernel {
        clock: words[CLOCK],
        stop: match words[STOP] {
            0 => Stop::Going,
            1 => Stop::Overrun,
            2 => Stop::Lifetime,
            _ => return None,
        },
        running: words[RUNNING] as usize,
        total: words[TOTAL],
        ..Kernel::fresh()
    };
    for (head, &word) in kernel.heads.iter_mut().zip(&words[FIRST_HEAD..]) {
        *head = link_seen(word)?;
    }
    for (semaphore, &word) in kernel.semaphores.iter_mut().zip(&words[FIRST_SEMAPHORE..]) {
        *semaphore = match word.checked_sub(1) {
            None => Semaphore::UNUSED,
            Some(count) => Semaphore {
                used: true,
                count: count.try_into().ok()?,
            },
        };
    }
    for (task, record) in kernel
        .tasks
        .iter_mut()
        .zip(words[FIRST_TASK..].chunks_exact(TASK_WORDS))
    {
        *task = task_seen(record)?;
    }
    for (number, channel) in kernel.channels.iter_mut().enumerate() {
        let record = &words[FIRST_CHANNEL + CHANNEL_WORDS * number..];
        *channel = Channel {
            size: record[0].try_into().ok()?,
            buffers: record[1].try_into().ok()?,
            latest: match record[2].checked_sub(1) {
                None => None,
                Some(latest) => Some(latest.try_into().ok()?),
            },
            ..Channel::UNUSED
        };
        for (session, &word) in channel
            .sessions
            .iter_mut()
            .zip(&words[FIRST_SESSION + TASKS * number..])
        {
            *session = match word {
                0 => Session::Closed,
                WRITE..READING => Session::Write((word - WRITE).try_into().ok()?),
                READING.. => Session::Reading((word - READING).try_into().ok()?),
            };
        }
    }
    Some(kernel)
}

fn task_seen(record: &[u32]) -> Option<Task> {
    let &[period, amount, status, deadline, next, previous, 0, 0] = record else {
        return None;
    };
    Some(Task {
        class: match period {
            0 => Class::Nrt {
                priority: amount.try_into().ok()?,
            },
            _ => Class::Hard {
                period,
                cost: amount,
            },
        },
        status: match status {
            0 => Status::Free,
            1 => Status::Sleep,
            2 => Status::Exe,
            3 => Status::Ready,
            4 => Status::Idle,
            5 => Status::Zombie,
            WAIT.. => Status::Wait((status - WAIT).try_into().ok()?),
        },
        deadline,
        next: link_seen(next)?,
        previous: link_seen(previous)?,
    })
}

fn link_seen(word: u32) -> Option<Link> {
    match word {
        NO_TASK => Some(NONE),
        _ => word.try_into().ok(),
    }
}
