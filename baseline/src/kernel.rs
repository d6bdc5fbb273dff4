//! The kernel of document 01, in plain Rust: its sizes, its refusals, its state and the fresh kernel. The calls are in the folder beside this file.
//! No call tests its state: a `Kernel` that is called comes from `Kernel::fresh` and calls, or was found sound (`sound.rs`).

mod channels;
mod questions;
mod queues;
mod semaphores;
mod tasks;
mod ticks;

pub use channels::{Channel, ChannelNo, Memory, Session};

pub const TASKS: usize = 32;
pub const SEMAPHORES: usize = 32;
pub const CHANNELS: usize = 4;
pub const LONGEST_PERIOD: u32 = 72_000;
pub const LAST_PRIORITY: u8 = 254;
pub const MAIN_PRIORITY: u8 = 255;
pub const WHOLE: u32 = 1_000_000;
pub const HIGHEST_COUNT: u16 = 65_535;
pub const LONGEST_MESSAGE: usize = 512;
pub const FEWEST_BUFFERS: usize = 2;
pub const MOST_BUFFERS: usize = 8;
pub const MEMORY_SIZE: usize = 16_384;
pub const NRT_DEADLINE: u32 = 2_147_483_392;
pub const LIFETIME: u32 = 2_147_411_392;

/// The main task.
pub const MAIN: usize = 0;

/// The number of a task, as a caller hands it in: any number.
#[derive(Clone, Copy)]
pub struct TaskNo(pub u64);

/// The number of a semaphore, as a caller hands it in: any number.
#[derive(Clone, Copy)]
pub struct SemaphoreNo(pub u64);

#[derive(Clone, Copy, Debug, PartialEq, Eq)]
#[repr(i8)]
pub enum Refusal {
    TimeOverflow = -1,
    TimeExpired = -2,
    NoGuarantee = -3,
    NoTask = -4,
    NoSemaphore = -5,
    NoSuchNumber = -6,
    OutsideSizes = -7,
    NotAllowed = -8,
    WrongStatus = -9,
    NoRoom = -10,
    NothingPut = -13,
    WrongSession = -14,
    TooSoon = -15,
}

/// 0, the new number or what a question asks; or the refusal. A refused call has changed nothing.
pub type Answer = Result<i64, Refusal>;

#[derive(Clone, Copy, PartialEq, Eq)]
pub enum Class {
    Hard { period: u32, cost: u32 },
    Nrt { priority: u8 },
}

impl Class {
    /// What a task holds of the processor, in millionths, rounded up.
    pub fn share(self) -> u32 {
        match self {
            Class::Hard { period, cost } => {
                (u64::from(cost) * u64::from(WHOLE)).div_ceil(u64::from(period)) as u32
            }
            Class::Nrt { .. } => 0,
        }
    }

    pub fn is_hard(self) -> bool {
        matches!(self, Class::Hard { .. })
    }
}

#[derive(Clone, Copy, PartialEq, Eq)]
pub enum Status {
    Free,
    Ready,
    Exe,
    Sleep,
    Idle,
    /// With the number of the semaphore.
    Wait(u8),
    Zombie,
}

impl Status {
    /// The number that the question answers.
    pub fn number(self) -> i64 {
        match self {
            Status::Free => 0,
            Status::Ready => 1,
            Status::Exe => 2,
            Status::Sleep => 3,
            Status::Idle => 4,
            Status::Wait(_) => 5,
            Status::Zombie => 6,
        }
    }
}

/// A neighbour in a queue, or the first task of one.
pub type Link = i8;
pub const NONE: Link = -1;

#[derive(Clone, Copy, PartialEq, Eq)]
pub struct Task {
    pub class: Class,
    pub status: Status,
    pub deadline: u32,
    pub next: Link,
    pub previous: Link,
}

impl Task {
    pub const FREE: Task = Task {
        class: Class::Nrt { priority: 0 },
        status: Status::Free,
        deadline: 0,
        next: NONE,
        previous: NONE,
    };
}

/// A queue's place in `heads`.
pub type Queue = usize;
pub const READY: Queue = 0;
pub const IDLE: Queue = 1;
pub const ZOMBIE: Queue = 2;
/// That of semaphore s is `WAITERS` + s.
pub const WAITERS: Queue = 3;
pub const QUEUES: usize = WAITERS + SEMAPHORES;

#[derive(Clone, Copy, PartialEq, Eq)]
pub struct Semaphore {
    pub used: bool,
    pub count: u16,
}

impl Semaphore {
    pub const UNUSED: Semaphore = Semaphore {
        used: false,
        count: 0,
    };
}

#[derive(Clone, Copy, PartialEq, Eq)]
pub enum Stop {
    Going,
    Overrun,
    Lifetime,
}

/// Its fields are open to be read. Calls alone change them, but for the clock, which some cases set at their start. States that are made by hand
/// (`alone.rs`) are judged, and never called.
#[derive(Clone, PartialEq, Eq)]
pub struct Kernel {
    pub clock: u32,
    pub stop: Stop,
    pub running: usize,
    /// The sum of the HARD tasks' shares.
    pub total: u32,
    pub tasks: [Task; TASKS],
    pub heads: [Link; QUEUES],
    pub semaphores: [Semaphore; SEMAPHORES],
    pub channels: [Channel; CHANNELS],
}

impl Kernel {
    pub fn fresh() -> Kernel {
        let mut tasks = [Task::FREE; TASKS];
        tasks[MAIN] = Task {
            class: Class::Nrt {
                priority: MAIN_PRIORITY,
            },
            status: Status::Exe,
            deadline: NRT_DEADLINE + u32::from(MAIN_PRIORITY),
            ..Task::FREE
        };
        Kernel {
            clock: 0,
            stop: Stop::Going,
            running: MAIN,
            total: 0,
            tasks,
            heads: [NONE; QUEUES],
            semaphores: [Semaphore::UNUSED; SEMAPHORES],
            channels: [Channel::UNUSED; CHANNELS],
        }
    }

    // The rows that several calls have.

    /// -1, -2: every call's first row.
    #[inline]
    fn going(&self) -> Result<(), Refusal> {
        match self.stop {
            Stop::Going => Ok(()),
            Stop::Overrun => Err(Refusal::TimeOverflow),
            Stop::Lifetime => Err(Refusal::TimeExpired),
        }
    }

    /// -8: what the main task may not ask.
    #[inline]
    fn not_main(&self) -> Result<(), Refusal> {
        if self.running == MAIN {
            return Err(Refusal::NotAllowed);
        }
        Ok(())
    }

    /// -6, or the place of a task that is not FREE.
    #[inline]
    fn task(&self, TaskNo(number): TaskNo) -> Result<usize, Refusal> {
        if number < TASKS as u64 && self.tasks[number as usize].status != Status::Free {
            return Ok(number as usize);
        }
        Err(Refusal::NoSuchNumber)
    }

    /// -6, or the place of a used semaphore.
    #[inline]
    fn semaphore(&self, SemaphoreNo(number): SemaphoreNo) -> Result<usize, Refusal> {
        if number < SEMAPHORES as u64 && self.semaphores[number as usize].used {
            return Ok(number as usize);
        }
        Err(Refusal::NoSuchNumber)
    }
}
