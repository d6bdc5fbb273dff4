//! The twelve calls that a script has, as data: a verb and up to two numbers; how a line spells one, and making one.

use crate::kernel::{Answer, Kernel, SemaphoreNo, TaskNo};
use std::fmt;

#[derive(Clone, Copy)]
pub enum Call {
    Tick,
    Hard(u64, u64),
    Nrt(u64),
    Activate(u64),
    Sleep,
    Cycle,
    End,
    Kill(u64),
    NewSemaphore(u64),
    Delete(u64),
    Wait(u64),
    Signal(u64),
}

impl Call {
    #[inline]
    pub fn make(self, kernel: &mut Kernel) -> Answer {
        match self {
            Call::Tick => kernel.tick(),
            Call::Hard(period, cost) => kernel.create_hard(period, cost),
            Call::Nrt(priority) => kernel.create_nrt(priority),
            Call::Activate(task) => kernel.activate(TaskNo(task)),
            Call::Sleep => kernel.sleep(),
            Call::Cycle => kernel.cycle(),
            Call::End => kernel.end(),
            Call::Kill(task) => kernel.kill(TaskNo(task)),
            Call::NewSemaphore(count) => kernel.new_semaphore(count),
            Call::Delete(semaphore) => kernel.delete(SemaphoreNo(semaphore)),
            Call::Wait(semaphore) => kernel.wait(SemaphoreNo(semaphore)),
            Call::Signal(semaphore) => kernel.signal(SemaphoreNo(semaphore)),
        }
    }

    /// The call that a line spells, byte for byte. The limit of 64 bytes needs no test: the longest call has 26.
    pub fn spelt(line: &[u8]) -> Option<Call> {
        let Some((verb, numbers)) = split(line) else {
            return match line {
                b"tick" => Some(Call::Tick),
                b"sleep" => Some(Call::Sleep),
                b"cycle" => Some(Call::Cycle),
                b"end" => Some(Call::End),
                _ => None,
            };
        };
        if verb == b"hard" {
            let (period, cost) = split(numbers)?;
            return Some(Call::Hard(number(period)?, number(cost)?));
        }
        let with: fn(u64) -> Call = match verb {
            b"nrt" => Call::Nrt,
            b"activate" => Call::Activate,
            b"kill" => Call::Kill,
            b"newsem" => Call::NewSemaphore,
            b"delsem" => Call::Delete,
            b"wait" => Call::Wait,
            b"signal" => Call::Signal,
            _ => return None,
        };
        Some(with(number(numbers)?))
    }
}

/// What stands before the first space, and what stands behind it.
fn split(text: &[u8]) -> Option<(&[u8], &[u8])> {
    let at = text.iter().position(|&byte| byte == b' ')?;
    Some((&text[..at], &text[at + 1..]))
}

/// A decimal of 1 to 10 digits.
fn number(text: &[u8]) -> Option<u64> {
    if !(1..=10).contains(&text.len()) {
        return None;
    }
    text.iter().try_fold(0, |so_far, byte| {
        let digit = byte.wrapping_sub(b'0');
        (digit < 10).then_some(so_far * 10 + u64::from(digit))
    })
}

impl fmt::Display for Call {
    fn fmt(&self, f: &mut fmt::Formatter) -> fmt::Result {
        match self {
            Call::Tick => write!(f, "tick"),
            Call::Hard(period, cost) => write!(f, "hard {period} {cost}"),
            Call::Nrt(priority) => write!(f, "nrt {priority}"),
            Call::Activate(task) => write!(f, "activate {task}"),
            Call::Sleep => write!(f, "sleep"),
            Call::Cycle => write!(f, "cycle"),
            Call::End => write!(f, "end"),
            Call::Kill(task) => write!(f, "kill {task}"),
            Call::NewSemaphore(count) => write!(f, "newsem {count}"),
            Call::Delete(semaphore) => write!(f, "delsem {semaphore}"),
            Call::Wait(semaphore) => write!(f, "wait {semaphore}"),
            Call::Signal(semaphore) => write!(f, "signal {semaphore}"),
        }
    }
}
