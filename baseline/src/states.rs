//! States to be judged, as their words: what `baseline words` prints.

use crate::alone::alone;
use crate::kernel::{
    Answer, ChannelNo, Kernel, Memory, Refusal, SemaphoreNo, TaskNo, LIFETIME, LONGEST_PERIOD,
    MEMORY_SIZE, TASKS,
};
use crate::words::{next, shown, Words};
use std::io::{self, Write};

/// Each word is four bytes, highest first.
pub fn run(mut output: impl Write) -> io::Result<()> {
    for state in states().expect("no call is refused") {
        for word in state {
            output.write_all(&word.to_be_bytes())?;
        }
    }
    output.flush()
}

fn states() -> Result<Vec<Words>, Refusal> {
    let hall = hall()?;
    // The first of the two waiters at semaphore 3 leads to itself.
    let mut broken = shown(&hall);
    broken[next(14)] = 14;
    let mut states = vec![
        shown(&Kernel::fresh()),
        shown(&hall),
        shown(&full()?),
        shown(&overrun()?),
        shown(&lifetime()?),
        broken,
    ];
    states.extend(alone(&hall).iter().map(shown));
    Ok(states)
}

/// A hall in full use: tasks of every status, all of the processor given away, sessions of every kind on two of four channels, and a write on a third,
/// where nothing has been put.
fn hall() -> Result<Kernel, Refusal> {
    let mut kernel = Kernel::fresh();
    let mut memory = [0; MEMORY_SIZE];
    ticks(&mut kernel, 1_000_003)?;
    for (size, buffers) in [(512, 8), (1, 2), (64, 3)] {
        kernel.open_channel(size, buffers)?;
    }
    for count in [0, 65_535, 1, 0, 7, 0, 40_000] {
        kernel.new_semaphore(count)?;
    }
    kernel.delete(SemaphoreNo(4))?;
    // Tasks 1 to 10. Their shares are 1,000,000 together; that of task 8 is 16 with other periods, too.
    for (period, cost) in [
        (400, 100),
        (500, 100),
        (1_000, 100),
        (600, 60),
        (600, 60),
        (2_000, 200),
        (3_000, 150),
        (62_500, 1),
        (62_500, 3_124),
        (1_000, 50),
    ] {
        kernel.create_hard(period, cost)?;
    }
    // Tasks 11 to 19, of which 18 leaves a FREE record between others.
    for priority in [10, 10, 254, 20, 20, 5, 0, 30, 100] {
        kernel.create_nrt(priority)?;
    }
    kernel.kill(TaskNo(18))?;

    // NRT tasks that go out of the way of main, which runs again behind each.
    kernel.activate(TaskNo(16))?;
    message(&mut kernel, 0, &mut memory)?;
    kernel.begin_reading(ChannelNo(0))?;
    kernel.wait(SemaphoreNo(5))?;
    kernel.activate(TaskNo(14))?;
    kernel.begin_reading(ChannelNo(0))?;
    kernel.wait(SemaphoreNo(3))?;
    kernel.activate(TaskNo(15))?;
    kernel.begin_write(ChannelNo(0), &mut memory)?;
    kernel.wait(SemaphoreNo(3))?;
    kernel.activate(TaskNo(19))?;
    message(&mut kernel, 0, &mut memory)?;
    kernel.begin_reading(ChannelNo(0))?;
    kernel.begin_write(ChannelNo(1), &mut memory)?;
    kernel.sleep()?;
    message(&mut kernel, 2, &mut memory)?;
    kernel.begin_reading(ChannelNo(2))?;

    // Three that stay ready, two of them equal; 17 goes on.
    for task in [12, 11, 17] {
        kernel.activate(TaskNo(task))?;
    }

    // HARD tasks that go out of its way: two ZOMBIEs, one asleep, and three IDLE, two of them equal.
    for task in [7, 10] {
        kernel.activate(TaskNo(task))?;
        kernel.end()?;
    }
    kernel.activate(TaskNo(9))?;
    kernel.begin_write(ChannelNo(2), &mut memory)?;
    kernel.sleep()?;
    kernel.activate(TaskNo(6))?;
    kernel.begin_reading(ChannelNo(2))?;
    kernel.cycle()?;
    for task in [4, 5] {
        kernel.activate(TaskNo(task))?;
        kernel.cycle()?;
    }

    // Two that stay ready, and the one that runs. No deadline is at its limit when it has run for some ticks.
    ticks(&mut kernel, 130)?;
    kernel.activate(TaskNo(3))?;
    kernel.begin_write(ChannelNo(0), &mut memory)?;
    for task in [2, 1] {
        kernel.activate(TaskNo(task))?;
    }
    kernel.begin_reading(ChannelNo(0))?;
    ticks(&mut kernel, 70)?;
    Ok(kernel)
}

/// Every record is in use: the last task runs, and 31 are ready, every other one HARD.
fn full() -> Result<Kernel, Refusal> {
    let mut kernel = Kernel::fresh();
    for task in 1..TASKS as u64 {
        // Each HARD task goes before all that were activated before it.
        match task % 2 {
            1 => kernel.create_hard(u64::from(LONGEST_PERIOD) - 1_000 * task, 1)?,
            _ => kernel.create_nrt(3 * task)?,
        };
        kernel.activate(TaskNo(task))?;
    }
    Ok(kernel)
}

/// Stopped with -1, and an IDLE task's deadline has come, too.
fn overrun() -> Result<Kernel, Refusal> {
    let mut kernel = Kernel::fresh();
    kernel.create_hard(105, 10)?;
    kernel.create_hard(104, 10)?;
    kernel.create_hard(1_000, 10)?;
    kernel.create_nrt(7)?;
    kernel.activate(TaskNo(4))?;
    kernel.activate(TaskNo(3))?;
    kernel.activate(TaskNo(1))?;
    kernel.cycle()?;
    kernel.activate(TaskNo(2))?;
    ticks(&mut kernel, 105)?;
    Ok(kernel)
}

/// Stopped with -2. No one can wait for so many ticks: the clock is set, while tasks are there that were never activated. Their deadlines are past by
/// then, which they may be.
fn lifetime() -> Result<Kernel, Refusal> {
    let mut kernel = Kernel::fresh();
    kernel.create_hard(4, 1)?;
    kernel.create_hard(u64::from(LONGEST_PERIOD), 10)?;
    kernel.create_hard(2, 1)?;
    kernel.create_nrt(0)?;
    kernel.clock = LIFETIME - 1;
    // The latest HARD deadline that can be.
    kernel.activate(TaskNo(2))?;
    kernel.activate(TaskNo(3))?;
    kernel.cycle()?;
    kernel.activate(TaskNo(4))?;
    kernel.tick()?;
    Ok(kernel)
}

fn ticks(kernel: &mut Kernel, times: usize) -> Answer {
    for _ in 0..times {
        kernel.tick()?;
    }
    Ok(0)
}

/// The running task puts a message.
fn message(kernel: &mut Kernel, channel: u64, memory: &mut Memory) -> Answer {
    kernel.begin_write(ChannelNo(channel), memory)?;
    kernel.put(ChannelNo(channel))
}
