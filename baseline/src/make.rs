//! Scripts to compare programs with. The maker plays what it writes, so that a script does not stop its kernel early.

use crate::calls::Call;
use crate::full;
use crate::kernel::{Kernel, Status, Stop, MAIN, SEMAPHORES, TASKS, WAITERS};
use crate::odd;
use crate::random::Random;
use std::io::{self, Write};
use std::ops::Range;
use std::vec::IntoIter;

#[derive(Clone, Copy, PartialEq, Eq)]
pub enum Kind {
    /// Everything, some 18 tasks alive, a tenth refused.
    Mixed,
    /// Nine tenths ticks.
    Ticks,
    /// A full table first; from then on every call is refused.
    Refused,
    /// As mixed, with odd lines between; the kernel stops near the end, and the last line has no newline.
    Odd,
    /// As odd, with more ticks, and few odd lines, none of them much too long.
    Shift,
}

impl Kind {
    pub fn named(name: &str) -> Option<Kind> {
        match name {
            "mixed" => Some(Kind::Mixed),
            "ticks" => Some(Kind::Ticks),
            "refused" => Some(Kind::Refused),
            "odd" => Some(Kind::Odd),
            "shift" => Some(Kind::Shift),
            _ => None,
        }
    }
}

/// Writes a script of so many lines; standard error says what is in it.
pub fn run(kind: Kind, lines: u64, seed: u64, mut output: impl Write) -> io::Result<()> {
    let mut maker = Maker {
        kernel: Kernel::fresh(),
        random: Random(seed),
        periods: if kind == Kind::Ticks {
            400..4000
        } else {
            8..200
        },
        filling: full::calls().into_iter(),
        calls: 0,
        ticks: 0,
        refused: 0,
        alive: 0,
    };
    for line in 0..lines {
        let text = match kind {
            Kind::Mixed => maker.mixed(10, 25),
            Kind::Ticks => maker.mixed(1, 91),
            Kind::Refused => maker.refused(),
            Kind::Odd => maker.odd(line, lines, &ODD),
            Kind::Shift => maker.odd(line, lines, &SHIFT),
        };
        output.write_all(&text)?;
        if !matches!(kind, Kind::Odd | Kind::Shift) || line + 1 < lines {
            output.write_all(b"\n")?;
        }
        maker.play(&text);
    }
    output.flush()?;
    maker.summary(lines);
    Ok(())
}

/// What a script with odd lines is made of, in hundredths; and how long an odd line is at most.
struct Shares {
    refused: u64,
    ticks: u64,
    calls: u64,
    longest: usize,
}

const ODD: Shares = Shares {
    refused: 20,
    ticks: 20,
    calls: 70,
    longest: usize::MAX,
};

const SHIFT: Shares = Shares {
    refused: 10,
    ticks: 40,
    calls: 97,
    longest: 80,
};

struct Maker {
    kernel: Kernel,
    random: Random,
    periods: Range<u64>,
    /// What is left of the calls that fill the kernel, where calls are refused from then on.
    filling: IntoIter<Call>,
    calls: u64,
    ticks: u64,
    refused: u64,
    alive: u64,
}

impl Maker {
    fn play(&mut self, line: &[u8]) {
        if let Some(call) = Call::spelt(line) {
            let answer = call.make(&mut self.kernel);
            self.calls += 1;
            self.ticks += u64::from(matches!(call, Call::Tick));
            self.refused += u64::from(answer.is_err());
            self.alive += self.alive();
        }
    }

    fn summary(&self, lines: u64) {
        let percent = |part: u64| 100.0 * part as f64 / self.calls.max(1) as f64;
        eprintln!(
            "{lines} lines, {} calls: {:.1} % ticks, {:.1} % refused, {:.1} tasks alive on average, {}",
            self.calls,
            percent(self.ticks),
            percent(self.refused),
            self.alive as f64 / self.calls.max(1) as f64,
            match self.kernel.stop {
                Stop::Going => "no stop",
                Stop::Overrun | Stop::Lifetime => "stopped",
            }
        );
    }

    fn mixed(&mut self, refused: u64, ticks: u64) -> Vec<u8> {
        let call = if self.random.chance(refused) {
            self.refused_call()
        } else if self.random.chance(ticks) {
            self.time_goes_on()
        } else {
            self.sensible()
        };
        text(call)
    }

    fn refused(&mut self) -> Vec<u8> {
        let call = self.filling.next();
        text(call.unwrap_or_else(|| self.refused_call()))
    }

    fn odd(&mut self, line: u64, lines: u64, shares: &Shares) -> Vec<u8> {
        // In the last lines a HARD task that runs goes on until it is late.
        let last = line > lines - lines / 50;
        if last && self.kernel.stop == Stop::Going && self.hard_runs() {
            return text(Call::Tick);
        }
        let call = self.mixed(shares.refused, shares.ticks);
        if self.random.chance(shares.calls) {
            return call;
        }
        let mut line = odd::line(&call, &mut self.random);
        line.truncate(shares.longest);
        if self.stops(&line) {
            return call;
        }
        line
    }

    /// Whether a line would stop the kernel.
    fn stops(&self, line: &[u8]) -> bool {
        let mut kernel = self.kernel.clone();
        Call::spelt(line).map(|call| call.make(&mut kernel));
        kernel.stop != self.kernel.stop
    }

    // What is called.

    /// A tick; but a HARD task at its deadline must do its round first.
    fn time_goes_on(&self) -> Call {
        let running = &self.kernel.tasks[self.kernel.running];
        if self.hard_runs() && running.deadline <= self.kernel.clock {
            return Call::Cycle;
        }
        Call::Tick
    }

    /// A call that is not refused, as a rule.
    fn sensible(&mut self) -> Call {
        match self.random.below(10) {
            0..=3 => self.of_itself(),
            4..=6 => match self.task(|_, status| status == Status::Sleep) {
                Some(task) => Call::Activate(task),
                None => self.of_itself(),
            },
            7 => self.signal(),
            8 => self.come_or_go(),
            _ => self.semaphores(),
        }
    }

    /// What the running task asks for itself.
    fn of_itself(&mut self) -> Call {
        if self.kernel.running == MAIN {
            return self.come_or_go();
        }
        match self.random.below(12) {
            0 => Call::End,
            1..=3 => Call::Sleep,
            _ if self.hard_runs() => Call::Cycle,
            _ => match self.semaphore(|_, _| true) {
                Some(semaphore) => Call::Wait(semaphore),
                None => Call::Sleep,
            },
        }
    }

    /// Some 18 tasks are kept alive.
    fn come_or_go(&mut self) -> Call {
        if self.alive() < 6 + self.random.below(14) {
            return self.create();
        }
        let mortal = |task, status| task > 0 && !matches!(status, Status::Free | Status::Zombie);
        match self.task(mortal) {
            Some(task) => Call::Kill(task),
            None => self.create(),
        }
    }

    fn create(&mut self) -> Call {
        if self.random.chance(50) {
            return Call::Nrt(self.random.below(6) * 40);
        }
        let period = self.periods.start + self.random.below(self.periods.end - self.periods.start);
        Call::Hard(
            period,
            1 + self.random.below(period / 16 + 1).min(period - 1),
        )
    }

    /// Semaphores with waiters are signalled most.
    fn signal(&mut self) -> Call {
        let waited = self.random.chance(80);
        match self.semaphore(|kernel, number| !waited || kernel.heads[WAITERS + number] >= 0) {
            Some(semaphore) => Call::Signal(semaphore),
            None => self.semaphores(),
        }
    }

    /// Some six semaphores are kept used.
    fn semaphores(&mut self) -> Call {
        let used = self
            .kernel
            .semaphores
            .iter()
            .filter(|semaphore| semaphore.used)
            .count();
        if (used as u64) < 3 + self.random.below(7) {
            return Call::NewSemaphore(self.random.below(3));
        }
        match self.semaphore(|kernel, number| kernel.heads[WAITERS + number] < 0) {
            Some(semaphore) => Call::Delete(semaphore),
            None => self.signal_any(),
        }
    }

    fn signal_any(&mut self) -> Call {
        Call::Signal(self.random.below(SEMAPHORES as u64))
    }

    /// A call that the kernel refuses now.
    fn refused_call(&mut self) -> Call {
        loop {
            let call = self.any();
            let answer = call.make(&mut self.kernel.clone());
            if answer.is_err() {
                return call;
            }
        }
    }

    /// Any call but a tick.
    fn any(&mut self) -> Call {
        let number = self.number();
        match self.random.below(11) {
            0 => Call::Hard(number, self.number()),
            1 => Call::Nrt(number),
            2 => Call::Activate(number),
            3 => Call::Sleep,
            4 => Call::Cycle,
            5 => Call::End,
            6 => Call::Kill(number),
            7 => Call::NewSemaphore(number),
            8 => Call::Delete(number),
            9 => Call::Wait(number),
            _ => Call::Signal(number),
        }
    }

    /// Numbers in range, at an edge, or that are in range where they are cut down to 8, 16 or 32 bits.
    fn number(&mut self) -> u64 {
        let small = self.random.below(34);
        match self.random.below(8) {
            0 => self
                .random
                .of(&[254, 255, 65_535, 65_536, 72_000, 72_001, 9_999_999_999]),
            1 => {
                self.random
                    .of(&[1 << 8, 1 << 16, 1 << 31, 1 << 32, 1 << 33])
                    + small
            }
            2 => self.random.below(10_000_000_000),
            _ => small,
        }
    }

    // Who is there.

    fn hard_runs(&self) -> bool {
        self.kernel.tasks[self.kernel.running].class.is_hard()
    }

    fn alive(&self) -> u64 {
        self.kernel
            .tasks
            .iter()
            .filter(|task| task.status != Status::Free)
            .count() as u64
    }

    /// A task that fits, if there is one.
    fn task(&mut self, fits: impl Fn(u64, Status) -> bool) -> Option<u64> {
        let start = self.random.below(TASKS as u64);
        (0..TASKS as u64)
            .map(|step| (start + step) % TASKS as u64)
            .find(|&task| fits(task, self.kernel.tasks[task as usize].status))
    }

    /// A used semaphore that fits, if there is one.
    fn semaphore(&mut self, fits: impl Fn(&Kernel, usize) -> bool) -> Option<u64> {
        let start = self.random.below(SEMAPHORES as u64);
        (0..SEMAPHORES as u64)
            .map(|step| (start + step) % SEMAPHORES as u64)
            .find(|&number| {
                let number = number as usize;
                self.kernel.semaphores[number].used && fits(&self.kernel, number)
            })
    }
}

fn text(call: Call) -> Vec<u8> {
    call.to_string().into_bytes()
}
