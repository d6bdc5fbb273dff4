//! Plays a file of cases and prints what the test programs print: a line a call, with its answer, the running task and the clock.
//! A line of the file is a call, spelt as it is printed, or one of these: `-- TITLE`, `fresh`, `memory of BYTE`, `clock is N`, `N times CALL`
//! (the last is printed), `quietly CALL` (none is), and `memory`, `memory by channel` and `state`, which print what is there.

use crate::calls::Call;
use crate::kernel::{
    Answer, ChannelNo, Kernel, Memory, Stop, TaskNo, IDLE, MEMORY_SIZE, READY, ZOMBIE,
};
use std::io::{self, Read, Write};

/// What `screen` is lent beside the memory.
const STANDBY: [u8; 2] = [42, 43];

/// How many tasks `state` prints.
const PRINTED_TASKS: usize = 5;

pub fn run(mut input: impl Read, output: impl Write) -> io::Result<()> {
    let mut text = String::new();
    input.read_to_string(&mut text)?;
    let mut player = Player {
        kernel: Kernel::fresh(),
        memory: [0; MEMORY_SIZE],
        output,
    };
    for line in text.lines() {
        player.line(line)?.ok_or_else(|| {
            io::Error::new(io::ErrorKind::InvalidData, format!("no such line: {line}"))
        })?;
    }
    player.output.flush()
}

struct Player<W> {
    kernel: Kernel,
    memory: Memory,
    output: W,
}

/// Nothing where a line is none of those above.
type Played = io::Result<Option<()>>;

/// What a call gave: its answer, and the part that it shows, if it is one that shows.
struct Given {
    answer: Answer,
    shown: Option<Vec<u8>>,
}

impl<W: Write> Player<W> {
    fn line(&mut self, line: &str) -> Played {
        if line.starts_with("-- ") {
            writeln!(self.output, "{line}")?;
        } else if line == "fresh" {
            self.kernel = Kernel::fresh();
            self.memory = [0; MEMORY_SIZE];
        } else if let Some(byte) = line.strip_prefix("memory of ") {
            let Ok(byte) = byte.parse() else {
                return Ok(None);
            };
            self.memory = [byte; MEMORY_SIZE];
        } else if let Some(clock) = line.strip_prefix("clock is ") {
            let Ok(clock) = clock.parse() else {
                return Ok(None);
            };
            self.kernel.clock = clock;
        } else if line == "memory" {
            writeln!(self.output, "memory:{}", bytes(&self.memory))?;
        } else if line == "memory by channel" {
            for channel in self.memory.chunks(MEMORY_SIZE / 4) {
                writeln!(self.output, "memory:{}", bytes(channel))?;
            }
        } else if line == "state" {
            self.state()?;
        } else if let Some(call) = line.strip_prefix("quietly ") {
            return Ok(self.call(call).map(|_| ()));
        } else if let Some((Ok(times), call)) = line
            .split_once(" times ")
            .map(|(n, call)| (n.parse::<u64>(), call))
        {
            for _ in 1..times {
                self.call(call);
            }
            return self.printed(call);
        } else {
            return self.printed(line);
        }
        Ok(Some(()))
    }

    fn printed(&mut self, line: &str) -> Played {
        let Some(given) = self.call(line) else {
            return Ok(None);
        };
        let answer = match given.answer {
            Ok(number) => number.to_string(),
            Err(refusal) => format!("refused {}", refusal as i64),
        };
        match given.shown {
            Some(shown) => writeln!(self.output, "{line}: {answer}, shows{}", bytes(&shown))?,
            None => writeln!(
                self.output,
                "{line}: {answer}, task {}, clock {}",
                self.kernel.running, self.kernel.clock
            )?,
        }
        Ok(Some(()))
    }

    /// Makes the call that a line spells.
    fn call(&mut self, line: &str) -> Option<Given> {
        if let Some(call) = Call::spelt(line.as_bytes()) {
            return Some(Given::plain(call.make(&mut self.kernel)));
        }
        let words: Vec<&str> = line.split(' ').collect();
        self.question(&words)
            .or_else(|| self.on_channel(&words))
            .map(Given::plain)
            .or_else(|| self.shown(&words))
    }

    fn question(&self, words: &[&str]) -> Option<Answer> {
        let kernel = &self.kernel;
        let task = |word: &str| word.parse().ok().map(TaskNo);
        Some(match words {
            ["clock"] => kernel.clock(),
            ["status", n] => kernel.status(task(n)?),
            ["deadline", n] => kernel.deadline(task(n)?),
            ["period", n] => kernel.period(task(n)?),
            ["slack", n] => kernel.slack(task(n)?),
            _ => return None,
        })
    }

    fn on_channel(&mut self, words: &[&str]) -> Option<Answer> {
        let kernel = &mut self.kernel;
        let memory = &mut self.memory;
        Some(match words {
            ["open", size, buffers] => {
                kernel.open_channel(size.parse().ok()?, buffers.parse().ok()?)
            }
            ["begin", "write", c] => kernel.begin_write(channel(c)?, memory),
            ["piece", c, "at", offset, "of", text @ ..] => {
                kernel.piece(channel(c)?, offset.parse().ok()?, &spelt(text)?, memory)
            }
            ["put", c] => kernel.put(channel(c)?),
            ["begin", "reading", c] => kernel.begin_reading(channel(c)?),
            ["close", c] => kernel.close(channel(c)?),
            _ => return None,
        })
    }

    fn shown(&self, words: &[&str]) -> Option<Given> {
        let (shown, answer) = match words {
            ["showing", c] => self.kernel.showing(channel(c)?, &self.memory),
            ["screen", c] => self.kernel.screen(channel(c)?, &self.memory, &STANDBY),
            _ => return None,
        };
        Some(Given {
            answer,
            shown: Some(shown.to_vec()),
        })
    }

    /// What the kernel holds, the first tasks included.
    fn state(&mut self) -> io::Result<()> {
        let kernel = &self.kernel;
        let output = &mut self.output;
        let stop = match kernel.stop {
            Stop::Going => 0,
            Stop::Overrun => -1,
            Stop::Lifetime => -2,
        };
        writeln!(
            output,
            "clock {}, stop {stop}, running {}, share {}",
            kernel.clock, kernel.running, kernel.total
        )?;
        writeln!(
            output,
            "first ready {}, idle {}, zombie {}",
            kernel.heads[READY], kernel.heads[IDLE], kernel.heads[ZOMBIE]
        )?;
        for (number, task) in kernel.tasks[..PRINTED_TASKS].iter().enumerate() {
            writeln!(
                output,
                "task {number}: status {}, deadline {}, next {}, previous {}",
                task.status.number(),
                task.deadline,
                task.next,
                task.previous
            )?;
        }
        Ok(())
    }
}

impl Given {
    fn plain(answer: Answer) -> Given {
        Given {
            answer,
            shown: None,
        }
    }
}

fn channel(word: &str) -> Option<ChannelNo> {
    word.parse().ok().map(ChannelNo)
}

/// Bytes as their numbers, n times x in a row as x*n, each with a space before it.
fn bytes(text: &[u8]) -> String {
    if text.is_empty() {
        return " nothing".to_string();
    }
    text.chunk_by(|a, b| a == b)
        .map(|run| match run.len() {
            1 => format!(" {}", run[0]),
            n => format!(" {}*{n}", run[0]),
        })
        .collect()
}

/// The bytes that are spelt so.
fn spelt(words: &[&str]) -> Option<Vec<u8>> {
    let mut text = Vec::new();
    if words != ["nothing"] {
        for word in words {
            let (byte, times) = word.split_once('*').unwrap_or((word, "1"));
            let end = text.len() + times.parse::<usize>().ok()?;
            text.resize(end, byte.parse().ok()?);
        }
    }
    Some(text)
}
