//! The black tape of document 02, Ask 2: the recorder of a script's calls, the reader of its blocks, their list, and the replay.

use crate::calls::Call;
use crate::kernel::{Answer, Kernel};
use crate::lines;
use crate::script::number;
use std::io::{self, Read, Write};

pub const BLOCK: usize = 512;
pub const MOST_RECORDS: usize = 31;

// Where a block has what. All numbers are big-endian.
const COUNT: usize = 4;
const FIRST_RECORD: usize = 6;
pub const RECORD: usize = 16;
pub const CHECK: usize = 510;

/// The remainder by this is a block's check.
pub const DIVISOR: u32 = 65_521;

/// A call, its answer, and the running task and the clock behind it.
pub struct Record {
    pub call: Call,
    pub answer: i32,
    pub running: u8,
    pub clock: u16,
}

pub struct Block {
    pub number: u32,
    pub records: Vec<Record>,
}

/// Why a block is refused, in the order of the tests.
pub enum Refused {
    Short,
    Check,
    Count,
    Verb,
    Spare,
}

/// Writes the tape of a script. Lines that are no calls are not on it.
pub fn record(input: impl Read, mut output: impl Write) -> io::Result<()> {
    let mut kernel = Kernel::fresh();
    let mut block = Block::empty(0);
    lines::each(input, |line| {
        let Some(call) = Call::spelt(line) else {
            return Ok(());
        };
        let answer = call.make(&mut kernel);
        block.records.push(Record::of(call, answer, &kernel));
        if block.records.len() == MOST_RECORDS {
            output.write_all(&block.written())?;
            block = Block::empty(block.number + 1);
        }
        Ok(())
    })?;
    if !block.records.is_empty() {
        output.write_all(&block.written())?;
    }
    output.flush()
}

/// Prints a line for each block of a tape.
pub fn list(mut input: impl Read, mut output: impl Write) -> io::Result<()> {
    for index in 0_u64.. {
        let bytes = next(&mut input)?;
        if bytes.is_empty() {
            break;
        }
        match Block::read(&bytes) {
            Ok(Block { number, records }) => {
                writeln!(output, "{index} block {number} records {}", records.len())?
            }
            Err(refused) => writeln!(output, "{index} refused {}", refused.name())?,
        }
    }
    output.flush()
}

/// Runs a tape on a fresh kernel, and prints the index of the first answer that differs, or `none`.
pub fn replay(input: impl Read, mut output: impl Write) -> io::Result<()> {
    match first_difference(input)? {
        Some(index) => writeln!(output, "{index}")?,
        None => writeln!(output, "none")?,
    }
    output.flush()
}

/// The tape ends at the first block that is refused or out of turn, whatever is behind it.
fn first_difference(mut input: impl Read) -> io::Result<Option<u64>> {
    let mut kernel = Kernel::fresh();
    let mut index = 0;
    for turn in 0.. {
        match Block::read(&next(&mut input)?) {
            Ok(Block { number, records }) if number == turn => {
                for record in records {
                    if number_of(record.call.make(&mut kernel)) != record.answer {
                        return Ok(Some(index));
                    }
                    index += 1;
                }
            }
            _ => break,
        }
    }
    Ok(None)
}

/// The next block; what is left of the tape where that is less, and nothing at its end.
fn next(input: &mut impl Read) -> io::Result<Vec<u8>> {
    let mut bytes = Vec::with_capacity(BLOCK);
    input.take(BLOCK as u64).read_to_end(&mut bytes)?;
    Ok(bytes)
}

/// The sum of (position + 1) x byte over all bytes before the check, remainder by 65,521. It is below 2^25.
pub fn check(block: &[u8]) -> u16 {
    let sum: u32 = (1..)
        .zip(&block[..CHECK])
        .map(|(factor, &byte)| factor * u32::from(byte))
        .sum();
    (sum % DIVISOR) as u16
}

/// The place of a record in its block.
pub const fn place(record: usize) -> usize {
    FIRST_RECORD + RECORD * record
}

fn number_of(answer: Answer) -> i32 {
    number(answer) as i32
}

impl Block {
    fn empty(number: u32) -> Block {
        Block {
            number,
            records: Vec::new(),
        }
    }

    pub fn written(&self) -> [u8; BLOCK] {
        let mut block = [0; BLOCK];
        block[..COUNT].copy_from_slice(&self.number.to_be_bytes());
        block[COUNT..FIRST_RECORD].copy_from_slice(&(self.records.len() as u16).to_be_bytes());
        for (number, record) in self.records.iter().enumerate() {
            block[place(number)..][..RECORD].copy_from_slice(&record.written());
        }
        let check = check(&block);
        block[CHECK..].copy_from_slice(&check.to_be_bytes());
        block
    }

    pub fn read(bytes: &[u8]) -> Result<Block, Refused> {
        if bytes.len() < BLOCK {
            return Err(Refused::Short);
        }
        if bytes[CHECK..] != check(bytes).to_be_bytes() {
            return Err(Refused::Check);
        }
        let count = usize::from(bytes[COUNT]) << 8 | usize::from(bytes[COUNT + 1]);
        if !(1..=MOST_RECORDS).contains(&count) {
            return Err(Refused::Count);
        }
        let records: Option<Vec<Record>> = (0..count)
            .map(|number| Record::read(&bytes[place(number)..][..RECORD]))
            .collect();
        let block = Block {
            number: word(bytes),
            records: records.ok_or(Refused::Verb)?,
        };
        // What was read has nothing of spare bytes, and is written with 0 there. So an accepted block written again is the same bytes.
        if block.written() != bytes {
            return Err(Refused::Spare);
        }
        Ok(block)
    }
}

impl Record {
    fn of(call: Call, answer: Answer, kernel: &Kernel) -> Record {
        Record {
            call,
            answer: number_of(answer),
            running: kernel.running as u8,
            clock: (kernel.clock % 65_536) as u16,
        }
    }

    fn written(&self) -> [u8; RECORD] {
        let (verb, first, second) = parts(self.call);
        let mut record = [0; RECORD];
        record[0] = verb;
        record[1..5].copy_from_slice(&argument(first).to_be_bytes());
        record[5..9].copy_from_slice(&argument(second).to_be_bytes());
        record[9..13].copy_from_slice(&self.answer.to_be_bytes());
        record[13] = self.running;
        record[14..].copy_from_slice(&self.clock.to_be_bytes());
        record
    }

    /// Nothing where there is no such verb.
    fn read(record: &[u8]) -> Option<Record> {
        Some(Record {
            call: call(
                record[0],
                word(&record[1..]).into(),
                word(&record[5..]).into(),
            )?,
            answer: word(&record[9..]) as i32,
            running: record[13],
            clock: u16::from(record[14]) << 8 | u16::from(record[15]),
        })
    }
}

impl Refused {
    fn name(self) -> &'static str {
        match self {
            Refused::Short => "short",
            Refused::Check => "check",
            Refused::Count => "count",
            Refused::Verb => "verb",
            Refused::Spare => "spare",
        }
    }
}

/// The first four bytes.
fn word(bytes: &[u8]) -> u32 {
    bytes[..4]
        .iter()
        .fold(0, |word, &byte| word << 8 | u32::from(byte))
}

/// A script number as it is recorded.
fn argument(number: u64) -> u32 {
    number.try_into().unwrap_or(u32::MAX)
}

/// A call's verb, in the order of document 01's list from 1, and its arguments, spare ones 0.
fn parts(call: Call) -> (u8, u64, u64) {
    match call {
        Call::Tick => (1, 0, 0),
        Call::Hard(period, cost) => (2, period, cost),
        Call::Nrt(priority) => (3, priority, 0),
        Call::Activate(task) => (4, task, 0),
        Call::Sleep => (5, 0, 0),
        Call::Cycle => (6, 0, 0),
        Call::End => (7, 0, 0),
        Call::Kill(task) => (8, task, 0),
        Call::NewSemaphore(count) => (9, count, 0),
        Call::Delete(semaphore) => (10, semaphore, 0),
        Call::Wait(semaphore) => (11, semaphore, 0),
        Call::Signal(semaphore) => (12, semaphore, 0),
    }
}

/// The call of a verb that there is, without what spare arguments hold.
fn call(verb: u8, first: u64, second: u64) -> Option<Call> {
    Some(match verb {
        1 => Call::Tick,
        2 => Call::Hard(first, second),
        3 => Call::Nrt(first),
        4 => Call::Activate(first),
        5 => Call::Sleep,
        6 => Call::Cycle,
        7 => Call::End,
        8 => Call::Kill(first),
        9 => Call::NewSemaphore(first),
        10 => Call::Delete(first),
        11 => Call::Wait(first),
        12 => Call::Signal(first),
        _ => return None,
    })
}
