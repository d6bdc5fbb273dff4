//! The script program: lines in, and for each one line out.

use crate::calls::Call;
use crate::kernel::{Answer, Kernel};
use crate::lines;
use std::io::{self, BufWriter, Read, Write};

const BLOCK: usize = 8192;

pub fn run(input: impl Read, output: impl Write) -> io::Result<()> {
    let mut output = BufWriter::with_capacity(BLOCK, output);
    let mut kernel = Kernel::fresh();
    output.write_all(b"dick 1\n")?;
    lines::each(input, |line| match Call::spelt(line) {
        Some(call) => {
            let answer = call.make(&mut kernel);
            let mut printed = Printed::new();
            output.write_all(printed.line(answer, &kernel))
        }
        None => output.write_all(b"?\n"),
    })?;
    output.flush()
}

/// The number that is printed for an answer.
pub fn number(answer: Answer) -> i64 {
    answer.unwrap_or_else(|refusal| refusal as i64)
}

/// A printed line. It is put together from its end, since a decimal is.
struct Printed {
    bytes: [u8; Printed::LONGEST],
    start: usize,
}

impl Printed {
    /// Three numbers of at most 20 digits and signs, two spaces and a newline.
    const LONGEST: usize = 64;

    fn new() -> Printed {
        Printed {
            bytes: [0; Printed::LONGEST],
            start: Printed::LONGEST,
        }
    }

    fn byte(&mut self, byte: u8) {
        self.start -= 1;
        self.bytes[self.start] = byte;
    }

    fn decimal(&mut self, mut n: u64) {
        loop {
            self.byte(b'0' + (n % 10) as u8);
            n /= 10;
            if n == 0 {
                break;
            }
        }
    }

    /// Answer, running task, clock.
    fn line(&mut self, answer: Answer, kernel: &Kernel) -> &[u8] {
        let answer = number(answer);
        self.byte(b'\n');
        self.decimal(u64::from(kernel.clock));
        self.byte(b' ');
        self.decimal(kernel.running as u64);
        self.byte(b' ');
        self.decimal(answer.unsigned_abs());
        if answer < 0 {
            self.byte(b'-');
        }
        &self.bytes[self.start..]
    }
}
