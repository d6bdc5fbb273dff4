//! A script's calls, packed first and then made with nothing around them.

use crate::calls::Call;
use crate::check::{folded, of_answer};
use crate::kernel::Kernel;
use crate::lines;
use crate::script::number;
use std::io::{self, Read};
use std::time::Instant;

/// Prints how many calls the script has, a check number of what each gave, and nanoseconds per call, the least of some runs.
pub fn run(input: impl Read, runs: usize) -> io::Result<()> {
    let mut calls = Vec::new();
    lines::each(input, |line| {
        calls.extend(Call::spelt(line));
        Ok(())
    })?;
    let mut check = 0;
    let mut least = f64::INFINITY;
    for _ in 0..runs {
        let start = Instant::now();
        check = all(&calls);
        least = least.min(start.elapsed().as_nanos() as f64);
    }
    let each = least / calls.len().max(1) as f64;
    println!(
        "{} calls, check {check}, {each:.1} ns per call",
        calls.len()
    );
    Ok(())
}

/// Makes the calls from a fresh kernel: the check number of answers and running tasks.
fn all(calls: &[Call]) -> u64 {
    let mut kernel = Kernel::fresh();
    let mut check = 0;
    for call in calls {
        let answer = number(call.make(&mut kernel));
        check = folded(folded(check, of_answer(answer)), kernel.running as u64);
    }
    check
}
