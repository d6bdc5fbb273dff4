//! What a soundness test would cost each call: its time on a full table with the longest queue.

use crate::kernel::{Kernel, TaskNo, LAST_PRIORITY, TASKS};
use crate::sound::sound;
use std::hint::black_box;
use std::time::Instant;

const TESTS: usize = 100_000;

pub fn run() {
    let kernel = full();
    let mut found = 0;
    let test = each(TESTS, || {
        found = (0..TESTS).filter(|_| sound(black_box(&kernel))).count();
    });
    println!(
        "verdict, {} queued: {test:.1} ns, {found} of {TESTS} sound",
        TASKS - 1
    );
}

/// All records in use: one runs, and 31 are ready.
fn full() -> Kernel {
    let mut kernel = Kernel::fresh();
    for number in 1..TASKS as u64 {
        kernel
            .create_nrt(u64::from(LAST_PRIORITY) - number)
            .expect("a record is free");
        kernel.activate(TaskNo(number)).expect("it sleeps");
    }
    kernel
}

/// Nanoseconds for each of so many, by the least of five times for all.
fn each(times: usize, mut all: impl FnMut()) -> f64 {
    let mut least = f64::INFINITY;
    for _ in 0..5 {
        let start = Instant::now();
        all();
        least = least.min(start.elapsed().as_nanos() as f64);
    }
    least / times as f64
}
