//! Calls that fill a fresh kernel: every record and every semaphore is in use, tasks of every status are there, and the shares are all of the processor.

use crate::calls::Call;

pub fn calls() -> Vec<Call> {
    let mut calls = vec![Call::NewSemaphore(0); 31];
    calls.push(Call::NewSemaphore(65_535));
    // Tasks with odd numbers are HARD, sixteen of them; the others are NRT.
    calls.extend((1..32).map(|task| match task % 2 {
        1 => Call::Hard(72_000, 4_500),
        _ => Call::Nrt(3 * task),
    }));
    // Each of these has an earlier deadline than the one before, and runs. Every other one waits.
    for task in (8..32).rev().filter(|task| task % 2 == 0) {
        calls.push(Call::Activate(task));
        if task % 4 == 0 {
            calls.push(Call::Wait(task / 8));
        }
    }
    // IDLE and ZOMBIE in turn.
    for task in (13..32).step_by(2) {
        calls.push(Call::Activate(task));
        calls.push(if task % 4 == 3 {
            Call::Cycle
        } else {
            Call::End
        });
    }
    // One runs, and two are ready.
    calls.extend([11, 9, 7].map(Call::Activate));
    calls
}
