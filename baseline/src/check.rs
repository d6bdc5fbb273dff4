//! Check numbers, by which two programs are seen to have come to the same without printing it all.

/// The greatest prime below 2^32: what is folded stays far below 2^64, whatever the numbers of 32 bits.
const PRIME: u64 = 4_294_967_291;

/// Answers go down to -14: with this they are numbers from 0 on.
const ABOVE: i64 = 100;

/// One number more.
pub fn folded(check: u64, number: u64) -> u64 {
    (check * 31 + number) % PRIME
}

/// The number that is folded for an answer.
pub fn of_answer(answer: i64) -> u64 {
    (answer + ABOVE) as u64
}
