//! States as words on standard input: each is judged, and with it all states that differ in one bit of one word. Of those the sound ones are called.

use crate::calls::Call;
use crate::check::{folded, of_answer};
use crate::kernel::Kernel;
use crate::script::number;
use crate::sound::sound;
use crate::words::{seen, shown, Words, WORDS};
use std::io::{self, Read, Write};

/// Each word is four bytes, highest first.
const WORD_BYTES: usize = 4;

/// How many states are one bit away from one.
const NEIGHBOURS: usize = WORDS * u32::BITS as usize;

/// What is made on each sound neighbour, each on a copy of its own.
const CALLS: [Call; 12] = [
    Call::Tick,
    Call::Hard(4, 1),
    Call::Nrt(3),
    Call::Activate(3),
    Call::Sleep,
    Call::Cycle,
    Call::End,
    Call::Kill(2),
    Call::NewSemaphore(5),
    Call::Delete(1),
    Call::Wait(0),
    Call::Signal(0),
];

pub fn run(mut input: impl Read, mut output: impl Write) -> io::Result<()> {
    let mut bytes = Vec::new();
    input.read_to_end(&mut bytes)?;
    let states = bytes.chunks_exact(WORD_BYTES * WORDS);
    if !states.remainder().is_empty() {
        return Err(io::Error::other("the input ends within a state"));
    }
    for (number, state) in states.enumerate() {
        let mut words = read(state);
        let verdict = match judged(&words) {
            Some(_) => "sound",
            None => "not sound",
        };
        let Found { sound, check } = one_bit_away(&mut words);
        let refused = NEIGHBOURS - sound;
        writeln!(
            output,
            "state {number}: {verdict}, one bit away {sound} sound, {refused} answered -11, the others {check}"
        )?;
    }
    output.flush()
}

fn read(state: &[u8]) -> Words {
    let mut words = [0; WORDS];
    let (read, _) = state.as_chunks::<WORD_BYTES>();
    for (word, &bytes) in words.iter_mut().zip(read) {
        *word = u32::from_be_bytes(bytes);
    }
    words
}

/// The kernel that is seen in words, if they are sound; they may be any.
fn judged(words: &Words) -> Option<Kernel> {
    seen(words).filter(sound)
}

/// Of the states one bit away, how many are sound, and a check number of what the calls give on them.
struct Found {
    sound: usize,
    check: u64,
}

/// Each bit is put back.
fn one_bit_away(words: &mut Words) -> Found {
    let mut found = Found { sound: 0, check: 0 };
    for place in 0..WORDS {
        for bit in 0..u32::BITS {
            words[place] ^= 1 << bit;
            if let Some(kernel) = judged(words) {
                found.sound += 1;
                found.check = called(&kernel, found.check);
            }
            words[place] ^= 1 << bit;
        }
    }
    found
}

/// The calls, each from this kernel: the answer, and all words of the state behind it.
fn called(kernel: &Kernel, check: u64) -> u64 {
    CALLS.iter().fold(check, |check, call| {
        let mut kernel = kernel.clone();
        let answer = number(call.make(&mut kernel));
        shown(&kernel)
            .iter()
            .fold(folded(check, of_answer(answer)), |check, &word| {
                folded(check, u64::from(word))
            })
    })
}
