//! Tapes that are damaged on purpose, each from a tape that is not: what the reader, the list and the replay are tried on.

use crate::calls::Call;
use crate::random::Random;
use crate::tape::{check, place, Block, Record, BLOCK, CHECK, DIVISOR, MOST_RECORDS, RECORD};
use std::io::{self, Read, Write};

#[derive(Clone, Copy)]
pub enum Kind {
    /// One answer is another, in the middle of the tape.
    Changed,
    /// Two blocks are exchanged, and behind them one answer is another.
    Turn,
    /// The first block with each of its bytes changed in turn, and then as it was.
    Bytes,
    /// The same for all bytes before the check, which is mended; then blocks at the edges of each test, and a part of a block.
    Mended,
    /// Some damage of any sort, by a seed.
    Random(u64),
}

impl Kind {
    pub fn named(words: &[&str]) -> Option<Kind> {
        match words {
            ["changed"] => Some(Kind::Changed),
            ["turn"] => Some(Kind::Turn),
            ["bytes"] => Some(Kind::Bytes),
            ["mended"] => Some(Kind::Mended),
            ["random", seed] => seed.parse().ok().map(Kind::Random),
            _ => None,
        }
    }
}

/// A block, or a part of one.
type Bytes = Vec<u8>;

pub fn run(kind: Kind, mut input: impl Read, mut output: impl Write) -> io::Result<()> {
    let mut tape = Vec::new();
    input.read_to_end(&mut tape)?;
    let mut blocks: Vec<Bytes> = tape.chunks(BLOCK).map(Bytes::from).collect();
    match kind {
        Kind::Random(seed) => some_damage(&mut blocks, &mut Random(seed)),
        _ if blocks.len() < 4 || Block::read(&blocks[0]).is_err() => {
            return Err(io::Error::other(
                "the tape is too short for this, or no tape",
            ));
        }
        Kind::Changed => answer_changed(&mut blocks),
        Kind::Turn => {
            answer_changed(&mut blocks);
            let early = blocks.len() / 4;
            blocks.swap(early, early + 1);
        }
        Kind::Bytes => {
            let first = blocks.swap_remove(0);
            blocks = (0..BLOCK).map(|at| changed(&first, at)).collect();
            blocks.push(first);
        }
        Kind::Mended => {
            let first = blocks.swap_remove(0);
            blocks = (0..CHECK).map(|at| mended(changed(&first, at))).collect();
            blocks.extend(edges());
            blocks.push(first[..BLOCK - 1].to_vec());
        }
    }
    for block in blocks {
        output.write_all(&block)?;
    }
    output.flush()
}

/// The block with the check that it must have.
fn mended(mut block: Bytes) -> Bytes {
    let check = check(&block);
    block[CHECK..].copy_from_slice(&check.to_be_bytes());
    block
}

/// One byte is another; by how much, goes with its place.
fn changed(block: &[u8], at: usize) -> Bytes {
    with(block, &[(at, block[at].wrapping_add(1 + (at % 255) as u8))])
}

/// Some bytes are these.
fn with(block: &[u8], bytes: &[(usize, u8)]) -> Bytes {
    let mut block = block.to_vec();
    for &(at, byte) in bytes {
        block[at] = byte;
    }
    block
}

/// The place of an answer's highest byte in a record.
const ANSWER: usize = 9;

/// In the middle of the middle block, with its check mended. It is the highest byte of an answer, so its lowest alone does not tell.
fn answer_changed(blocks: &mut [Bytes]) {
    let middle = blocks.len() / 2;
    blocks[middle] = mended(changed(&blocks[middle], place(MOST_RECORDS / 2) + ANSWER));
}

/// The place of the count's lower byte.
const COUNT: usize = 5;

/// Blocks at the edges of each test, their checks mended but where the check is what is tried.
fn edges() -> Vec<Bytes> {
    // A tick has no argument, and as many zeros as any call.
    let full = ticks(MOST_RECORDS);
    let one = ticks(1);
    let (first, last, end) = (place(0), place(MOST_RECORDS - 1), place(MOST_RECORDS));
    let mut blocks = Vec::new();
    let mut tried = |block: &[u8], bytes: &[(usize, u8)]| blocks.push(mended(with(block, bytes)));

    // Counts. With 30 the last record is where nothing may be.
    for count in [0, 1, 30, 31, 32, 255] {
        tried(&full, &[(COUNT, count)]);
    }
    tried(&full, &[(COUNT - 1, 1)]);
    tried(&one, &[(COUNT, 0)]);
    tried(&one, &[]);
    tried(&[0; BLOCK], &[]);

    // Verbs, in the first and in the last record.
    for record in [first, last] {
        for verb in [0, 12, 13, 255] {
            tried(&full, &[(record, verb)]);
        }
    }

    // Arguments, the highest and the lowest byte of each, with every verb: where they are spare, and where not.
    for verb in 0..=13 {
        for byte in [1, 4, 5, 8] {
            tried(&full, &[(last, verb), (last + byte, 1)]);
        }
    }

    // Unused bytes: the first one and the last.
    for unused in [end, CHECK - 1] {
        tried(&full, &[(unused, 1)]);
    }
    for unused in [place(1), end - 1, CHECK - 1] {
        tried(&one, &[(unused, 1)]);
    }

    // Two faults: the one that is tested first is told, wherever it stands.
    tried(&full, &[(first + 1, 1), (last, 13)]);
    tried(&full, &[(first, 13), (last + 1, 1)]);
    tried(&full, &[(first + 1, 1), (first, 0)]);
    tried(&full, &[(last, 0), (CHECK - 1, 1)]);
    tried(&full, &[(COUNT, 32), (first, 13), (CHECK - 1, 1)]);
    // Where no record is counted, what would be its verb is an unused byte.
    tried(&one, &[(place(1), 13)]);

    // The last block number that there is.
    tried(&full, &[(0, 255), (1, 255), (2, 255), (3, 255)]);

    // All faults but a short block, and a check that is not mended.
    blocks.push(with(&full, &[(COUNT, 32), (first, 13), (CHECK - 1, 1)]));
    // A check is a remainder: what is more by the divisor leaves the same, and is none.
    let small = (0..=u16::MAX)
        .map(|clock| clock.to_be_bytes())
        .map(|[high, low]| mended(with(&full, &[(last + 14, high), (last + 15, low)])))
        .find(|block| check(block) < 15)
        .expect("one of so many clocks leaves little");
    let too_much = check(&small) + DIVISOR as u16;
    blocks.push(small.clone());
    blocks.push([&small[..CHECK], &too_much.to_be_bytes()].concat());
    blocks
}

/// A block of so many ticks on a fresh kernel.
fn ticks(count: usize) -> Bytes {
    let records = (1..=count as u16).map(|clock| Record {
        call: Call::Tick,
        answer: 0,
        running: 0,
        clock,
    });
    let block = Block {
        number: 0,
        records: records.collect(),
    };
    block.written().to_vec()
}

/// One to four kinds of damage, one after the other.
fn some_damage(blocks: &mut Vec<Bytes>, random: &mut Random) {
    for _ in 0..=random.below(4) {
        if blocks.is_empty() {
            return;
        }
        let at = random.below(blocks.len() as u64) as usize;
        let other = random.below(blocks.len() as u64) as usize;
        match random.below(9) {
            0 => blocks.swap(at, other),
            1 => blocks.insert(other, blocks[at].clone()),
            2 => drop(blocks.remove(at)),
            // What is behind a part of a block is read at other places.
            3 => blocks[at].truncate(random.below(BLOCK as u64) as usize),
            4 => {
                blocks[at].truncate(random.below(BLOCK as u64) as usize);
                blocks.truncate(at + 1);
            }
            5 => blocks[at] = (0..BLOCK).map(|_| random.below(256) as u8).collect(),
            _ => damaged(&mut blocks[at], random),
        }
    }
}

/// Some bytes of a block are others; where it is whole, its check is mended as a rule.
fn damaged(block: &mut Bytes, random: &mut Random) {
    if block.len() < BLOCK {
        return;
    }
    for _ in 0..=random.below(3) {
        let record = place(random.below(MOST_RECORDS as u64) as usize);
        let at = match random.below(5) {
            // A verb, an answer, or anything in a record.
            0 => record,
            1 => record + ANSWER + random.below(4) as usize,
            2 => record + random.below(RECORD as u64) as usize,
            // The number and the count.
            3 => random.below(place(0) as u64) as usize,
            _ => random.below(BLOCK as u64) as usize,
        };
        // Small numbers are verbs and counts.
        block[at] = match random.below(2) {
            0 => random.below(34) as u8,
            _ => random.below(256) as u8,
        };
    }
    if random.chance(80) {
        *block = mended(std::mem::take(block));
    }
}
