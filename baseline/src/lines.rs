//! An input that is read in blocks, cut into lines.

use std::io::{self, ErrorKind, Read};

const BLOCK: usize = 8192;

/// What is kept of a line that goes on in the next block. No call is as long, so a line of which this much is kept is odd, however it goes on.
const KEPT: usize = 65;

/// Hands on each line without its newline, byte 10. The last line may lack it; behind a last newline there is no line.
pub fn each(mut input: impl Read, mut line: impl FnMut(&[u8]) -> io::Result<()>) -> io::Result<()> {
    let mut buffer = [0; KEPT + BLOCK];
    let mut kept = 0;
    loop {
        let read = match input.read(&mut buffer[kept..kept + BLOCK]) {
            Ok(0) => break,
            Ok(read) => read,
            Err(error) if error.kind() == ErrorKind::Interrupted => continue,
            Err(error) => {
                // An input that cannot be read ends there.
                eprintln!("baseline: {error}");
                break;
            }
        };
        let end = kept + read;
        let mut start = 0;
        // What is kept has no newline.
        let mut at = kept;
        while at < end {
            if buffer[at] == b'\n' {
                line(&buffer[start..at])?;
                start = at + 1;
            }
            at += 1;
        }
        kept = (end - start).min(KEPT);
        buffer.copy_within(start..start + kept, 0);
    }
    if kept > 0 {
        line(&buffer[..kept])?;
    }
    Ok(())
}
