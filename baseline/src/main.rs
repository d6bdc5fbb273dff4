//! The rules of document 01 in plain Rust, without state checks: the script program, and what it takes to hold another kernel against it.

mod alone;
mod calls;
mod cases;
mod check;
mod cost;
mod damage;
mod flips;
mod full;
mod interleaved;
mod kernel;
mod lines;
mod make;
mod odd;
mod packed;
mod random;
mod script;
mod sound;
mod states;
mod tape;
mod verdict;
mod words;

use make::Kind;
use std::fs::File;
use std::io::{self, BufWriter};
use std::os::fd::AsFd;
use std::process::ExitCode;

const USAGE: &str = "usage: baseline                          the script program, on standard input
       baseline packed RUNS              a script's calls alone, timed
       baseline verdict                  the soundness test, timed
       baseline make KIND LINES SEED     a script: mixed, ticks, refused, odd or shift
       baseline cost PROGRAM ..          runs a program, and says its CPU time in nanoseconds on standard error
       baseline cases                    a file of cases on standard input, as the test programs print it
       baseline interleaved              what test_interleaved prints
       baseline words                    states as their words, in binary
       baseline flips                    such states on standard input: which are sound, how many one bit away, and what the calls give on those
       baseline record                   a script on standard input: its tape, in binary
       baseline tape                     a tape on standard input: a line for each block
       baseline replay                   a tape on standard input: the index of the first answer that differs, or none
       baseline damaged KIND             a tape on standard input, damaged: changed, turn, bytes, mended or random SEED";

fn main() -> ExitCode {
    let arguments: Vec<String> = std::env::args().skip(1).collect();
    let words: Vec<&str> = arguments.iter().map(String::as_str).collect();
    match mode(&words) {
        Some(Ok(())) => ExitCode::SUCCESS,
        Some(Err(error)) => {
            eprintln!("baseline: {error}");
            ExitCode::FAILURE
        }
        None => {
            eprintln!("{USAGE}");
            ExitCode::from(2)
        }
    }
}

/// Nothing where the words name no mode.
fn mode(words: &[&str]) -> Option<io::Result<()>> {
    let input = io::stdin().lock();
    Some(match words {
        [] => output().and_then(|output| script::run(input, output)),
        ["packed", runs] => packed::run(input, runs.parse().ok()?),
        ["verdict"] => {
            verdict::run();
            Ok(())
        }
        ["make", kind, lines, seed] => {
            let kind = Kind::named(kind)?;
            let (lines, seed) = (lines.parse().ok()?, seed.parse().ok()?);
            output().and_then(|output| make::run(kind, lines, seed, BufWriter::new(output)))
        }
        ["cost", program, arguments @ ..] => cost::run(program, arguments),
        ["cases"] => output().and_then(|output| cases::run(input, BufWriter::new(output))),
        ["interleaved"] => output().and_then(|output| interleaved::run(BufWriter::new(output))),
        ["words"] => output().and_then(|output| states::run(BufWriter::new(output))),
        ["flips"] => output().and_then(|output| flips::run(input, BufWriter::new(output))),
        ["record"] => output().and_then(|output| tape::record(input, BufWriter::new(output))),
        ["tape"] => output().and_then(|output| tape::list(input, BufWriter::new(output))),
        ["replay"] => output().and_then(|output| tape::replay(input, output)),
        ["damaged", kind @ ..] => {
            let kind = damage::Kind::named(kind)?;
            output().and_then(|output| damage::run(kind, input, BufWriter::new(output)))
        }
        _ => return None,
    })
}

/// Standard output without the line buffer that the standard library puts before it.
fn output() -> io::Result<File> {
    Ok(File::from(io::stdout().as_fd().try_clone_to_owned()?))
}
