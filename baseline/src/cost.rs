//! The CPU time of another program, user and system together, which a shell cannot tell finely enough.

use std::fs;
use std::io::{Error, Result};
use std::process::Command;
use std::thread::sleep;
use std::time::Duration;

/// Runs a program with this one's standard input and output. Standard error says its nanoseconds.
pub fn run(program: &str, arguments: &[&str]) -> Result<()> {
    let mut child = Command::new(program).args(arguments).spawn()?;
    let pid = child.id();
    // Once it has ended, and before it is waited for, the system still tells its time.
    while !fs::read_to_string(format!("/proc/{pid}/stat"))?.contains(") Z ") {
        sleep(Duration::from_millis(1));
    }
    let told = fs::read_to_string(format!("/proc/{pid}/schedstat"))?;
    let status = child.wait()?;
    if !status.success() {
        return Err(Error::other(format!("{program}: {status}")));
    }
    eprintln!("{}", told.split(' ').next().unwrap_or(""));
    Ok(())
}
