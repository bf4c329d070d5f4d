//! A program that answers questions over pipes, in bytes.

use std::io::{Error, Result, Write};
use std::process::{Command, Stdio};

/// How many bytes of questions it takes at once.
pub const TAKEN: usize = 65536;

/// A number counted from the grid's lower end, lowest byte first.
pub fn count(v: i16) -> [u8; 2] {
    ((v as i32 + 32768) as u16).to_le_bytes()
}

/// What the program answers. It reads all questions before it answers one, so writing first cannot block.
pub fn ask(program: &str, questions: &[u8]) -> Result<Vec<u8>> {
    let mut child = Command::new(program).stdin(Stdio::piped()).stdout(Stdio::piped()).spawn()?;
    let written = child.stdin.take().expect("a pipe to the program").write_all(questions);
    let output = child.wait_with_output()?;
    if !output.status.success() {
        return Err(Error::other(format!("it ended with {}", output.status)));
    }
    written.map(|()| output.stdout)
}
