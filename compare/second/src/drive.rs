//! Has another program answer the file cases: one process for each file.

use crate::cases::{self, Case};
use std::io::{self, Read, Write};
use std::process::{Command, Stdio};

/// The answer line for a file case, or nothing for a case of another kind.
pub fn answer(program: &[String], case: &Case) -> io::Result<Option<String>> {
    let Case::File { bytes } = case else { return Ok(None) };
    let mut child =
        Command::new(&program[0]).args(&program[1..]).stdin(Stdio::piped()).stdout(Stdio::piped()).spawn()?;
    // A program that does not read to the end is judged by what it writes, so an error here is none.
    let mut input = child.stdin.take().unwrap();
    let _ = input.write_all(bytes);
    drop(input);
    let mut output = Vec::new();
    child.stdout.take().unwrap().read_to_end(&mut output)?;
    let status = child.wait()?;
    let mut line = cases::output_line(&output);
    if status.code().is_none() {
        line += &format!(" {status}");
    }
    Ok(Some(line))
}
