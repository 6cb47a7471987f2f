//! A program run as a person runs it: bytes on standard input, whole or in pieces, and what it
//! writes.

use std::ffi::{OsStr, OsString};
use std::io::{ErrorKind, Write};
use std::process::{ChildStdin, Command, Output, Stdio};
use std::time::Duration;

/// How an input reaches the program: whole, or in pieces with a pause between.
pub const WHOLE: usize = usize::MAX;
const PAUSE: Duration = Duration::from_millis(3);

/// One input of a program: a name, the bytes, and the size of the pieces they come in.
#[derive(Clone)]
pub struct Fed {
    pub name: &'static str,
    pub bytes: Vec<u8>,
    pub piece: usize,
}

pub fn fed(name: &'static str, bytes: Vec<u8>) -> Fed {
    Fed {
        name,
        bytes,
        piece: WHOLE,
    }
}

/// The program that an environment variable names.
pub fn program(variable: &str) -> Option<OsString> {
    let program = std::env::var_os(variable);
    if program.is_none() {
        println!("{} does not say where the program is", variable);
    }
    program
}

/// A program that has read enough may close its input before all is written.
fn feed(mut stdin: ChildStdin, input: &Fed) -> std::io::Result<()> {
    for piece in input
        .bytes
        .chunks(input.piece.min(input.bytes.len().max(1)))
    {
        match stdin.write_all(piece) {
            Err(error) if error.kind() == ErrorKind::BrokenPipe => return Ok(()),
            other => other?,
        }
        if input.piece != WHOLE {
            std::thread::sleep(PAUSE);
        }
    }
    Ok(())
}

/// What the program writes. It has to start, and no signal may end it.
pub fn run(program: &OsStr, input: &Fed) -> Result<Output, String> {
    run_with(program, &[], input)
}

/// The same with words behind the program's name.
pub fn run_with(program: &OsStr, words: &[&str], input: &Fed) -> Result<Output, String> {
    let cannot = |error: std::io::Error| format!("cannot run {:?}: {}", program, error);
    let mut child = Command::new(program)
        .args(words)
        .stdin(Stdio::piped())
        .stdout(Stdio::piped())
        .stderr(Stdio::piped())
        .spawn()
        .map_err(cannot)?;
    feed(child.stdin.take().unwrap(), input).map_err(cannot)?;
    let output = child.wait_with_output().map_err(cannot)?;
    match output.status.code() {
        Some(_) => Ok(output),
        None => Err(format!("{:?} ended by {}", program, output.status)),
    }
}
