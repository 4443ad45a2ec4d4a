//! A run program as a process of its own: standard input in, standard output back.

use crate::calls::RunProgram;
use std::io::Write;
use std::process::{Command, Output, Stdio};
use std::thread;

/// The program at this path.
pub struct Program {
    path: String,
}

impl Program {
    /// Fails, with one line that says why, unless a program there can be run.
    pub fn at(path: &str) -> Result<Program, String> {
        let program = Program { path: path.into() };
        let output = program.output(b"")?;
        match output.status.success() {
            true => Ok(program),
            false => Err(format!("{path}, on no input: {}", output.status)),
        }
    }

    /// The program may stop reading before the input's end.
    fn output(&self, input: &[u8]) -> Result<Output, String> {
        let mut child = Command::new(&self.path)
            .stdin(Stdio::piped())
            .stdout(Stdio::piped())
            .spawn()
            .map_err(|error| format!("cannot run {}: {error}", self.path))?;
        let mut pipe = child.stdin.take().expect("a piped input");
        let input = input.to_vec();
        let writer = thread::spawn(move || pipe.write_all(&input).ok());
        let output = child.wait_with_output().expect("a piped output");
        writer.join().expect("the input's writer");
        Ok(output)
    }
}

impl RunProgram for Program {
    /// What the program writes, and behind it how it ended unless it ended well.
    fn run(&self, input: &[u8]) -> Vec<u8> {
        match self.output(input) {
            Ok(output) if output.status.success() => output.stdout,
            Ok(output) => [output.stdout, output.status.to_string().into_bytes()].concat(),
            Err(message) => message.into_bytes(),
        }
    }
}
