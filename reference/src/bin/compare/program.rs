//! Runs a built program on an input.

use std::io::{self, Read, Write};
use std::path::Path;
use std::process::{Command, ExitStatus, Stdio};
use std::sync::mpsc;
use std::thread;
use std::time::{Duration, Instant};

/// How long a program may take.
const MOST_TIME: Duration = Duration::from_secs(60);

pub struct Ran {
    pub output: Vec<u8>,
    pub status: ExitStatus,
    pub time: Duration,
}

/// What the program prints, and its status. One that takes too long is ended.
pub fn run(program: &Path, input: &[u8]) -> io::Result<Ran> {
    let begin = Instant::now();
    let mut child = Command::new(program)
        .stdin(Stdio::piped())
        .stdout(Stdio::piped())
        .stderr(Stdio::null())
        .spawn()?;
    let (Some(mut child_input), Some(mut child_output)) = (child.stdin.take(), child.stdout.take())
    else {
        return Err(io::Error::other("the program has no pipes"));
    };
    thread::scope(|scope| {
        // A program need not read its input to the end, so an error here is none.
        scope.spawn(move || child_input.write_all(input).ok());
        let (sender, receiver) = mpsc::channel();
        scope.spawn(move || {
            let mut output = Vec::new();
            let read = child_output.read_to_end(&mut output).map(|_| output);
            sender.send(read).ok();
        });
        let output = match receiver.recv_timeout(MOST_TIME) {
            Ok(read) => read?,
            Err(_) => {
                child.kill()?;
                Vec::new()
            }
        };
        let status = child.wait()?;
        Ok(Ran {
            output,
            status,
            time: begin.elapsed(),
        })
    })
}
