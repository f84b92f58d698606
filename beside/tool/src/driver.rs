//! Another driver, run as a program of its own.

use std::{
    fs::{self, File},
    io,
    process::{Command, Stdio},
    thread,
    time::{Duration, Instant},
};

use oracle::Scratch;

/// A script has at most 400 lines (the cases fewer), which takes an emulated driver a second or two.
const PATIENCE: Duration = Duration::from_secs(20);

pub struct Driver {
    command: String,
    /// Input and output go through files, so that neither side waits for the other.
    place: Scratch,
}

impl Driver {
    pub fn new(command: &str) -> Self {
        Self { command: command.to_string(), place: Scratch::new() }
    }

    /// What it prints for a script; how it ended, if not well, is put at the end.
    pub fn answers(&self, script: &[u8]) -> io::Result<Vec<u8>> {
        let (input, output) = (self.place.path().join("in"), self.place.path().join("out"));
        fs::write(&input, script)?;
        let mut child = Command::new("sh")
            .arg("-c")
            .arg(&self.command)
            .stdin(Stdio::from(File::open(&input)?))
            .stdout(Stdio::from(File::create(&output)?))
            .spawn()?;

        let begun = Instant::now();
        let ended = loop {
            if let Some(status) = child.try_wait()? {
                break (!status.success()).then(|| format!("the driver ended with {status}\n"));
            }
            if begun.elapsed() > PATIENCE {
                child.kill()?;
                child.wait()?;
                break Some("the driver did not end\n".to_string());
            }
            thread::sleep(Duration::from_millis(1));
        };

        let mut answers = fs::read(&output)?;
        answers.extend(ended.unwrap_or_default().bytes());
        Ok(answers)
    }
}
