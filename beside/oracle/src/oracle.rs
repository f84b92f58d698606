//! Lines in, replies out.

use std::fmt;

use crate::{
    disk::{Disk, hex},
    line::{Call, Unreadable},
    refusal::{self, Refusal},
    session::Session,
};

/// What is printed after the line's number.
#[derive(Clone, Debug, PartialEq, Eq)]
pub enum Reply {
    Unreadable(Unreadable),
    Answered { code: u8, value: u64, bytes: Vec<u8> },
}

impl fmt::Display for Reply {
    fn fmt(&self, f: &mut fmt::Formatter<'_>) -> fmt::Result {
        match self {
            Self::Unreadable(_) => write!(f, "-\t-\t-"),
            Self::Answered { code, value, bytes } => write!(f, "{code}\t{value}\t{}", hex(bytes)),
        }
    }
}

impl From<Result<(u64, Vec<u8>), Refusal>> for Reply {
    fn from(result: Result<(u64, Vec<u8>), Refusal>) -> Self {
        match result {
            Ok((value, bytes)) => Self::Answered { code: 0, value, bytes },
            Err(Refusal { code, value }) => Self::Answered { code, value, bytes: Vec::new() },
        }
    }
}

/// One run of the driver.
pub struct Oracle {
    // before the disk, so that its files are closed when the directory goes
    session: Option<Session>,
    disk: Disk,
    formatted: bool,
}

impl Default for Oracle {
    fn default() -> Self {
        Self::new()
    }
}

impl Oracle {
    pub fn new() -> Self {
        Self { session: None, disk: Disk::new(), formatted: false }
    }

    /// The reply to a line without its end.
    pub fn answer(&mut self, line: &[u8]) -> Reply {
        let session = self.session.as_ref();
        match Call::parse(line, |handle| session?.entry_size(handle)) {
            Err(kind) => Reply::Unreadable(kind),
            Ok(call) => self.call(call).into(),
        }
    }

    /// The disk as text.
    pub fn disk(&self) -> String {
        self.disk.dump()
    }

    fn call(&mut self, call: Call) -> Result<(u64, Vec<u8>), Refusal> {
        match call {
            Call::Format => {
                self.session = None;
                self.disk.format();
                self.formatted = true;
                Ok((0, Vec::new()))
            }
            Call::Store => self.store().map(|epoch| (epoch, Vec::new())),
            other => self.session.as_mut().ok_or(refusal::NO_SESSION)?.call(&self.disk, other),
        }
    }

    /// The old session goes on if the list is refused.
    fn store(&mut self) -> Result<u64, Refusal> {
        if !self.formatted {
            return Err(refusal::NO_SESSION);
        }
        Session::check(&self.disk)?;
        // the Rust's transactions end before the store is opened again
        self.session = None;
        let session = Session::begin(&self.disk);
        let epoch = session.epoch();
        self.session = Some(session);
        Ok(epoch)
    }
}

/// All that the driver prints for a script.
pub fn answers(script: &[u8]) -> String {
    let mut oracle = Oracle::new();
    lines(script).enumerate().map(|(index, line)| format!("{}\t{}\n", index + 1, oracle.answer(line))).collect()
}

/// A last line without its end counts; nothing after the last end is no line.
fn lines(script: &[u8]) -> impl Iterator<Item = &[u8]> {
    script.split_inclusive(|byte| *byte == b'\n').map(|line| line.strip_suffix(b"\n").unwrap_or(line))
}
