//! Refusal numbers, and which of them an error of the Rust stands for.

use std::io;

/// A refusal number with its value: 0, but for 4, which returns a count.
#[derive(Clone, Copy, Debug, PartialEq, Eq)]
pub struct Refusal {
    pub code: u8,
    pub value: u64,
}

pub const NO_SESSION: Refusal = Refusal::plain(1);
pub const NO_TRANSACTION_OR_HANDLE: Refusal = Refusal::plain(2);
pub const WRITER_OPEN: Refusal = Refusal::plain(3);
pub const TOO_MANY: Refusal = Refusal::plain(5);
pub const BAD_NAME: Refusal = Refusal::plain(6);
pub const OUT_OF_RANGE: Refusal = Refusal::plain(8);
pub const OPEN_ALREADY: Refusal = Refusal::plain(9);
pub const NO_MULTIPLE: Refusal = Refusal::plain(10);
pub const NO_TAPE: Refusal = Refusal::plain(11);
pub const READ_OUT_OF_BOUNDS: Refusal = Refusal::plain(12);
pub const START_PAST_LENGTH: Refusal = Refusal::plain(13);
pub const LONGER_LENGTH: Refusal = Refusal::plain(14);
pub const NO_SLOT: Refusal = Refusal::plain(15);
pub const BAD_LIST: Refusal = Refusal::plain(17);
pub const PAST_THE_END: Refusal = Refusal::plain(18);

impl Refusal {
    pub const fn plain(code: u8) -> Self {
        Self { code, value: 0 }
    }

    /// An append must wait for this many readers.
    pub const fn wait_for(readers: u64) -> Self {
        Self { code: 4, value: readers }
    }
}

/// The number of an error that the Rust gave. Its errors differ in their text alone; one that no number stands for is a fault of this
/// bench (or of the machine) and ends the run.
pub fn of_rust(error: &io::Error) -> Refusal {
    let code = match error.to_string().as_str() {
        "The tape name `metadata` is reserved." => 7,
        "file_size must not be 0." => 8,
        "Tape not found" | "Tape does not exist" => 11,
        "Read out of bounds" => 12,
        "Start index cannot be set past the length of the tape" => 13,
        "Cannot truncate a tape to a longer length" => 14,
        "tape was in metadata but files was not found." | "Tape file not found" | "failed to fill whole buffer" => 16,
        other => panic!("the Rust failed: {other}"),
    };
    Refusal::plain(code)
}
