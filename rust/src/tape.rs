//! A tape: what it is opened with, and what its opening gives.

/// What a tape is opened with. The default is a tape of single bytes in files of 4,096, with a cache of 4,096, from 0 on:
///
/// ```
/// # use tapes::Shape;
/// let offsets = Shape { entry_size: 8, ..Shape::default() };
/// # assert_eq!((offsets.file_size, offsets.cache, offsets.start), (4096, 4096, 0));
/// ```
#[derive(Clone, Copy, Debug, PartialEq, Eq, Hash)]
pub struct Shape {
    /// How many bytes an entry has: 1 to 256. Indexes, lengths and counts on the tape are in entries.
    pub entry_size: u64,
    /// How many bytes a file has: 1 to 4,096. A tape must be opened with the file size it was written with: with another one
    /// reads may be refused or give other bytes.
    pub file_size: u64,
    /// How many of the last bytes are kept at hand: 1 to 4,096. It may be another one at each opening.
    pub cache: u64,
    /// Where a new tape begins, in bytes. A tape that the store knows has its own.
    pub start: u64,
}

impl Default for Shape {
    fn default() -> Self {
        Self { entry_size: 1, file_size: 4096, cache: 4096, start: 0 }
    }
}

/// An open tape, as a value: it works in every transaction of its session that sees the tape. It borrows nothing; in another
/// session it is refused with [`Error::Unknown`](crate::Error::Unknown).
#[derive(Clone, Copy, Debug, PartialEq, Eq, Hash)]
pub struct Tape {
    pub(crate) number: u64,
    pub(crate) entry_size: u64,
    /// The mark of the session that it was opened in. Numbers begin at 1 in each, so that a number alone could mean another
    /// session's tape.
    pub(crate) session: u64,
}

impl Tape {
    /// The handle's number, as the C functions and the driver have it.
    pub fn number(self) -> u64 {
        self.number
    }

    /// How many bytes an entry has.
    pub fn entry_size(self) -> u64 {
        self.entry_size
    }
}
