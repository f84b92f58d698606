//! Why a call was refused.

use std::fmt;

use crate::calls::Reply;

/// What a call answers: its value, or why it was refused.
pub(crate) type Answer = Result<u64, Error>;

pub(crate) fn answer(Reply { code, value }: Reply) -> Answer {
    match Error::of(code, value) {
        None => Ok(value),
        Some(error) => Err(error),
    }
}

/// A refusal. A refused call changed no byte of the areas or of a buffer, and the transaction it was made in is still open.
#[derive(Clone, Copy, Debug, PartialEq, Eq, Hash)]
#[non_exhaustive]
pub enum Error {
    /// 1: an area is too small or breaks its layout rule, or holds no session.
    Unusable,
    /// 2: the tape is not open in this session, or, on areas that somebody else changed, the transaction is not.
    Unknown,
    /// 3: an append or a truncate is asked for while either is open.
    WriterOpen,
    /// 4: an append is asked for after a cut while windows are open that began before it.
    Wait {
        /// How many such windows are open.
        windows: u64,
    },
    /// 5: a 17th reader, or a 9th name.
    Full,
    /// 6: a name outside the rule.
    BadName,
    /// 7: the name is `metadata`.
    ReservedName,
    /// 8: a file, cache or entry size, or a slot count, outside its range.
    BadSize,
    /// 9: the tape is already open in this session.
    AlreadyOpen,
    /// 10: no multiple of the entry size, or a buffer shorter than its entries.
    NotWhole,
    /// 11: the tape is absent from this transaction's view.
    Absent,
    /// 12: a read out of bounds.
    OutOfBounds,
    /// 13: a new start past the length.
    StartPastLength,
    /// 14: a cut to a longer length.
    LongerCut,
    /// 15: no file slot is left.
    NoSlot,
    /// 16: a directory is missing, or a file is missing, untracked or too short.
    Missing,
    /// 17: the list of tapes in the metadata does not decode.
    BadList,
    /// 18: an epoch, a number or a length would pass 2^64-1.
    TooLarge,
    /// A number that this crate does not know: the archive is newer than the crate.
    Other {
        /// The number that the call gave.
        number: u64,
    },
}

impl Error {
    /// Of a code and its value; none where the call was served.
    fn of(code: u64, value: u64) -> Option<Self> {
        Some(match code {
            0 => return None,
            1 => Self::Unusable,
            2 => Self::Unknown,
            3 => Self::WriterOpen,
            4 => Self::Wait { windows: value },
            5 => Self::Full,
            6 => Self::BadName,
            7 => Self::ReservedName,
            8 => Self::BadSize,
            9 => Self::AlreadyOpen,
            10 => Self::NotWhole,
            11 => Self::Absent,
            12 => Self::OutOfBounds,
            13 => Self::StartPastLength,
            14 => Self::LongerCut,
            15 => Self::NoSlot,
            16 => Self::Missing,
            17 => Self::BadList,
            18 => Self::TooLarge,
            number => Self::Other { number },
        })
    }

    /// The refusal's number, as the C functions and the driver give it.
    pub fn number(self) -> u64 {
        match self {
            Self::Unusable => 1,
            Self::Unknown => 2,
            Self::WriterOpen => 3,
            Self::Wait { .. } => 4,
            Self::Full => 5,
            Self::BadName => 6,
            Self::ReservedName => 7,
            Self::BadSize => 8,
            Self::AlreadyOpen => 9,
            Self::NotWhole => 10,
            Self::Absent => 11,
            Self::OutOfBounds => 12,
            Self::StartPastLength => 13,
            Self::LongerCut => 14,
            Self::NoSlot => 15,
            Self::Missing => 16,
            Self::BadList => 17,
            Self::TooLarge => 18,
            Self::Other { number } => number,
        }
    }
}

/// What happened and, behind the colon, what to check first, by number from 1 on. Of 4 the count goes before it.
const SENTENCES: [&str; 18] = [
    "an area is too small or is not one of this store's: check the areas' lengths, and that the disk was formatted",
    "the tape, or the transaction, is not open in this session: check that the tape was opened since the session began, and \
     that the append which created it was not dropped",
    "an append or a truncate is open already: check that the one before was committed or dropped",
    "windows that began before the last cut are still open: drop those readers, and ask again",
    "all places are taken: check that at most 16 readers are open and 8 names in use",
    "the name is outside the rule: check that it has 1 to 24 bytes from a-z, 0-9, _ and -",
    "the name `metadata` is the store's own: choose another",
    "a size is outside its range: check that entries have 1 to 256 bytes, files and caches 1 to 4096, and that a disk has \
     1 to 64 slots",
    "the tape is already open in this session: use the value that its opening gave",
    "the bytes are no whole entries: check that a start, a length or appended bytes are a multiple of the entry size, and \
     that a buffer has room for every entry asked for",
    "this transaction does not see the tape: check whether the tape was committed before it began",
    "the read is out of bounds: check the tape's start and length in this transaction",
    "the new start is past the length: check the tape's length in this append",
    "a cut can't make a tape longer: check the tape's length in this truncate",
    "the disk has no file slot left: commit a shift of a start so that old files go, or format with more slots",
    "a file or a directory that is needed is not there or is too short: check that the tape was opened with the file size \
     it was written with",
    "the list of tapes on the disk can't be read: check where the disk's bytes come from",
    "a number would pass 2^64-1: check the start that the tape was given, and the epoch",
];

impl fmt::Display for Error {
    fn fmt(&self, f: &mut fmt::Formatter<'_>) -> fmt::Result {
        let sentence = self.number().checked_sub(1).and_then(|place| SENTENCES.get(place as usize));
        match (self, sentence) {
            (Self::Wait { windows: 1 }, _) => {
                f.write_str("1 window that began before the last cut is still open: drop that reader, and ask again")
            }
            (Self::Wait { windows }, Some(sentence)) => write!(f, "{windows} {sentence}"),
            (_, Some(sentence)) => f.write_str(sentence),
            (_, None) => write!(
                f,
                "the archive refused with {}, which this crate does not know: check that both are of one version",
                self.number()
            ),
        }
    }
}

impl std::error::Error for Error {}

/// A refusal of a call that takes a value, with that value: it is as it was before the call.
///
/// With `?` in a function that gives an [`Error`] the value is dropped; a transaction then closes itself. Where errors are boxed,
/// `map_err(Error::from)` goes before the `?`, since a transaction can't leave with it: it borrows the store.
pub struct Refused<T> {
    /// Why.
    pub error: Error,
    /// What the call had taken.
    pub back: T,
}

impl<T> From<Refused<T>> for Error {
    fn from(refused: Refused<T>) -> Self {
        refused.error
    }
}

impl<T> fmt::Debug for Refused<T> {
    fn fmt(&self, f: &mut fmt::Formatter<'_>) -> fmt::Result {
        f.debug_struct("Refused").field("error", &self.error).finish_non_exhaustive()
    }
}

impl<T> fmt::Display for Refused<T> {
    fn fmt(&self, f: &mut fmt::Formatter<'_>) -> fmt::Result {
        self.error.fmt(f)
    }
}

impl<T> std::error::Error for Refused<T> {}

#[cfg(test)]
mod tests {
    use super::*;
    use std::collections::BTreeSet;

    #[test]
    fn each_number_has_its_variant_and_its_sentence() {
        assert_eq!(Error::of(0, 7), None);
        let errors: Vec<Error> = (1..=19).filter_map(|code| Error::of(code, 3)).collect();
        assert_eq!(errors.iter().map(|error| error.number()).collect::<Vec<_>>(), (1..=19).collect::<Vec<_>>());
        assert_eq!(errors[3], Error::Wait { windows: 3 });
        assert_eq!(errors[18], Error::Other { number: 19 });
        let sentences: BTreeSet<String> = errors.iter().map(Error::to_string).collect();
        assert_eq!(sentences.len(), 19);
    }

    #[test]
    fn a_wait_says_for_how_many() {
        let three = Error::Wait { windows: 3 }.to_string();
        assert!(three.starts_with("3 windows that began before the last cut are still open"), "{three}");
        let one = Error::Wait { windows: 1 }.to_string();
        assert!(one.starts_with("1 window that began before the last cut is still open"), "{one}");
    }
}
