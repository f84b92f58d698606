//! The two areas of memory that a store lives in.

use crate::{calls, error::answer, Error};

/// How many bytes the disk needs for so many slots (of more than 64, as for 64).
pub fn disk_bytes(slots: u64) -> usize {
    // at most 264,992, so nothing is cut off
    calls::disk_bytes(slots) as usize
}

/// How many bytes the session needs.
pub fn session_bytes() -> usize {
    // 38,728
    calls::session_bytes() as usize
}

/// A disk and a session, owned or borrowed: what the store keeps, it keeps there and nowhere else.
///
/// The disk is what lasts: its bytes may be saved, and a session begun on them later. The session has what is open. Both may
/// have any length and any bytes in them: a call that can't use them is refused with [`Error::Unusable`]. While a store is
/// held over them, nobody else should write to them; what is promised of reads is promised for that.
pub trait Areas {
    /// The disk and the session.
    fn areas(&self) -> (&[u8], &[u8]);
    /// The disk and the session, to be written.
    fn areas_mut(&mut self) -> (&mut [u8], &mut [u8]);
}

/// Areas on the heap.
#[derive(Clone, PartialEq, Eq)]
pub struct Owned {
    /// What lasts.
    pub disk: Vec<u8>,
    /// What is open.
    pub session: Vec<u8>,
}

impl Owned {
    /// Zeros, as long as a disk of so many slots and a session need: to be formatted.
    pub fn zeros(slots: u64) -> Self {
        Self::with_disk(vec![0; disk_bytes(slots)])
    }

    /// A disk that was kept, with an empty session: to begin on.
    pub fn with_disk(disk: Vec<u8>) -> Self {
        Self { disk, session: vec![0; session_bytes()] }
    }
}

impl Areas for Owned {
    fn areas(&self) -> (&[u8], &[u8]) {
        (&self.disk, &self.session)
    }

    fn areas_mut(&mut self) -> (&mut [u8], &mut [u8]) {
        (&mut self.disk, &mut self.session)
    }
}

/// Areas that somebody lends: a static buffer, a mapped file, a part of a larger one.
pub struct Lent<'a> {
    /// What lasts.
    pub disk: &'a mut [u8],
    /// What is open.
    pub session: &'a mut [u8],
}

impl Areas for Lent<'_> {
    fn areas(&self) -> (&[u8], &[u8]) {
        (self.disk, self.session)
    }

    fn areas_mut(&mut self) -> (&mut [u8], &mut [u8]) {
        (self.disk, self.session)
    }
}

impl<A: Areas + ?Sized> Areas for &mut A {
    fn areas(&self) -> (&[u8], &[u8]) {
        (**self).areas()
    }

    fn areas_mut(&mut self) -> (&mut [u8], &mut [u8]) {
        (**self).areas_mut()
    }
}

/// Makes an empty disk of so many slots, 1 to 64, each for one file of a tape, and ends the session: to begin on.
///
/// # Errors
///
/// [`Error::BadSize`] for the number of slots, [`Error::Unusable`] for an area that is too small.
pub fn format<A: Areas + ?Sized>(areas: &mut A, slots: u64) -> Result<(), Error> {
    answer(calls::format(areas, slots)).map(drop)
}
