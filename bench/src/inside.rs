//! Functions of the archive that it does not offer: `bench/run` links a copy in which their names are global.
//!
//! What they take was seen in the machine code, where a slice is a pointer to a pointer and a length. Their answers are held
//! against known ones before they are measured.

#[repr(C)]
struct Slice {
    at: *const u8,
    len: usize,
}

unsafe extern "C" {
    #[link_name = "layout::disk_area::is_sound_disk"]
    fn is_sound_disk(disk: *const Slice) -> bool;
    #[link_name = "layout::session_area::is_begun_session"]
    fn is_begun_session(session: *const Slice) -> bool;
    #[link_name = "metadata::record::record_hash"]
    fn record_hash(hash: *mut [u8; 32], epoch: u64, list: *const Slice);
}

fn lent(bytes: &[u8]) -> Slice {
    Slice { at: bytes.as_ptr(), len: bytes.len() }
}

pub fn sound_disk(disk: &[u8]) -> bool {
    // SAFETY: the slice is read for the call alone
    unsafe { is_sound_disk(&lent(disk)) }
}

pub fn begun_session(session: &[u8]) -> bool {
    // SAFETY: the slice is read for the call alone
    unsafe { is_begun_session(&lent(session)) }
}

/// What is hashed is 18 bytes longer than the list.
pub fn hash(epoch: u64, list: &[u8]) -> [u8; 32] {
    let mut hash = [0; 32];
    // SAFETY: the slice is read and the hash written for the call alone
    unsafe { record_hash(&mut hash, epoch, &lent(list)) };
    hash
}
