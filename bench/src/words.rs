//! What is left of the layout rules without their tests: each word that they look at (docs/LAYOUT.md has the offsets) is read once. A
//! bound for code that reads the tables word by word; wider loads, or a rule that looks at less, could be below it.

use tapes::Owned;

use crate::inside;

/// The words that both rules look at, where the slot count is a multiple of eight and one tape is open, in the first place; joined so that
/// none is left unread. Four joins go on side by side, so that a read seldom waits for the one before.
#[inline(never)]
pub fn joined(disk: &[u8], session: &[u8]) -> u64 {
    assert!(disk.len() >= 2848 && session.len() >= 38_728);
    let slots = word(disk, 8).min(64) as usize;
    let mut joins = [0, 8, 16, 24].map(|at| word(disk, at));
    joins[1] |= word(session, 0);
    for name in 0..8 {
        joins[0] |= word(disk, 32 + 32 * name);
        joins[1] |= word(session, 48 + 32 * name);
        joins[2] |= word(session, 4168 + 96 * name);
    }
    for kind in 0..17 {
        joins[3] |= word(session, 3760 + 24 * kind);
    }
    for field in [8, 16, 24, 32, 40, 88] {
        joins[3] |= word(session, 4168 + field);
    }
    for slot in (0..slots).step_by(8) {
        for row in 0..8 {
            let at = 1312 + 24 * (slot + row);
            joins[row % 4] |= word(disk, at) | word(disk, at + 16);
        }
    }
    joins[0] | joins[1] | joins[2] | joins[3]
}

/// A word of ones is refused just where a rule looks at it, and `joined` must read it there and nowhere else; but the open tape's handle
/// may be any number.
pub fn check(store: &mut Owned) {
    for at in (0..2848).step_by(8) {
        let kept = spoil(&mut store.disk, at);
        assert_eq!(
            inside::sound_disk(&store.disk),
            joined(&store.disk, &store.session) != u64::MAX,
            "the disk's word at {at}"
        );
        store.disk[at..at + 8].copy_from_slice(&kept);
    }
    for at in (0..38_728).step_by(8).filter(|at| *at != 4168) {
        let kept = spoil(&mut store.session, at);
        assert_eq!(
            inside::begun_session(&store.session),
            joined(&store.disk, &store.session) != u64::MAX,
            "the session's word at {at}"
        );
        store.session[at..at + 8].copy_from_slice(&kept);
    }
}

fn spoil(area: &mut [u8], at: usize) -> [u8; 8] {
    let word = &mut area[at..at + 8];
    let kept = (&*word).try_into().expect("eight bytes");
    word.fill(u8::MAX);
    kept
}

fn word(area: &[u8], at: usize) -> u64 {
    debug_assert!(at + 8 <= area.len());
    // SAFETY: only `joined` calls this, for places that end by 2,848 in the disk, 64 rows at most, and by 4,848 in the session; it asserts
    // that both areas are as long
    unsafe { area.as_ptr().add(at).cast::<u64>().read_unaligned() }
}
