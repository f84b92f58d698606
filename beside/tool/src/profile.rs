//! What an episode is about.

use crate::{known::Sizes, random::Random};

const FILES: &[u64] = &[1, 2, 3, 4, 4, 5, 7, 8, 8, 16, 31, 64];
const CACHES: &[u64] = &[1, 1, 2, 3, 4, 4, 5, 6, 8, 9, 16, 40];
const ENTRIES: &[u64] = &[1, 1, 1, 2, 3, 4, 7, 8];
const WIDE: &[u64] = &[100, 255, 256, 1000, 1024, 4095, 4096];

pub struct Profile {
    /// How many tapes are opened before it gets rare.
    pub names: u64,
    pub files: &'static [u64],
    pub caches: &'static [u64],
    pub entries: &'static [u64],
    /// Tapes begin from here up.
    pub base: u64,
    /// The largest put of no special size.
    pub room: u64,
    /// Weights of moves.
    pub readers: u64,
    pub cuts: u64,
    pub drops: u64,
    pub restarts: u64,
    /// How often, in a hundred, a tape is opened with the sizes that it had.
    pub same: u64,
    pub longest: u64,
}

const PLAIN: Profile = Profile {
    names: 3,
    files: FILES,
    caches: CACHES,
    entries: ENTRIES,
    base: 0,
    room: 12,
    readers: 6,
    cuts: 12,
    drops: 3,
    restarts: 1,
    same: 90,
    longest: 240,
};

impl Profile {
    pub fn choose(random: &mut Random) -> Self {
        match random.between(0, 9) {
            // one tape, a small file, a small cache
            0 | 1 => Self { names: 1, entries: &[1], files: &[2, 3, 4, 5], caches: &[1, 3, 4, 6, 16], ..PLAIN },
            // more names than there may be
            2 => Self { names: 10, files: &[16, 64, 100], drops: 8, ..PLAIN },
            // many windows, cuts under them
            3 => Self { readers: 40, cuts: 30, names: 2, ..PLAIN },
            4 => Self { readers: 16, cuts: 40, drops: 6, names: 2, files: &[3, 4, 8], ..PLAIN },
            // at the end of the numbers
            5 => Self { base: u64::MAX - random.between(0, 300), names: 2, room: 40, ..PLAIN },
            // wide files, caches and entries
            6 => Self { files: WIDE, caches: WIDE, entries: &[1, 3, 100, 255, 256], room: 4200, ..PLAIN },
            // reopened again and again, often otherwise
            7 => Self { restarts: 12, same: 40, names: 2, files: &[1, 2, 3, 4, 6, 8], ..PLAIN },
            // dropped again and again
            8 => Self { drops: 16, names: 2, caches: &[1, 2, 4, 8], ..PLAIN },
            _ => Self { base: *random.pick(&[0, 5, 6, 100, 1 << 32, 1 << 63]), ..PLAIN },
        }
    }

    pub fn sizes(&self, random: &mut Random) -> Sizes {
        let (entry, file) = (*random.pick(self.entries), *random.pick(self.files));
        // an entry across many small files leaves no slots
        let file = if random.percent(75) { file.max(entry) } else { file };
        Sizes { entry, file, cache: *random.pick(self.caches) }
    }

    /// Mostly a multiple of the entry size.
    pub fn start(&self, random: &mut Random, entry: u64) -> u64 {
        let start = if random.percent(60) { self.base } else { self.base.saturating_add(random.between(0, 20)) };
        if random.percent(92) { start - start % entry } else { start }
    }
}
