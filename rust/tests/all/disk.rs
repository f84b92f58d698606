//! What stands on a disk, read from outside as docs/LAYOUT.md has it. Nothing here trusts it: what lies behind its end is 0.
//! `beside/linked` looks at disks with this file too.

pub const SLOT_COUNT: usize = 8;
const LEFT_LEN: usize = 16;
const RIGHT_LEN: usize = 24;
pub const DIRECTORIES: usize = 32;
const LEFT: usize = 288;
const RIGHT: usize = 800;
pub const FILE_TABLE: usize = 1312;
pub const SLOTS: usize = 2848;

pub const MOST_NAMES: usize = 8;
pub const LONGEST_NAME: u64 = 24;
/// Of a place in a table of names.
pub const PLACE_BYTES: usize = 32;
pub const MOST_SLOTS: u64 = 64;
const FILE_ROW: usize = 24;
pub const SLOT_BYTES: usize = 4096;

pub fn word(area: &[u8], at: usize) -> u64 {
    let bytes = area.get(at..at + 8).and_then(|bytes| bytes.try_into().ok());
    bytes.map_or(0, u64::from_le_bytes)
}

fn bytes(area: &[u8], at: usize, length: u64) -> &[u8] {
    let from = area.get(at..).unwrap_or_default();
    from.get(..length as usize).unwrap_or_default()
}

/// In a table of names, of either area; a free place has an empty one.
pub fn name(area: &[u8], table: usize, place: usize) -> &[u8] {
    let at = table + place * PLACE_BYTES;
    bytes(area, at + 8, word(area, at).min(LONGEST_NAME))
}

pub fn left(disk: &[u8]) -> &[u8] {
    bytes(disk, LEFT, word(disk, LEFT_LEN))
}

pub fn right(disk: &[u8]) -> &[u8] {
    bytes(disk, RIGHT, word(disk, RIGHT_LEN))
}

/// Makes these bytes left or right, where the disk has room.
pub fn put_metadata(disk: &mut [u8], left: bool, bytes: &[u8]) {
    let (len_at, at) = if left { (LEFT_LEN, LEFT) } else { (RIGHT_LEN, RIGHT) };
    if let Some(room) = disk.get_mut(at..at + bytes.len()) {
        room.copy_from_slice(bytes);
        disk[len_at..len_at + 8].copy_from_slice(&(bytes.len() as u64).to_le_bytes());
    }
}

/// The names of the directories, each with the number that owns its files, sorted.
pub fn directories(disk: &[u8]) -> Vec<(&[u8], u64)> {
    let places = (0..MOST_NAMES).map(|place| (name(disk, DIRECTORIES, place), place as u64 + 1));
    let mut found: Vec<_> = places.filter(|(name, _)| !name.is_empty()).collect();
    found.sort_unstable();
    found
}

/// The files of an owner, by number.
pub fn files(disk: &[u8], owner: u64) -> Vec<(u64, &[u8])> {
    let row = |slot: usize| FILE_TABLE + slot * FILE_ROW;
    let slots = word(disk, SLOT_COUNT).min(MOST_SLOTS) as usize;
    let owned = (0..slots).filter(|slot| word(disk, row(*slot)) == owner);
    let file = |slot| (word(disk, row(slot) + 8), bytes(disk, SLOTS + slot * SLOT_BYTES, word(disk, row(slot) + 16)));
    let mut found: Vec<_> = owned.map(file).collect();
    found.sort_unstable();
    found
}

/// Lower case, `-` for no bytes.
pub fn hex(bytes: &[u8]) -> String {
    const DIGITS: &[u8; 16] = b"0123456789abcdef";
    if bytes.is_empty() {
        return "-".into();
    }
    let digit = |half: u8| char::from(DIGITS[usize::from(half)]);
    bytes.iter().flat_map(|byte| [digit(byte >> 4), digit(byte & 15)]).collect()
}

/// The disk as the recorded cases and `oracle --disk` have it: left, right, each directory with its files.
pub fn text(disk: &[u8]) -> String {
    let mut text = format!("left\t{}\nright\t{}\n", hex(left(disk)), hex(right(disk)));
    for (name, owner) in directories(disk) {
        let name = String::from_utf8_lossy(name);
        text += &format!("directory\t{name}\n");
        for (number, bytes) in files(disk, owner) {
            text += &format!("file\t{name}\t{number}\t{}\n", hex(bytes));
        }
    }
    text
}
