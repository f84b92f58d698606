//! Metadata records that no call of the store writes: the hash is right, the list is any.

use beside::Random;
use oracle::{Record, encode_list};

/// Sorted, and more than a list may have.
const NAMES: [&str; 10] = ["-", "9", "_", "a", "aa", "b", "metadata", "room-1", "votes", "z_"];

/// Mostly with a list that keeps the rules, of tapes that have no files.
pub fn record(random: &mut Random, epoch: u64) -> Vec<u8> {
    let mut tapes: Vec<(&str, u64, u64)> = Vec::new();
    for name in NAMES {
        if random.percent(40) {
            let len = *random.pick(&[0, 1, 5, 40, 5000, u64::MAX - 1, u64::MAX]);
            tapes.push((name, len, random.between(len.saturating_sub(30), len)));
        }
    }
    if random.percent(15) {
        tapes.reverse();
    }
    if let Some(tape) = tapes.last_mut() {
        match random.between(0, 19) {
            0 => tape.0 = "A",
            1 => tape.0 = "",
            2 => tape.2 = tape.1.wrapping_add(1),
            _ => (),
        }
    }
    let mut list = encode_list(&tapes);
    match random.between(0, 19) {
        0 => list.push(0),
        1 => drop(list.pop()),
        _ => (),
    }
    Record { epoch, list }.written()
}
