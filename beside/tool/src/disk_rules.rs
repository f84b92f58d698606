//! What document 01 says of the disk after every line, tried on the Rust: what a lent area of 8 slots relies on.

use oracle::{Oracle, Reply};

use crate::generator::Script;

const MOST_FILES: usize = 8;
const MOST_DIRECTORIES: usize = 8;
const LONGEST_FILE: usize = 4096;
const LONGEST_RECORD: usize = 404;

/// Runs the script anew; the first line after which something is wrong.
pub fn broken(script: &Script) -> Option<String> {
    let mut oracle = Oracle::new();
    let mut before = oracle.disk();
    for (index, (line, reply)) in script.lines.iter().zip(&script.replies).enumerate() {
        if oracle.answer(line) != *reply {
            return Some(format!("line {}: two runs differ", index + 1));
        }
        let after = oracle.disk();
        if before != after && !may_change(line, reply) {
            return Some(format!("line {}: the disk changed", index + 1));
        }
        if let Some(limit) = past_a_limit(&after) {
            return Some(format!("line {}: {limit}", index + 1));
        }
        before = after;
    }
    None
}

/// Refused and unreadable lines change nothing, nor do those that only begin, read, drop, or stage no bytes. Opening a store makes
/// left and right, which are empty either way.
fn may_change(line: &[u8], reply: &Reply) -> bool {
    let word = line.split(|byte| *byte == b'\t').next().unwrap_or_default();
    matches!(reply, Reply::Answered { code: 0, .. }) && matches!(word, b"format" | b"open" | b"put" | b"commit")
}

fn past_a_limit(disk: &str) -> Option<&'static str> {
    let (mut files, mut directories) = (0, 0);
    for line in disk.lines() {
        let fields: Vec<&str> = line.split('\t').collect();
        let bytes = fields.last().map_or(0, |hex| hex.len() / 2);
        match fields[0] {
            "left" | "right" if bytes > LONGEST_RECORD => return Some("a record is too long"),
            "file" if bytes > LONGEST_FILE => return Some("a file is too long"),
            "file" => files += 1,
            "directory" => directories += 1,
            _ => (),
        }
    }
    match (files > MOST_FILES, directories > MOST_DIRECTORIES) {
        (true, _) => Some("too many files"),
        (_, true) => Some("too many directories"),
        _ => None,
    }
}
