//! How often each answer comes in generated scripts.

use std::{collections::BTreeMap, time::Instant};

use oracle::{Reply, Unreadable};

use crate::generator::Script;

const CALLS: [&str; 12] =
    ["format", "store", "append", "reader", "truncate", "open", "put", "shift", "cut", "read", "commit", "drop"];

/// 17 needs damaged metadata, which no script of the driver makes.
const REACHABLE: [u8; 18] = [0, 1, 2, 3, 4, 5, 6, 7, 8, 9, 10, 11, 12, 13, 14, 15, 16, 18];

const KINDS: [Unreadable; 7] = [
    Unreadable::LongLine,
    Unreadable::CallWord,
    Unreadable::FieldCount,
    Unreadable::NoNumber,
    Unreadable::LargeNumber,
    Unreadable::Hex,
    Unreadable::LargeRead,
];

#[derive(Default)]
struct Counts {
    answers: BTreeMap<(u8, String), u64>,
    unreadable: BTreeMap<Unreadable, u64>,
    lines: u64,
}

impl Counts {
    fn take(&mut self, script: &Script) {
        for (line, reply) in script.lines.iter().zip(&script.replies) {
            self.lines += 1;
            match reply {
                Reply::Unreadable(kind) => *self.unreadable.entry(*kind).or_default() += 1,
                Reply::Answered { code, .. } => {
                    let word = line.split(|byte| *byte == b'\t').next().unwrap_or_default();
                    let word = String::from_utf8_lossy(word).into_owned();
                    *self.answers.entry((*code, word)).or_default() += 1;
                }
            }
        }
    }

    fn of(&self, code: u8, call: &str) -> u64 {
        self.answers.get(&(code, call.to_string())).copied().unwrap_or(0)
    }
}

/// Prints the table; true if everything that can be reached was.
pub fn print(count: u64, seed: u64) -> bool {
    let begun = Instant::now();
    let mut counts = Counts::default();
    (seed..seed + count).for_each(|seed| counts.take(&Script::generate(seed, 400)));
    let seconds = begun.elapsed().as_secs_f64();
    println!("{count} scripts, {} lines, {:.0} lines a second", counts.lines, counts.lines as f64 / seconds);

    println!("code {}", CALLS.map(|call| format!("{call:>9}")).concat());
    let mut missing = Vec::new();
    for code in REACHABLE {
        let row = CALLS.map(|call| counts.of(code, call));
        println!("{code:>4} {}", row.map(|number| format!("{number:>9}")).concat());
        if row.iter().all(|number| *number == 0) {
            missing.push(code.to_string());
        }
    }
    for kind in KINDS {
        let number = counts.unreadable.get(&kind).copied().unwrap_or(0);
        println!("unreadable, {kind:?}: {number}");
        if number == 0 {
            missing.push(format!("{kind:?}"));
        }
    }
    println!("17 can't be reached: it needs metadata that our own calls did not write");
    println!(
        "{}",
        if missing.is_empty() { "all reached".into() } else { format!("not reached: {}", missing.join(", ")) }
    );
    missing.is_empty()
}
