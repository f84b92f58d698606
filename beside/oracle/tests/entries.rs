//! The oracle's arithmetic for entries beside the library's own `FixedSizedTape`: the same calls with entries of 3 bytes through both.

mod common;

use common::{Tape, options};
use oracle::{Oracle, Reply, Scratch};
use tapes::*;

type Entry = [u8; 3];

/// The line's code, value and bytes.
fn ask(oracle: &mut Oracle, line: String) -> (u8, u64, Vec<u8>) {
    match oracle.answer(line.replace('>', "\t").as_bytes()) {
        Reply::Answered { code, value, bytes } => (code, value, bytes),
        unreadable => panic!("{unreadable:?}"),
    }
}

struct Both {
    oracle: Oracle,
    store: Tapes,
    tape: FixedSizedTape<Entry, Tape>,
    _place: Scratch,
    random: u32,
}

impl Both {
    fn new() -> Self {
        let mut oracle = Oracle::new();
        for line in ["format", "store", "append", "open>1>a>3>64>7>6", "commit>1"] {
            assert_eq!(ask(&mut oracle, line.to_string()).0, 0);
        }
        let place = Scratch::new();
        let store = Tapes::open(place.path()).unwrap();
        let mut append = store.append();
        let tape = append.open_fixed_sized_tape("a", options(place.path(), 64, 7, 6)).unwrap();
        append.commit(Persistence::Buffer).unwrap();
        Self { oracle, store, tape, _place: place, random: 7 }
    }

    fn below(&mut self, limit: u64) -> u64 {
        self.random = self.random.wrapping_mul(1_664_525).wrapping_add(1_013_904_223);
        u64::from(self.random >> 8) % limit
    }

    fn append(&mut self) {
        let number = ask(&mut self.oracle, "append".into()).1;
        let mut append = self.store.append();
        for _ in 0..self.below(4) {
            let entries = vec![[self.below(256) as u8, 1, 2]; self.below(5) as usize];
            let hex: String = entries.iter().flatten().map(|byte| format!("{byte:02x}")).collect();
            let index = append.append_entries(&self.tape, &entries).unwrap();
            assert_eq!(ask(&mut self.oracle, format!("put>{number}>1>{hex}")), (0, index, vec![]));
        }
        let length = append.fixed_sized_tape_len(&self.tape).unwrap();
        // far enough behind the length to keep a few entries, near enough to free slots
        let start = length.saturating_sub(self.below(40));
        append.shift_start_idx_fixed(&self.tape, start).unwrap();
        assert_eq!(ask(&mut self.oracle, format!("shift>{number}>1>{start}")).0, 0);
        append.commit(Persistence::Buffer).unwrap();
        assert_eq!(ask(&mut self.oracle, format!("commit>{number}")).0, 0);
    }

    fn cut(&mut self) {
        let number = ask(&mut self.oracle, "truncate".into()).1;
        let mut truncate = self.store.truncate();
        let length = (truncate.fixed_sized_tape_len(&self.tape).unwrap() + 1).saturating_sub(self.below(6));
        let cut = truncate.truncate_fixed_sized_tape(&self.tape, length);
        let code = ask(&mut self.oracle, format!("cut>{number}>1>{length}")).0;
        assert_eq!(code, if cut.is_ok() { 0 } else { 14 });
        truncate.commit(Persistence::Buffer).unwrap();
        assert_eq!(ask(&mut self.oracle, format!("commit>{number}")).0, 0);
    }

    fn read(&mut self) {
        let number = ask(&mut self.oracle, "reader".into()).1;
        let length = self.store.reader().fixed_sized_tape_len(&self.tape).unwrap();
        for _ in 0..4 {
            let (offset, count) = ((length + 1).saturating_sub(self.below(30)), self.below(12));
            let mut entries = vec![Entry::default(); count as usize];
            let read = self.store.reader().read_entries(&self.tape, offset, &mut entries);
            let given = ask(&mut self.oracle, format!("read>{number}>1>{offset}>{count}"));
            assert_eq!(given, if read.is_ok() { (0, count, entries.concat()) } else { (12, 0, vec![]) });
        }
        assert_eq!(ask(&mut self.oracle, format!("drop>{number}")).0, 0);
    }
}

#[test]
fn the_same_through_both() {
    let mut both = Both::new();
    for _ in 0..500 {
        both.append();
        if both.below(3) == 0 {
            both.cut();
        }
        both.read();
    }
}
