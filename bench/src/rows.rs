//! The rows, group by group.

use std::hint::black_box;

#[cfg(feature = "inside")]
use blake2::Digest;
use cuprate_tapes::{Tapes, TapesRead};
use tapes::calls;

use crate::{Bench, Row, Shape, ours, theirs};
#[cfg(feature = "inside")]
use crate::{inside, meter::Meter, words};

const RUST: &str = "rust";
const HUNDRED: [u8; 100] = [7; 100];
const NAMES: [&str; 8] = ["a", "b", "c", "d", "e", "f", "g", "h"];

pub fn all(bench: &Bench) {
    // what a pair of marks costs by itself
    let nothing = bench.meter.cost(2_000, || (), |()| ());
    Row { group: "nothing", what: "no call", file: 0, cache: 0, at: 0 }.print("", nothing, None);
    for file in [64, 4096] {
        for cache in [64, 4096] {
            for count in [64, 1024, 4096] {
                let shape = shape(64, file, cache, if file == 64 { 64 } else { 60 });
                let end = shape.held as u64;
                bench.read("read", "the last bytes", &shape, end - count, count, count);
                bench.read("read", "the first bytes", &shape, 0, count, count);
            }
        }
    }
    for cache in [64, 4096] {
        bench.append("append", "append 100 bytes and commit", &shape(64, 4096, cache, 60), 0, 0);
    }
    bench.reader("reader", &shape(64, 4096, 4096, 60), 0, 0);
    bench.length("length", &shape(64, 4096, 4096, 60), 0);
    bench.stores();
    // today's toolchain passes slices to inner functions otherwise than `inside` says
    #[cfg(feature = "inside")]
    {
        bench.rules("rule", 64);
        bench.hashes();
    }
    growth(bench);
}

/// One tape that fills so many files.
fn shape(slots: u64, file: u64, cache: u64, files: u64) -> Shape {
    Shape { slots, file, cache, held: (files * file) as usize, names: &NAMES[..1] }
}

/// How costs grow with slots, with files crossed, with open readers and with open tapes.
fn growth(bench: &Bench) {
    for slots in [8, 16, 32, 64] {
        // all but four slots have a file; the file that is read was made last
        let files = slots - 4;
        let small = shape(slots, 4096, 64, files);
        bench.read("slots", "read 64 bytes out of the last file", &small, (files - 1) * 4096, 64, slots);
        let large = shape(slots, 4096, 4096, files);
        bench.append("slots", "append 100 bytes and commit", &large, 0, slots);
        bench.reader("slots", &large, 0, slots);
        bench.length("slots", &large, slots);
        #[cfg(feature = "inside")]
        bench.rules("slots", slots);
    }
    for files in [1, 2, 4, 8, 16, 32, 63] {
        bench.read("files", "read whole files of 64 bytes", &shape(64, 64, 64, 64), 0, files * 64, files);
    }
    for readers in [0, 1, 2, 4, 8, 15] {
        let shape = shape(64, 4096, 4096, 60);
        bench.reader("readers", &shape, readers, readers as u64);
        bench.append("readers", "append 100 bytes and commit", &shape, readers, readers as u64);
    }
    for tapes in [1, 2, 4, 7, 8] {
        // each has six full files and one that is not, and the tapes' files stand among each other
        let shape = Shape { slots: 64, file: 4096, cache: 4096, held: 6 * 4096 + 1000, names: &NAMES[..tapes] };
        bench.reader("tapes", &shape, 0, tapes as u64);
        bench.length("tapes", &shape, tapes as u64);
    }
}

impl Bench {
    fn read(&self, group: &str, what: &str, shape: &Shape, offset: u64, count: u64, at: u64) {
        let mut out = vec![0; count as usize];
        let ours = self.meter.cost(
            20_000,
            || {
                let mut store = ours::prepared(shape);
                let reader = ours::served(calls::reader(&mut store));
                (store, reader)
            },
            |(store, reader)| {
                ours::served(calls::read_entries(store, *reader, 1, offset, count, black_box(&mut out)));
            },
        );
        let mut same = vec![0; count as usize];
        let theirs = self.meter.cost(
            20_000,
            || {
                let prepared = theirs::prepared(&self.root, shape);
                let reader = prepared.tapes.reader();
                (prepared, reader)
            },
            |(prepared, reader)| {
                reader.read_bytes(&prepared.tape, offset, black_box(&mut same)).expect("the bytes are there");
            },
        );
        assert_eq!(out, same);
        Row { group, what, file: shape.file, cache: shape.cache, at }.print(RUST, ours, Some(theirs));
    }

    /// So many readers are open all the while.
    fn append(&self, group: &str, what: &str, shape: &Shape, readers: usize, at: u64) {
        let ours = self.meter.cost(
            100,
            || {
                let mut store = ours::prepared(shape);
                for _ in 0..readers {
                    ours::served(calls::reader(&mut store));
                }
                store
            },
            |store| ours::append(store, black_box(&HUNDRED)),
        );
        let theirs = self.meter.cost(
            100,
            || {
                let prepared = theirs::prepared(&self.root, shape);
                let open: Vec<_> = (0..readers).map(|_| prepared.tapes.reader()).collect();
                (prepared, open)
            },
            |(prepared, _open)| theirs::append(prepared, black_box(&HUNDRED)),
        );
        Row { group, what, file: shape.file, cache: shape.cache, at }.print(RUST, ours, Some(theirs));
    }

    fn reader(&self, group: &str, shape: &Shape, readers: usize, at: u64) {
        let ours = self.meter.cost(
            20_000,
            || {
                let mut store = ours::prepared(shape);
                for _ in 0..readers {
                    ours::served(calls::reader(&mut store));
                }
                store
            },
            ours::begin_and_drop,
        );
        let theirs = self.meter.cost(
            20_000,
            || {
                let prepared = theirs::prepared(&self.root, shape);
                let open: Vec<_> = (0..readers).map(|_| prepared.tapes.reader()).collect();
                (prepared, open)
            },
            |(prepared, _open)| drop(black_box(prepared.tapes.reader())),
        );
        let what = "begin and drop a reader";
        Row { group, what, file: shape.file, cache: shape.cache, at }.print(RUST, ours, Some(theirs));
    }

    /// The least that a call does: both rules, then a look.
    fn length(&self, group: &str, shape: &Shape, at: u64) {
        let ours = self.meter.cost(
            20_000,
            || {
                let mut store = ours::prepared(shape);
                let reader = ours::served(calls::reader(&mut store));
                (store, reader)
            },
            |(store, reader)| {
                black_box(ours::served(calls::len(store, *reader, 1)));
            },
        );
        let theirs = self.meter.cost(
            20_000,
            || {
                let prepared = theirs::prepared(&self.root, shape);
                let reader = prepared.tapes.reader();
                (prepared, reader)
            },
            |(prepared, reader)| {
                black_box(reader.blob_tape_len(&prepared.tape));
            },
        );
        let what = "a tape's length";
        Row { group, what, file: shape.file, cache: shape.cache, at }.print(RUST, ours, Some(theirs));
    }

    fn stores(&self) {
        let shape = Shape { slots: 64, file: 4096, cache: 64, held: 1000, names: &NAMES };
        let row = |what| Row { group: "store", what, file: shape.file, cache: shape.cache, at: 8 };
        let ours = self.meter.cost(
            500,
            || ours::prepared(&shape),
            |store| {
                ours::served(calls::store(store));
            },
        );
        let prepare = || theirs::prepared(&self.root, &shape);
        let theirs = self.meter.cost(500, prepare, |_| drop(black_box(Tapes::open(&self.root).expect("the metadata"))));
        row("store with 8 tapes").print(RUST, ours, Some(theirs));
        let ours = self.meter.cost(200, || ours::prepared(&shape), |store| ours::reopen(store, &shape));
        let theirs = self.meter.cost(200, prepare, |_| theirs::reopen(&self.root, &shape));
        row("store and open 8 tapes").print(RUST, ours, Some(theirs));
    }

    /// The layout rules alone, which the Rust does not have.
    #[cfg(feature = "inside")]
    fn rules(&self, group: &str, slots: u64) {
        let shape = shape(slots, 4096, 4096, slots - 4);
        let row = |what| Row { group, what, file: shape.file, cache: shape.cache, at: slots };
        let prepare = || ours::prepared(&shape);
        assert!(!inside::sound_disk(&[0; 4096]) && !inside::begun_session(&[0; 40_000]));
        words::check(&mut prepare());
        let disk = self.meter.cost(20_000, prepare, |store| assert!(inside::sound_disk(&store.disk)));
        row("the disk's layout rule").print("", disk, None);
        let session = self.meter.cost(20_000, prepare, |store| assert!(inside::begun_session(&store.session)));
        row("the session's layout rule").print("", session, None);
        let words = self.meter.cost(20_000, prepare, |store| {
            black_box(words::joined(&store.disk, &store.session));
        });
        row("the words of both rules read without a test").print("", words, None);
    }

    /// BLAKE2b of a record of 8 tapes and of 1 MiB, beside the stand-in that the Rust is built with.
    #[cfg(feature = "inside")]
    fn hashes(&self) {
        for (what, message, calls) in [("BLAKE2b of a record", 374, 200), ("BLAKE2b of 1 MiB", 1 << 20, 1)] {
            let list = vec![5; message - 18];
            let whole = [&b"epoch"[..], &1u64.to_le_bytes(), b"tapes", &list].concat();
            let theirs_of = |bytes: &[u8]| {
                let mut hasher = blake2::Blake2b::new();
                hasher.update(bytes);
                hasher.finalize()
            };
            assert!(calls == 1 && self.meter == Meter::Count || inside::hash(1, &list) == theirs_of(&whole));
            let ours = self.meter.cost(
                calls,
                || (),
                |()| {
                    black_box(inside::hash(1, black_box(&list)));
                },
            );
            let theirs = self.meter.cost(
                calls,
                || (),
                |()| {
                    black_box(theirs_of(black_box(&whole)));
                },
            );
            Row { group: "hash", what, file: 0, cache: 0, at: message as u64 }.print("stand-in", ours, Some(theirs));
        }
    }
}
