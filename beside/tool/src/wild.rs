//! Lines and fields that are wrong on purpose, or only just right.

use oracle::LONGEST_LINE;

use crate::generator::Generator;

const POOL: [&str; 12] = ["a", "b", "aa", "-", "_", "9", "room-1", "votes", "z_", "a-", "0", "x"];

/// A number at some limit, or one that was right a while ago.
pub fn number(generator: &mut Generator) -> String {
    let last = generator.known.last_transaction;
    let random = &mut generator.random;
    let value = match random.between(0, 11) {
        0 => 0,
        1 => u64::MAX,
        2 => u64::MAX - random.between(1, 300),
        3 => 1 << 63,
        4 => (1 << 63) + random.between(0, 8),
        5 => (1 << 32) + random.between(0, 2),
        // products with entry sizes of 3 and more that wrap to small numbers
        6 => u64::MAX / random.between(2, 256) + random.between(0, 2),
        7 => last.saturating_add(1),
        8 => random.between(0, last),
        _ => random.between(0, 20),
    };
    let zeros = if random.percent(10) { "0".repeat(random.between(1, 30) as usize) } else { String::new() };
    format!("{zeros}{value}")
}

/// A size at the limits of its range.
pub fn size(generator: &mut Generator) -> String {
    let limits = ["0", "1", "2", "255", "256", "257", "4095", "4096", "4097", "18446744073709551615"];
    if generator.random.percent(80) { (*generator.random.pick(&limits)).to_string() } else { number(generator) }
}

pub fn name(generator: &mut Generator) -> Vec<u8> {
    let most = (generator.profile.names as usize + 1).clamp(2, POOL.len());
    let is_open = |name: &str| generator.known.handles.iter().any(|handle| handle.name == name.as_bytes());
    let free: Vec<&str> = POOL[..most].iter().copied().filter(|name| !is_open(name)).collect();
    let random = &mut generator.random;
    if random.percent(80) && !free.is_empty() {
        return random.pick(&free).as_bytes().to_vec();
    }
    if random.percent(50) {
        return random.pick(&POOL[..most]).as_bytes().to_vec();
    }
    let odd: [&[u8]; 14] = [
        b"",
        b"metadata",
        b"metadat",
        b"A",
        b"a b",
        b"a.b",
        b"/",
        b"..",
        b"\xff\xfe",
        b"\xc3\xa9",
        b"a\r",
        b"{",
        b"abcdefghijklmnopqrstuvwx",
        b"abcdefghijklmnopqrstuvwxy",
    ];
    random.pick(&odd).to_vec()
}

/// Any call with any arguments; most are refused.
pub fn any_call(generator: &mut Generator) -> Vec<u8> {
    let words = ["store", "append", "reader", "truncate", "open", "put", "shift", "cut", "read", "commit", "drop"];
    let word = *generator.random.pick(&words);
    let mut line = word.as_bytes().to_vec();
    let fields = match word {
        "commit" | "drop" => 1,
        "put" => 2,
        "shift" | "cut" => 3,
        "read" => 4,
        "open" => 6,
        _ => 0,
    };
    for index in 0..fields {
        line.push(b'\t');
        let field = match (word, index) {
            ("open", 1) => name(generator),
            ("open", 2..) => size(generator).into_bytes(),
            ("read", 3) => generator.random.between(0, 4097).to_string().into_bytes(),
            _ => usual(generator).into_bytes(),
        };
        line.extend(field);
    }
    if word == "put" {
        line.extend(*generator.random.pick(&[b"\t".as_slice(), b"\t00", b"\t0102", b"\t61626364"]));
    }
    line
}

/// The number of an open transaction or handle, or any.
fn usual(generator: &mut Generator) -> String {
    let known = &generator.known;
    let writer = known.writer.map(|(number, _)| number);
    let candidates = [writer, known.readers.first().map(|(number, _)| *number), Some(known.last_handle), Some(1)];
    match generator.random.pick(&candidates) {
        Some(number) if generator.random.percent(70) => number.to_string(),
        _ => number(generator),
    }
}

const WORDS: [&str; 9] = ["", "Store", "format ", "pop", "commit\u{1}", "store\r", "-", "\t", " append"];
const FIELD_COUNTS: [&str; 8] =
    ["store\t", "format\t8", "append\t1", "commit", "drop\t1\t1", "put\t1\t1", "read\t1\t1\t0", "open\t1\ta\t1\t4\t8"];
const NO_NUMBERS: [&str; 9] = ["", "x", "+1", "-1", " 1", "1 ", "1\r", "0x1", "1e3"];
const LARGE_NUMBERS: [&str; 3] =
    ["18446744073709551616", "99999999999999999999", "340282366920938463463374607431768211456"];
const HEX: [&str; 8] = ["-", "0", "000", "0A", "0g", "00 ", "00\r", "FF"];
const LARGE_READS: [&str; 3] = ["4097", "4098", "18446744073709551615"];

/// A line of each unreadable kind; some of the long ones are just short enough.
pub fn unreadable(generator: &mut Generator) -> Vec<u8> {
    let right = usual(generator);
    let random = &mut generator.random;
    let line = match random.between(0, 8) {
        0 => random.pick(&WORDS).to_string(),
        1 => random.pick(&FIELD_COUNTS).to_string(),
        2 => format!("{}\t{}", random.pick(&["commit", "drop"]), random.pick(&NO_NUMBERS)),
        3 => format!("shift\t{right}\t1\t{}", random.pick(&LARGE_NUMBERS)),
        4 => format!("put\t{right}\t1\t{}", random.pick(&HEX)),
        5 => format!("read\t{right}\t1\t0\t{}", random.pick(&LARGE_READS)),
        6 => {
            let digits = LONGEST_LINE - "drop\t".len() + random.between(0, 1) as usize;
            format!("drop\t{right:0>digits$}")
        }
        7 => {
            let bytes = (LONGEST_LINE - "put\t0\t1\t".len()) / 2 + random.between(0, 1) as usize;
            format!("put\t0\t1\t{}", "ab".repeat(bytes))
        }
        _ => format!("open\t{right}\ta\t1\t4\t8\t{}", random.pick(&["", "0\t", "a", "18446744073709551616"])),
    };
    line.into_bytes()
}
