//! The store as a static library, called from Rust.
//!
//! `linked` speaks the driver's protocol: it reads lines from standard input and prints a reply for each. With `--disk`, the whole disk
//! after each, as `oracle --disk` does; with `--also`, the library's further calls are held against its answers. `linked --damage`
//! makes calls on damaged areas.

mod also;
mod areas;
mod asked;
mod damage;
#[path = "../../../rust/tests/all/disk.rs"]
mod disk;
mod forged;
mod stack;

use std::{
    io::{self, BufRead, BufWriter, Write},
    process::ExitCode,
};

use oracle::{Call, LARGEST_READ, Reply};
use tapes::{Owned, calls};

const USAGE: &str = "usage:
  linked [--disk] [--also] < SCRIPT    a reply for each line; the disk after each; what the library's other calls say of it
  linked --damage DAMAGES SEED [--trace]
                                       calls on damaged areas; what became of each
  linked --stack                       the stack that each call takes";

/// Of the driver's disk.
const SLOTS: u64 = 8;

/// The reply to a line without its end, and the line's call if it is readable.
fn answer(store: &mut Owned, line: &[u8]) -> (Reply, Option<Call>) {
    let call = match Call::parse(line, |handle| areas::entry_size(&store.session, handle)) {
        Err(kind) => return (Reply::Unreadable(kind), None),
        Ok(call) => call,
    };
    let mut bytes = vec![0; LARGEST_READ as usize];
    let calls::Reply { code, value } = asked::ask_line(store, &call, SLOTS, &mut bytes);
    let code = u8::try_from(code).expect("a code is at most 18");
    let answered = match call {
        Call::Read { handle, count, .. } if code == 0 => {
            (count * areas::entry_size(&store.session, handle).expect("a served read has a handle")) as usize
        }
        _ => 0,
    };
    bytes.truncate(answered);
    (Reply::Answered { code, value, bytes }, Some(call))
}

fn speak(with_disk: bool, with_also: bool) -> io::Result<()> {
    let mut store = Owned::zeros(SLOTS);
    let mut input = io::stdin().lock();
    let mut output = BufWriter::new(io::stdout().lock());
    let mut line = Vec::new();
    let mut count = 0;

    while input.read_until(b'\n', &mut line)? != 0 {
        count += 1;
        let before = with_also.then(|| store.clone());
        let (reply, call) = answer(&mut store, line.strip_suffix(b"\n").unwrap_or(&line));
        writeln!(output, "{count}\t{reply}")?;
        if with_disk {
            write!(output, "{}", disk::text(&store.disk))?;
        }
        if let (Some(before), Some(call)) = (before, call)
            && let Err(said) = also::agree(&before, &store, &call, &reply)
        {
            panic!("line {count}: {said}");
        }
        line.clear();
    }
    output.flush()
}

fn main() -> io::Result<ExitCode> {
    let words: Vec<String> = std::env::args().skip(1).collect();
    let words: Vec<&str> = words.iter().map(String::as_str).collect();
    if let ["--damage", damages, seed, trace @ ..] = &words[..]
        && let (Ok(damages), Ok(seed), [] | ["--trace"]) = (damages.parse(), seed.parse(), trace)
    {
        println!("{}", damage::run(damages, seed, !trace.is_empty()));
    } else if words == ["--stack"] {
        stack::run();
    } else if words.iter().all(|word| ["--disk", "--also"].contains(word)) {
        speak(words.contains(&"--disk"), words.contains(&"--also"))?;
    } else {
        eprintln!("{USAGE}");
        return Ok(ExitCode::FAILURE);
    }
    Ok(ExitCode::SUCCESS)
}
