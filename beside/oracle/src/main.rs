//! Reads lines from standard input and prints a reply for each, as the driver does. With `--disk`, the whole disk after each.

use std::{
    io::{self, BufRead, BufWriter, Write},
    process::ExitCode,
};

use oracle::Oracle;

fn main() -> io::Result<ExitCode> {
    let mut with_disk = false;
    for word in std::env::args().skip(1) {
        if word != "--disk" {
            eprintln!("usage: oracle [--disk] < SCRIPT");
            return Ok(ExitCode::FAILURE);
        }
        with_disk = true;
    }

    let mut oracle = Oracle::new();
    let mut input = io::stdin().lock();
    let mut output = BufWriter::new(io::stdout().lock());
    let mut line = Vec::new();
    let mut count = 0;

    while input.read_until(b'\n', &mut line)? != 0 {
        count += 1;
        writeln!(output, "{count}\t{}", oracle.answer(line.strip_suffix(b"\n").unwrap_or(&line)))?;
        if with_disk {
            write!(output, "{}", oracle.disk())?;
        }
        line.clear();
    }

    output.flush()?;
    Ok(ExitCode::SUCCESS)
}
