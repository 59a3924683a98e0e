//! Writes a pseudo-random list of events for the bench to standard output.
//! Usage: plain-stream SEED COUNT

use std::env;
use std::io::{self, BufWriter, Write};
use std::process::ExitCode;

use plain::stream::{Stream, Style};

fn main() -> ExitCode {
    let numbers: Vec<u64> = env::args().skip(1).filter_map(|word| word.parse().ok()).collect();
    let &[seed, count] = &numbers[..] else {
        eprintln!("usage: plain-stream SEED COUNT");
        return ExitCode::FAILURE;
    };
    match write(seed, count) {
        Ok(()) => ExitCode::SUCCESS,
        Err(error) => {
            eprintln!("plain-stream: {error}");
            ExitCode::FAILURE
        }
    }
}

/// Writes `count` events from `seed`.
fn write(seed: u64, count: u64) -> io::Result<()> {
    let mut output = BufWriter::new(io::stdout().lock());
    let mut stream = Stream::new(seed, Style::bench(count as usize));
    for _ in 0..count {
        output.write_all(stream.next_event())?;
    }
    output.flush()
}
