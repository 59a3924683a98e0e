//! The two bench programs, file to file: the proved one and plain Rust's.

use std::env;
use std::fs::{self, File};
use std::io;
use std::path::{Path, PathBuf};
use std::process::{Command, Stdio};
use std::time::{Duration, Instant};

use plain::stream::{Stream, Style};

use crate::figures::verdict;
use crate::rounds::median;

/// Median times of the two programs on the same file.
pub struct Times {
    events: usize,
    core: Duration,
    plain: Duration,
}

/// Runs both in turn on a file of mixed events, which is removed again.
pub fn measure(events: usize, rounds: usize) -> Result<Times, String> {
    let core = Path::new(env!("CARGO_MANIFEST_DIR")).join("../../target/bin/bench");
    let plain = env::current_exe().map_err(words)?.with_file_name("plain-bench");
    for program in [&core, &plain] {
        if !program.is_file() {
            return Err(format!("there is no {}; scripts/speed builds it", program.display()));
        }
    }
    let folder = env::temp_dir().join(format!("level-archive-speed-{}", std::process::id()));
    fs::create_dir(&folder).map_err(words)?;
    let times = measure_in(&folder, &core, &plain, events, rounds);
    fs::remove_dir_all(&folder).map_err(words)?;
    times.map_err(words)
}

fn words(error: io::Error) -> String {
    error.to_string()
}

fn measure_in(
    folder: &Path,
    core: &Path,
    plain: &Path,
    events: usize,
    rounds: usize,
) -> io::Result<Times> {
    let input = folder.join("events");
    let outputs = [folder.join("core"), folder.join("plain")];
    let mut stream = Stream::new(1, Style::bench(events));
    let bytes: Vec<u8> = (0..events).flat_map(|_| stream.next_event().to_vec()).collect();
    fs::write(&input, bytes)?;
    let mut times = [Vec::new(), Vec::new()];
    for round in 0..=rounds {
        for (which, program) in [core, plain].into_iter().enumerate() {
            let took = run(program, &input, &outputs[which])?;
            if round > 0 {
                times[which].push(took);
            }
        }
    }
    if fs::read(&outputs[0])? != fs::read(&outputs[1])? {
        return Err(io::Error::other("the two programs print different lines"));
    }
    let [core, plain] = times.map(median);
    Ok(Times { events, core, plain })
}

/// Runs a program from a file to a file.
fn run(program: &Path, input: &Path, output: &PathBuf) -> io::Result<Duration> {
    let (from, to) = (File::open(input)?, File::create(output)?);
    let start = Instant::now();
    let status = Command::new(program).stdin(Stdio::from(from)).stdout(Stdio::from(to)).status()?;
    if status.success() {
        Ok(start.elapsed())
    } else {
        Err(io::Error::other(format!("{} gave {status}", program.display())))
    }
}

/// Prints both times and their ratio.
pub fn print(times: &Times) {
    let Times { events, core, plain } = times;
    let (core, plain) = (core.as_secs_f64(), plain.as_secs_f64());
    let ratio = core / plain;
    println!();
    println!("bench programs, {events} events from file to file:");
    println!(
        "  core {core:.3} s, plain {plain:.3} s: {ratio:.2} times   target at most 2.0: {}",
        verdict(ratio <= 2.0)
    );
}
