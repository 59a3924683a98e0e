//! The bench program (R90 to R92): events from standard input into an archive of
//! 4 sites and 4 partitions, one line for each to standard output.

use std::io;
use std::process::ExitCode;

fn main() -> ExitCode {
    match plain::bench::run(io::stdin().lock(), io::stdout().lock()) {
        Ok(()) => ExitCode::SUCCESS,
        Err(error) => {
            eprintln!("plain-bench: {error}");
            ExitCode::FAILURE
        }
    }
}
