//! The command `levels`; what it does stands in the library beside it.

use std::process::ExitCode;

fn main() -> ExitCode {
    levels::command::main(std::env::args_os().skip(1))
}
