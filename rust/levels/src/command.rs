//! The command line: which command, its options, its help, its exit code.
//!
//! 0 is success, 1 a file that can't be read or written, 2 a wrong command line or
//! input. A refused event is no failure: it is what the run shows. With `--strict` it
//! is one, 3.

mod archive;
mod decode;
mod draw;
mod encode;
mod help;
mod lines;
mod options;
mod output;
mod run;

use std::ffi::OsString;
use std::io::{self, Write};
use std::process::ExitCode;

use crate::failure::Failure;
use options::Options;
use output::Output;

/// A command: its name, its help and what it does.
struct Command {
    name: &'static str,
    help: &'static str,
    run: fn(&Options) -> Result<(), Failure>,
}

static COMMANDS: [Command; 4] = [
    Command { name: "encode", help: help::ENCODE, run: encode::encode },
    Command { name: "decode", help: help::DECODE, run: decode::decode },
    Command { name: "run", help: help::RUN, run: run::run },
    Command { name: "draw", help: help::DRAW, run: draw::draw },
];

/// The whole command, given what stands behind its name.
pub fn main(arguments: impl Iterator<Item = OsString>) -> ExitCode {
    match start(arguments.collect()) {
        Ok(()) => ExitCode::SUCCESS,
        Err(failure) => {
            if failure != Failure::Pipe {
                let _ = writeln!(io::stderr(), "{failure}"); // there is nobody else to tell
            }
            ExitCode::from(failure.exit_code())
        }
    }
}

fn start(arguments: Vec<OsString>) -> Result<(), Failure> {
    let mut arguments = arguments.into_iter();
    let first = arguments.next().map(|first| first.to_string_lossy().into_owned());
    let command = match first.as_deref() {
        None => return Err(Failure::Usage(format!("which command?\n\n{}", help::ALL.trim_end()))),
        Some("-h" | "--help") => return say(help::ALL),
        Some("-V" | "--version") => {
            return say(concat!("levels ", env!("CARGO_PKG_VERSION"), "\n"));
        }
        Some("help") => return help_for(arguments.next()),
        Some(name) => named(name)?,
    };
    let options = Options::parse(command.name, arguments)?;
    if options.help { say(command.help) } else { (command.run)(&options) }
}

fn help_for(name: Option<OsString>) -> Result<(), Failure> {
    match name {
        None => say(help::ALL),
        Some(name) => say(named(&name.to_string_lossy())?.help),
    }
}

/// Writes a text to standard output.
fn say(text: &str) -> Result<(), Failure> {
    let mut output = Output::open(None)?;
    output.write(text.as_bytes())?;
    output.finish()
}

fn named(name: &str) -> Result<&'static Command, Failure> {
    COMMANDS.iter().find(|command| command.name == name).ok_or_else(|| {
        let known = "the commands are encode, decode, run and draw; see levels --help";
        Failure::Usage(format!("there is no command {name}: {known}"))
    })
}
