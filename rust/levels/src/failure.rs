//! Why the command ends early, and the exit code that says so.

use std::fmt;
use std::io;

use crate::words::counted;

/// Why the command ends early.
#[derive(Clone, Debug, PartialEq, Eq)]
pub enum Failure {
    /// The command line is wrong.
    Usage(String),
    /// The input is wrong; the message begins with the place.
    Input(String),
    /// A file can't be read or written; the message begins with its name.
    Io(String),
    /// Events were refused, in a strict run: how many.
    Refused(u64),
    /// Nobody reads the output any more.
    Pipe,
}

impl Failure {
    /// Reading or writing `name` failed.
    pub fn io(name: &str, error: &io::Error) -> Failure {
        match error.kind() {
            io::ErrorKind::BrokenPipe => Failure::Pipe,
            _ => Failure::Io(format!("{name}: {error}")),
        }
    }

    /// 2 for a wrong command line or input, 1 for files, 3 for refused events, 0 for
    /// a pipe that was closed: `levels run | head` is no failure.
    pub fn exit_code(&self) -> u8 {
        match self {
            Failure::Usage(_) | Failure::Input(_) => 2,
            Failure::Io(_) => 1,
            Failure::Refused(_) => 3,
            Failure::Pipe => 0,
        }
    }
}

impl fmt::Display for Failure {
    fn fmt(&self, f: &mut fmt::Formatter<'_>) -> fmt::Result {
        match self {
            Failure::Usage(message) => write!(f, "levels: {message}"),
            Failure::Input(message) => f.write_str(message),
            Failure::Io(message) => write!(f, "levels: {message}"),
            Failure::Refused(events) => write!(f, "levels: {} refused", counted(*events, "event")),
            Failure::Pipe => Ok(()),
        }
    }
}
