//! Where the command writes: a file, or standard output.

use std::ffi::OsStr;
use std::fs::File;
use std::io::{self, BufWriter, Write};

use crate::failure::Failure;

/// Where the command writes.
pub struct Output {
    name: String,
    writer: BufWriter<Box<dyn Write>>,
}

impl Output {
    /// A file, made empty; standard output where none is named, or `-`.
    pub fn open(path: Option<&OsStr>) -> Result<Output, Failure> {
        let Some(path) = path.filter(|path| *path != "-") else {
            return Ok(Output::of("standard output", Box::new(io::stdout())));
        };
        let name = path.to_string_lossy();
        let file = File::create(path).map_err(|error| Failure::io(&name, &error))?;
        Ok(Output::of(&name, Box::new(file)))
    }

    fn of(name: &str, writer: Box<dyn Write>) -> Output {
        Output { name: name.to_string(), writer: BufWriter::with_capacity(1 << 16, writer) }
    }

    /// Writes bytes.
    pub fn write(&mut self, bytes: &[u8]) -> Result<(), Failure> {
        let written = self.writer.write_all(bytes);
        written.map_err(|error| Failure::io(&self.name, &error))
    }

    /// Writes a line.
    pub fn line(&mut self, line: impl std::fmt::Display) -> Result<(), Failure> {
        let written = writeln!(self.writer, "{line}");
        written.map_err(|error| Failure::io(&self.name, &error))
    }

    /// All that was written goes out.
    pub fn finish(&mut self) -> Result<(), Failure> {
        self.writer.flush().map_err(|error| Failure::io(&self.name, &error))
    }
}
