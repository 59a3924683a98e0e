//! What stands behind the command's name.

use std::ffi::{OsStr, OsString};

use crate::failure::Failure;
use crate::input::Form;

/// What was asked for.
#[derive(Debug, Default)]
pub struct Options {
    /// The file with events; standard input if none.
    pub input: Option<OsString>,
    /// The file to be written; standard output if none.
    pub output: Option<OsString>,
    /// Text or bytes, if it was said.
    pub form: Option<Form>,
    /// The archive's number of sites, if it was said.
    pub sites: Option<u32>,
    /// The archive's number of partitions, if it was said.
    pub partitions: Option<u32>,
    /// Whether what can't be written as text becomes a comment.
    pub lenient: bool,
    /// Whether the bench's lines are printed and not words.
    pub lines: bool,
    /// Whether a refused event is a failure.
    pub strict: bool,
    /// Whether help was asked for.
    pub help: bool,
}

impl Options {
    /// The options of a command.
    pub fn parse(
        command: &str,
        arguments: impl Iterator<Item = OsString>,
    ) -> Result<Options, Failure> {
        let mut options = Options::default();
        let mut arguments = arguments;
        let mut only_files = false;
        while let Some(argument) = arguments.next() {
            match argument.to_str() {
                Some("--") if !only_files => only_files = true,
                Some(option) if !only_files && option.starts_with('-') && option != "-" => {
                    options.option(command, option, &mut arguments)?;
                }
                _ => set(&mut options.input, argument, "an input file")?,
            }
        }
        Ok(options)
    }

    /// One option; its value is behind `=`, right behind `-o`, or the next argument.
    fn option(
        &mut self,
        command: &str,
        option: &str,
        arguments: &mut impl Iterator<Item = OsString>,
    ) -> Result<(), Failure> {
        let (name, mut joined) = match (option.split_once('='), option.strip_prefix("-o")) {
            (_, Some(file)) if !file.is_empty() => ("-o", Some(file.into())),
            (Some((name, value)), _) if name.starts_with("--") => (name, Some(value.into())),
            _ => (option, None),
        };
        let mut value = || {
            let value = joined.take().or_else(|| arguments.next());
            value.ok_or_else(|| Failure::Usage(format!("{name} needs a value")))
        };
        match (name, command) {
            ("-h" | "--help", _) => self.help = true,
            ("-o" | "--output", _) => set(&mut self.output, value()?, "an output file")?,
            ("--lenient", "decode") => self.lenient = true,
            ("--lines", "run") => self.lines = true,
            ("--strict", "run") => self.strict = true,
            ("--text", "run" | "draw") => set(&mut self.form, Form::Text, "--text or --bytes")?,
            ("--bytes", "run" | "draw") => set(&mut self.form, Form::Bytes, "--text or --bytes")?,
            ("--sites", "run" | "draw") => set(&mut self.sites, number(name, &value()?)?, name)?,
            ("--partitions", "run" | "draw") => {
                set(&mut self.partitions, number(name, &value()?)?, name)?
            }
            _ => return Err(unknown(command, name)),
        }
        match joined {
            None => Ok(()),
            Some(_) => Err(Failure::Usage(format!("{name} has no value"))),
        }
    }

    /// Whether so many refused events may pass.
    pub fn allow(&self, refused: u64) -> Result<(), Failure> {
        if self.strict && refused > 0 { Err(Failure::Refused(refused)) } else { Ok(()) }
    }
}

/// Sets what may be said once.
fn set<T>(place: &mut Option<T>, value: T, what: &str) -> Result<(), Failure> {
    match place.replace(value) {
        None => Ok(()),
        Some(_) => Err(Failure::Usage(format!("{what} can be named only once"))),
    }
}

fn number(name: &str, value: &OsStr) -> Result<u32, Failure> {
    let text = value.to_string_lossy();
    text.parse().map_err(|_| Failure::Usage(format!("{name} {text} is not a number")))
}

fn unknown(command: &str, option: &str) -> Failure {
    Failure::Usage(format!("{command} has no option {option}; see levels {command} --help"))
}

#[cfg(test)]
mod tests {
    use super::*;

    fn parsed(command: &str, words: &str) -> Result<Options, String> {
        Options::parse(command, words.split_whitespace().map(OsString::from))
            .map_err(|failure| failure.to_string())
    }

    #[test]
    fn options_and_files_in_any_order() {
        let options = parsed("run", "--sites=2 in --partitions 3 --bytes -o out").unwrap();
        assert_eq!((options.sites, options.partitions), (Some(2), Some(3)));
        assert_eq!((options.input, options.output), (Some("in".into()), Some("out".into())));
        assert_eq!(options.form, Some(Form::Bytes));
        assert_eq!(parsed("encode", "-- --help").unwrap().input, Some("--help".into()));
        assert_eq!(parsed("encode", "-").unwrap().input, Some("-".into()));
        assert_eq!(parsed("encode", "-oa=b").unwrap().output, Some("a=b".into()));
    }

    #[test]
    fn what_is_wrong_is_said() {
        let wrong = [
            ("encode", "--lenient", "encode has no option --lenient; see levels encode --help"),
            ("decode", "--sites 2", "decode has no option --sites; see levels decode --help"),
            ("draw", "--strict", "draw has no option --strict; see levels draw --help"),
            ("draw", "-x", "draw has no option -x; see levels draw --help"),
            ("run", "--sites", "--sites needs a value"),
            ("run", "--sites two", "--sites two is not a number"),
            ("run", "--text --bytes", "--text or --bytes can be named only once"),
            ("run", "--text=1", "--text has no value"),
            ("run", "a b", "an input file can be named only once"),
        ];
        for (command, words, message) in wrong {
            assert_eq!(parsed(command, words).unwrap_err(), format!("levels: {message}"));
        }
    }
}
