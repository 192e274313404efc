//! The arguments of the programs.

use std::fmt;
use std::process::ExitCode;

/// Why a program does not run.
#[derive(Clone, Debug, PartialEq, Eq)]
pub enum Stop {
    /// The usage was asked.
    Help,
    /// No such argument.
    Unknown(String),
    /// An option without the number that it needs.
    Missing(String),
    /// An option with something else than a number that it takes.
    Bad(String, String),
}

impl Stop {
    /// Tells why on the stream for it, with the usage. Asked for it, the
    /// program has done its work; else the exit code is 2.
    pub fn tell(&self, usage: &str) -> ExitCode {
        if *self == Stop::Help {
            println!("{usage}");
            return ExitCode::SUCCESS;
        }
        eprintln!("{self}\n{usage}");
        ExitCode::from(2)
    }
}

impl fmt::Display for Stop {
    fn fmt(&self, f: &mut fmt::Formatter) -> fmt::Result {
        match self {
            Stop::Help => Ok(()),
            Stop::Unknown(argument) => write!(f, "unknown argument: {argument}"),
            Stop::Missing(option) => write!(f, "{option} needs a number"),
            Stop::Bad(option, value) => write!(f, "{option} does not take: {value}"),
        }
    }
}

/// The arguments of this process. Bytes that are no text are replaced, and the
/// argument is then unknown.
pub fn of_process() -> impl Iterator<Item = String> {
    std::env::args_os().skip(1).map(|argument| argument.to_string_lossy().into_owned())
}

/// What the command line of `compare` asks.
#[derive(Clone, Debug, PartialEq, Eq)]
pub struct Options {
    /// The seed.
    pub seed: u64,
    /// How many calls to compare.
    pub calls: Option<u64>,
    /// For how many seconds.
    pub seconds: Option<u64>,
    /// Whether to plant the faults.
    pub planted_faults: bool,
}

impl Options {
    /// The options that the arguments say; of a repeated one the last stands.
    pub fn read(arguments: impl IntoIterator<Item = String>) -> Result<Options, Stop> {
        let mut options = Options { seed: 1, calls: None, seconds: None, planted_faults: false };
        let mut arguments = arguments.into_iter();
        while let Some(argument) = arguments.next() {
            let mut number = |least| number(&argument, arguments.next(), least);
            match argument.as_str() {
                "--help" => return Err(Stop::Help),
                "--seed" => options.seed = number(0)?,
                "--calls" => options.calls = Some(number(1)?),
                "--seconds" => options.seconds = Some(number(1)?),
                "--planted-faults" => options.planted_faults = true,
                _ => return Err(Stop::Unknown(argument)),
            }
        }
        Ok(options)
    }
}

/// The arguments of a program that takes none.
pub fn none(arguments: impl IntoIterator<Item = String>) -> Result<(), Stop> {
    match arguments.into_iter().next() {
        None => Ok(()),
        Some(argument) if argument == "--help" => Err(Stop::Help),
        Some(argument) => Err(Stop::Unknown(argument)),
    }
}

/// The number behind an option, which is at least this.
fn number(option: &str, value: Option<String>, least: u64) -> Result<u64, Stop> {
    let value = value.ok_or_else(|| Stop::Missing(option.into()))?;
    match value.parse() {
        Ok(number) if number >= least => Ok(number),
        _ => Err(Stop::Bad(option.into(), value)),
    }
}

#[cfg(test)]
mod tests {
    use super::*;

    fn read(line: &str) -> Result<Options, Stop> {
        Options::read(line.split_whitespace().map(String::from))
    }

    fn refused(line: &str) -> String {
        read(line).unwrap_err().to_string()
    }

    #[test]
    fn options_are_read() {
        let options = read("--seed 0 --calls 7 --seconds 9 --planted-faults").unwrap();
        let calls = Some(7);
        let seconds = Some(9);
        assert_eq!(options, Options { seed: 0, calls, seconds, planted_faults: true });
        let usual = Options { seed: 1, calls: None, seconds: None, planted_faults: false };
        assert_eq!(read(""), Ok(usual));
    }

    #[test]
    fn what_is_refused_is_named() {
        assert_eq!(refused("--call 7"), "unknown argument: --call");
        assert_eq!(refused("--seed 3 7"), "unknown argument: 7");
        assert_eq!(refused("--calls"), "--calls needs a number");
        assert_eq!(refused("--calls 0"), "--calls does not take: 0");
        assert_eq!(refused("--seconds 0"), "--seconds does not take: 0");
        assert_eq!(refused("--seed -1"), "--seed does not take: -1");
        assert_eq!(refused("--calls 18446744073709551616").split(' ').next(), Some("--calls"));
    }

    #[test]
    fn help_is_no_error() {
        assert_eq!(read("--help"), Err(Stop::Help));
        assert_eq!(none(["--help".to_string()]), Err(Stop::Help));
        assert_eq!(none(["x".to_string()]), Err(Stop::Unknown("x".into())));
        assert_eq!(none([]), Ok(()));
    }
}
