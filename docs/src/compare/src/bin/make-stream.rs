//! Makes a stream of captures for a try of the yearly sheet: a setup, captures of
//! every kind, and a whole or a torn end, on standard output.

use std::io::{self, BufWriter, Write};
use std::process::ExitCode;

use compare::arguments::{self, Stop};
use compare::draw::{End, Stream};

const USAGE: &str = "\
make-stream SEED CAPTURES END
  SEED      equal seeds make equal streams
  CAPTURES  how many whole captures
  END       whole, length or capture: how it ends, torn inside the last two";

fn main() -> ExitCode {
    let (seed, captures, end) = match read(&arguments::of_process().collect::<Vec<_>>()) {
        Ok(read) => read,
        Err(stop) => return stop.tell(USAGE),
    };
    match make(seed, captures, end) {
        Ok(()) => ExitCode::SUCCESS,
        Err(error) => {
            eprintln!("make-stream: {error}");
            ExitCode::FAILURE
        }
    }
}

/// The seed, the number of captures, and the end.
fn read(arguments: &[String]) -> Result<(u64, u64, End), Stop> {
    if arguments == ["--help"] {
        return Err(Stop::Help);
    }
    let [seed, captures, end] = arguments else { return Err(Stop::Missing("CAPTURES".into())) };
    let number =
        |name: &str, text: &String| text.parse().map_err(|_| Stop::Bad(name.into(), text.clone()));
    let end = match &end[..] {
        "whole" => End::Whole,
        "length" => End::InLength,
        "capture" => End::InCapture,
        _ => return Err(Stop::Bad("END".into(), end.clone())),
    };
    Ok((number("SEED", seed)?, number("CAPTURES", captures)?, end))
}

fn make(seed: u64, captures: u64, end: End) -> io::Result<()> {
    let (mut stream, setup) = Stream::new(seed);
    let mut out = BufWriter::with_capacity(1 << 20, io::stdout().lock());
    out.write_all(&setup)?;
    (0..captures).try_for_each(|_| out.write_all(&stream.next_capture()))?;
    out.write_all(&stream.end(end))?;
    out.flush()
}
