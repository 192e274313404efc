//! Times the archive beside the plain card and the fastest plain Rust, with the
//! same input in the same process.

use std::io;
use std::process::ExitCode;

use compare::arguments::{self, Stop};
use compare::bench::{growth, machine, plot, runs, table};
use runs::{Set, RUNS};

const USAGE: &str = "\
bench capture | calls | growth
  capture  time a full capture, and print a table
  calls    time each call that is made often, and print a table
  growth   time calls as members, queues and lists grow, and print an SVG
  --help   print this

These start, each time in a process of its own:
  run SET            one run, and its times
  count SET AT BY    the calls of one row by one program, for callgrind";

fn main() -> ExitCode {
    let arguments: Vec<String> = arguments::of_process().collect();
    let words: Vec<&str> = arguments.iter().map(String::as_str).collect();
    match act(&words) {
        Err(stop) => stop.tell(USAGE),
        Ok(Ok(())) => ExitCode::SUCCESS,
        Ok(Err(error)) => {
            eprintln!("{error}");
            ExitCode::FAILURE
        }
    }
}

fn act(words: &[&str]) -> Result<io::Result<()>, Stop> {
    let unknown = |word: &str| Stop::Unknown(word.into());
    let set = |name: &str| Set::named(name).ok_or_else(|| unknown(name));
    let number = |word: &str| word.parse().map_err(|_| unknown(word));
    Ok(match words {
        [] | ["--help"] => return Err(Stop::Help),
        ["run", name] => {
            runs::print_run(set(name)?);
            Ok(())
        }
        ["count", name, at, by] => runs::count(set(name)?, number(at)?, number(by)?),
        [name] => report(set(name)?),
        [_, other, ..] => return Err(unknown(other)),
    })
}

/// The table or the plot of a set.
fn report(set: Set) -> io::Result<()> {
    eprintln!("medians of {RUNS} runs; {}", machine::line());
    let mut figures = runs::figures(set)?;
    if set == Set::Growth {
        print!("{}", plot::svg(&plot::panels(&growth::all(), &figures)));
        return Ok(());
    }
    runs::count_instructions(set, &mut figures)?;
    print!("{}", table::markdown(&set.works(), &figures));
    Ok(())
}
