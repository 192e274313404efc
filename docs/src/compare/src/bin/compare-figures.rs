//! Compares the sheets of the program `kajurnat-figures` with those of the plain
//! functions, and with those that have a fault planted.

use std::io;
use std::path::Path;
use std::process::ExitCode;

use compare::arguments::{self, Stop};
use compare::sheets::{plain, samples, Program, Wrong, FAULTS};

const USAGE: &str = "\
compare-figures PROGRAM
  PROGRAM  the path of kajurnat-figures; its sheets of made streams are compared
           with the plain ones, and each planted fault has to show in one";

fn main() -> ExitCode {
    let arguments: Vec<String> = arguments::of_process().collect();
    let stop = match &arguments[..] {
        [argument] if argument == "--help" => Stop::Help,
        [path] => return run(&Program::at(Path::new(path))),
        [_, argument, ..] => Stop::Unknown(argument.clone()),
        [] => Stop::Unknown("none, and PROGRAM is missing".into()),
    };
    stop.tell(USAGE)
}

fn run(program: &Program) -> ExitCode {
    match all_alike(program) {
        Ok(good) => ExitCode::from(u8::from(!good)),
        Err(error) => {
            eprintln!("compare-figures: {error}");
            ExitCode::FAILURE
        }
    }
}

/// Compares all streams, and tells of each fault which stream was the first to
/// show it.
fn all_alike(program: &Program) -> io::Result<bool> {
    let mut faults: Vec<(&str, Wrong, Option<usize>)> =
        FAULTS.iter().map(|(name, wrong)| (*name, *wrong, None)).collect();
    let mut count = 0;
    for sample in samples() {
        count += 1;
        let sheet = program.sheet(&sample.bytes)?;
        let right = plain(&sample.bytes);
        if sheet != right {
            println!("{}: the sheet is\n{sheet}and the plain one\n{right}", sample.name);
            return Ok(false);
        }
        for (_, wrong, found) in faults.iter_mut().filter(|(.., found)| found.is_none()) {
            *found = (wrong.sheet(&sample.bytes) != sheet).then_some(count);
        }
    }
    println!("{count} streams have the sheets of the plain functions\n");
    println!("{:<46} {:>10}", "planted fault", "streams");
    for (name, _, found) in &faults {
        println!("{name:<46} {:>10}", found.map_or("not found".into(), |it| it.to_string()));
    }
    let missed = faults.iter().filter(|(.., found)| found.is_none()).count();
    println!("{} planted faults, {missed} not found", faults.len());
    Ok(missed == 0)
}
