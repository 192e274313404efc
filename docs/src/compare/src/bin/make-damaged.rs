//! Makes damaged captures for a try of the salvage, as files: for each number
//! below COUNT, `DIR/NUMBER.setup`, `.member` and `.damaged`.

use std::io;
use std::path::Path;
use std::process::ExitCode;

use compare::arguments::{self, Stop};
use compare::draw;
use compare::lists::Asked;
use compare::random::Random;

const USAGE: &str = "make-damaged DIR COUNT\n  --help  print this";

fn main() -> ExitCode {
    let arguments: Vec<String> = arguments::of_process().collect();
    if arguments == ["--help"] {
        return Stop::Help.tell(USAGE);
    }
    let [directory, count] = &arguments[..] else {
        return Stop::Missing("COUNT".into()).tell(USAGE);
    };
    let Ok(count) = count.parse() else {
        return Stop::Bad("COUNT".into(), count.clone()).tell(USAGE);
    };
    match (0..count).try_for_each(|index| make(Path::new(directory), index)) {
        Ok(()) => ExitCode::SUCCESS,
        Err(error) => {
            eprintln!("{directory}: {error}");
            ExitCode::FAILURE
        }
    }
}

fn make(directory: &Path, index: u64) -> io::Result<()> {
    let call = draw::salvage(&mut Random::new(1, index));
    let write =
        |end: &str, bytes: &[u8]| std::fs::write(directory.join(format!("{index}.{end}")), bytes);
    write("setup", &call.setup)?;
    write("member", call.member.to_string().as_bytes())?;
    match &call.asked {
        Asked::Salvage { damaged, .. } => write("damaged", damaged),
        _ => Ok(()),
    }
}
