//! Times the program `yearly_figures`, the plain program, and reading alone on
//! the same streams, in turns.

use std::fs::{self, File};
use std::io::{self, BufWriter, Read, Write};
use std::path::{Path, PathBuf};
use std::process::{Command, ExitCode, Stdio};
use std::time::Instant;

use compare::arguments::{self, Stop};
use compare::bench::median;
use compare::draw::Stream;

const USAGE: &str = "\
bench-figures PROGRAM PLAIN
  PROGRAM  the path of yearly_figures
  PLAIN    the path of plain-figures";

/// A stream has at least so many bytes.
const BYTES: u64 = 1_000_000_000;
/// Equal seeds make equal streams.
const SEED: u64 = 13;
const QUEUES: u8 = 4;
const TURNS: usize = 7;
/// How much is read at once where nothing is counted.
const CHUNK: usize = 65_536;

fn main() -> ExitCode {
    let arguments: Vec<String> = arguments::of_process().collect();
    let [program, plain] = &arguments[..] else {
        let help = arguments == ["--help"];
        let stop = if help { Stop::Help } else { Stop::Unknown("two paths are needed".into()) };
        return stop.tell(USAGE);
    };
    match run([Path::new(program), Path::new(plain)]) {
        Ok(()) => ExitCode::SUCCESS,
        Err(error) => {
            eprintln!("bench-figures: {error}");
            ExitCode::FAILURE
        }
    }
}

fn run(programs: [&Path; 2]) -> io::Result<()> {
    let file = Temporary::new();
    for (name, next) in [
        ("as a card writes them", Stream::next_full as fn(&mut Stream) -> Vec<u8>),
        ("of every kind", Stream::next_capture),
    ] {
        let (bytes, captures) = make(&file.0, next)?;
        println!("{captures} captures {name}, {QUEUES} queues, {} MB", bytes / 1_000_000);
        print_times(bytes, &times(programs, &file.0)?);
    }
    Ok(())
}

/// Makes a stream. Tells its bytes and captures.
fn make(path: &Path, next: fn(&mut Stream) -> Vec<u8>) -> io::Result<(u64, u64)> {
    let (mut stream, setup) = Stream::with_queues(SEED, QUEUES);
    let mut out = BufWriter::with_capacity(1 << 20, File::create(path)?);
    out.write_all(&setup)?;
    let (mut bytes, mut captures) = (setup.len() as u64, 0);
    while bytes < BYTES {
        let capture = next(&mut stream);
        out.write_all(&capture)?;
        bytes += capture.len() as u64;
        captures += 1;
    }
    out.into_inner()?.sync_all()?;
    Ok((bytes, captures))
}

/// The seconds of both programs and of reading alone, in each turn. The sheets
/// are the same.
fn times([program, plain]: [&Path; 2], path: &Path) -> io::Result<Vec<[f64; 3]>> {
    read(path)?;
    (0..TURNS)
        .map(|_| {
            let (ours, told) = time(|| sheet(program, path))?;
            let (theirs, expected) = time(|| sheet(plain, path))?;
            let (reading, ()) = time(|| read(path))?;
            let same = told == expected;
            same.then_some([ours, theirs, reading]).ok_or(io::Error::other("the sheets differ"))
        })
        .collect()
}

fn time<T>(work: impl FnOnce() -> io::Result<T>) -> io::Result<(f64, T)> {
    let start = Instant::now();
    let done = work()?;
    Ok((start.elapsed().as_secs_f64(), done))
}

/// What a program prints of a stream.
fn sheet(program: &Path, stream: &Path) -> io::Result<Vec<u8>> {
    let stdin = File::open(stream)?;
    Ok(Command::new(program).stdin(stdin).stderr(Stdio::inherit()).output()?.stdout)
}

/// Reads a file, and does nothing with it.
fn read(path: &Path) -> io::Result<()> {
    let mut file = File::open(path)?;
    let mut chunk = vec![0; CHUNK];
    while file.read(&mut chunk)? > 0 {}
    Ok(())
}

fn print_times(bytes: u64, turns: &[[f64; 3]]) {
    println!("{:<34} {:>16} {:>16}", "", "MB/s", "program / this");
    for (index, name) in ["program", "plain program", "reading alone"].iter().enumerate() {
        let seconds = median(turns.iter().map(|turn| turn[index]));
        let ratio = median(turns.iter().map(|turn| turn[0] / turn[index]));
        println!("{name:<34} {:>16.0} {ratio:>16.2}", bytes as f64 / seconds / 1e6);
    }
}

/// A file that is removed at the end.
struct Temporary(PathBuf);

impl Temporary {
    fn new() -> Temporary {
        let name = format!("kajurnat-bench-{}", std::process::id());
        Temporary(std::env::temp_dir().join(name))
    }
}

impl Drop for Temporary {
    fn drop(&mut self) {
        // It may never have been made.
        let _ = fs::remove_file(&self.0);
    }
}
