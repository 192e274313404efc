//! Many runs, each a process of its own, so that no figure depends on where one
//! process happens to lie; and instructions, which do not depend on the load.

use std::io;
use std::process::{Command, Output};

use super::work::{self, Work};
use super::{growth, median, timing};

/// How many runs the figures are medians of.
pub const RUNS: usize = 21;

/// What is timed in a run.
#[derive(Clone, Copy, Debug, PartialEq, Eq)]
pub enum Set {
    /// A capture.
    Capture,
    /// Each call that is made often.
    Calls,
    /// What is plotted.
    Growth,
}

impl Set {
    const ALL: [Set; 3] = [Set::Capture, Set::Calls, Set::Growth];

    /// The name as an argument.
    pub fn name(self) -> &'static str {
        match self {
            Set::Capture => "capture",
            Set::Calls => "calls",
            Set::Growth => "growth",
        }
    }

    /// The set of this name.
    pub fn named(name: &str) -> Option<Set> {
        Set::ALL.into_iter().find(|set| set.name() == name)
    }

    /// What is timed, in order.
    pub fn works(self) -> Vec<Work> {
        match self {
            Set::Capture => vec![work::capture()],
            Set::Calls => work::all(),
            Set::Growth => growth::all()
                .into_iter()
                .flat_map(|growth| growth.points)
                .map(|(_, work)| work)
                .collect(),
        }
    }
}

/// What the runs show of one program.
#[derive(Clone, Copy, Debug, PartialEq)]
pub struct Figure {
    /// The median of the nanoseconds for one member.
    pub nanoseconds: f64,
    /// The median, least and most of the archive's time by this one's.
    pub ratio: [f64; 3],
    /// Instructions for one member, if they were counted.
    pub instructions: Option<u64>,
}

impl Figure {
    /// The figure of these times and ratios, one of each run.
    fn of(runs: &[(f64, f64)]) -> Figure {
        let ratios = || runs.iter().map(|run| run.1);
        let least = ratios().fold(f64::INFINITY, f64::min);
        let most = ratios().fold(0.0, f64::max);
        Figure {
            nanoseconds: median(runs.iter().map(|run| run.0)),
            ratio: [median(ratios()), least, most],
            instructions: None,
        }
    }
}

/// One run, printed: a line for each work, with time and ratio of each program.
pub fn print_run(set: Set) {
    for work in set.works() {
        let times = timing::run(&work);
        let pair = |time: &timing::Time| format!("{} {}", time.nanoseconds, time.ratio);
        println!("{}", times.iter().map(pair).collect::<Vec<_>>().join(" "));
    }
}

/// The figures of each work by each of its programs.
pub fn figures(set: Set) -> io::Result<Vec<Vec<Figure>>> {
    let runs = (0..RUNS).map(|_| run(set)).collect::<io::Result<Vec<_>>>()?;
    let works = set.works();
    let of = |work: usize, program: usize| {
        Figure::of(&runs.iter().map(|run| run[work][program]).collect::<Vec<_>>())
    };
    let all = works.iter().enumerate();
    Ok(all.map(|(at, work)| (0..work.programs.len()).map(|by| of(at, by)).collect()).collect())
}

/// One run in a process of its own: for each work, time and ratio by program.
fn run(set: Set) -> io::Result<Vec<Vec<(f64, f64)>>> {
    let output = Command::new(std::env::current_exe()?).args(["run", set.name()]).output()?;
    let lines = text_of(&output)?;
    let number = |word: &str| word.parse().map_err(io::Error::other);
    let row = |line: &str| -> io::Result<Vec<(f64, f64)>> {
        let numbers = line.split(' ').map(number).collect::<io::Result<Vec<f64>>>()?;
        Ok(numbers.chunks_exact(2).map(|pair| (pair[0], pair[1])).collect())
    };
    lines.lines().map(row).collect()
}

/// Adds the instructions, if valgrind is there.
pub fn count_instructions(set: Set, figures: &mut [Vec<Figure>]) -> io::Result<()> {
    for (at, work) in set.works().iter().enumerate() {
        for (by, figure) in figures[at].iter_mut().enumerate() {
            figure.instructions = match instructions(set, at, by, work) {
                Err(error) if error.kind() == io::ErrorKind::NotFound => return Ok(()),
                counted => Some(counted?),
            }
        }
    }
    Ok(())
}

/// Instructions for one member, by callgrind.
fn instructions(set: Set, at: usize, by: usize, work: &Work) -> io::Result<u64> {
    let output = Command::new("valgrind")
        .args(["--tool=callgrind", "--callgrind-out-file=/dev/null", "--toggle-collect=*counted*"])
        .arg(std::env::current_exe()?)
        .args(["count", set.name(), &at.to_string(), &by.to_string()])
        .output()?;
    text_of(&output)?;
    let told = String::from_utf8_lossy(&output.stderr);
    let collected = told.lines().find_map(|line| line.split_once("Collected :"));
    let total = collected.and_then(|(_, number)| number.trim().parse::<u64>().ok());
    let total = total.ok_or_else(|| io::Error::other(format!("no count by valgrind: {told}")))?;
    Ok(total / (timing::COUNTED * work.times()) as u64)
}

/// What a process wrote, if it did its work.
fn text_of(output: &Output) -> io::Result<String> {
    if !output.status.success() {
        return Err(io::Error::other(String::from_utf8_lossy(&output.stderr).into_owned()));
    }
    Ok(String::from_utf8_lossy(&output.stdout).into_owned())
}

/// Has one program do one work of a set, to be counted.
pub fn count(set: Set, at: usize, by: usize) -> io::Result<()> {
    let works = set.works();
    let work = works.get(at).ok_or_else(|| io::Error::other("no such row"))?;
    let which = work.programs.get(by).ok_or_else(|| io::Error::other("no such program"))?;
    timing::count(work, *which);
    Ok(())
}
