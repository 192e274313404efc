//! The programs tell what is wrong with their arguments.

use std::process::{Command, Output};

const COMPARE: &str = env!("CARGO_BIN_EXE_compare");
const BENCH: &str = env!("CARGO_BIN_EXE_bench");

fn run(program: &str, arguments: &[&str]) -> Output {
    Command::new(program).args(arguments).output().expect("the program starts")
}

/// The exit code is 2, and the first line on the error stream is this.
fn refuses(program: &str, arguments: &[&str], line: &str) {
    let output = run(program, arguments);
    let told = String::from_utf8(output.stderr).unwrap();
    assert_eq!((output.status.code(), told.lines().next()), (Some(2), Some(line)));
    assert!(output.stdout.is_empty());
}

#[test]
fn bad_arguments_are_named() {
    refuses(COMPARE, &["--fault"], "unknown argument: --fault");
    refuses(COMPARE, &["--calls", "9", "seed"], "unknown argument: seed");
    refuses(COMPARE, &["--calls", "0"], "--calls does not take: 0");
    refuses(COMPARE, &["--calls", "many"], "--calls does not take: many");
    refuses(COMPARE, &["--seconds"], "--seconds needs a number");
    refuses(BENCH, &["--runs"], "unknown argument: --runs");
    refuses(BENCH, &["capture", "4"], "unknown argument: 4");
    refuses(BENCH, &["run", "restore"], "unknown argument: restore");
    refuses(BENCH, &["count", "calls", "1", "archive"], "unknown argument: archive");
}

#[test]
fn help_is_given() {
    for program in [COMPARE, BENCH] {
        let output = run(program, &["--help"]);
        assert_eq!(output.status.code(), Some(0));
        assert!(String::from_utf8(output.stdout).unwrap().contains("--help"));
        assert!(output.stderr.is_empty());
    }
}

#[test]
fn a_short_run_finds_no_difference() {
    let output = run(COMPARE, &["--calls", "2000", "--seed", "5"]);
    let told = String::from_utf8(output.stdout).unwrap();
    assert_eq!(output.status.code(), Some(0), "{told}");
    for what in [
        "calls compared",
        "isolation pairs",
        "round trips",
        "exchanges",
        "restores in fragments",
        "built requests",
    ] {
        let line = |line: &&str| line.contains(what) && line.ends_with("no difference");
        assert_eq!(told.lines().filter(line).count(), 1, "{what}");
    }
}

#[test]
fn a_run_has_times_and_ratios_of_each_program() {
    let output = run(BENCH, &["run", "capture"]);
    let told = String::from_utf8(output.stdout).unwrap();
    assert_eq!(output.status.code(), Some(0), "{told}");
    let numbers: Vec<f64> = told.split_whitespace().map(|word| word.parse().unwrap()).collect();
    assert_eq!(numbers.len(), 6);
    assert!(numbers.iter().all(|number| *number > 0.0));
    assert_eq!(numbers[1], 1.0);
}
