//! What cargo does where the archive has not been built.

use std::path::Path;
use std::process::{Command, Output};

/// Runs cargo on this package, with an archive directory that does not exist
/// and a target directory of its own.
fn cargo(arguments: &[&str]) -> Output {
    let directory = Path::new(env!("CARGO_TARGET_TMPDIR")).join("without_archive");
    Command::new(env!("CARGO"))
        .args(arguments)
        .args(["--offline", "--manifest-path"])
        .arg(concat!(env!("CARGO_MANIFEST_DIR"), "/Cargo.toml"))
        .arg("--target-dir")
        .arg(&directory)
        .env("KAJURNAT_LIB_DIR", directory.join("no_archive"))
        .env("RUSTDOCFLAGS", "--deny warnings")
        .output()
        .expect("cargo runs")
}

#[test]
fn only_linking_needs_the_archive() {
    for arguments in [&["check"][..], &["doc", "--no-deps"]] {
        let output = cargo(arguments);
        let errors = String::from_utf8_lossy(&output.stderr);
        assert!(output.status.success(), "{arguments:?}: {errors}");
    }

    let output = cargo(&["build"]);
    let errors = String::from_utf8_lossy(&output.stderr);
    assert!(!output.status.success());
    assert!(errors.contains("rt staticlib kajurnat"), "{errors}");
}
