//! Links the static archive `libkajurnat.a` for the target that cargo compiles for.

use std::env;
use std::path::{Path, PathBuf};

/// Names the directory that holds the archive. A relative path starts at the
/// folder of this package.
const LIB_DIR: &str = "KAJURNAT_LIB_DIR";

const ARCHIVE: &str = "libkajurnat.a";

fn main() {
    let directory = lib_dir();
    let archive = directory.join(ARCHIVE);
    println!("cargo::rerun-if-env-changed={LIB_DIR}");
    println!("cargo::rerun-if-changed=build.rs");
    println!("cargo::rerun-if-changed={}", archive.display());
    println!("cargo::rustc-link-search=native={}", directory.display());
    println!("cargo::rustc-link-lib=static=kajurnat");
    // Warnings only: `cargo check` and `cargo doc` link nothing.
    if target().is_none() && env::var_os(LIB_DIR).is_none() {
        let processor = env::var("CARGO_CFG_TARGET_ARCH").expect("cargo names the processor");
        println!(
            "cargo::warning=there is no archive of kajurnat for {processor}: this can be checked \
             and documented, not linked."
        );
    } else if !archive.is_file() {
        let built = match target() {
            Some(target) => format!(
                "build it with `make lib TARGET={target}` at the root of the repository \
                 (`rt staticlib kajurnat` is gone), or "
            ),
            None => "".into(),
        };
        println!(
            "cargo::warning={} does not exist. To link, {built}set {LIB_DIR} to the directory that \
             holds {ARCHIVE} for this target.",
            archive.display()
        );
    }
}

/// `KAJURNAT_LIB_DIR`, or else where `make lib` writes the archive for the
/// target.
fn lib_dir() -> PathBuf {
    let package = env::var_os("CARGO_MANIFEST_DIR").expect("cargo names the folder of the package");
    let directory =
        env::var_os(LIB_DIR).filter(|directory| !directory.is_empty()).unwrap_or_else(|| {
            match target() {
                Some("x86_64") => "../../target/staticlib".into(),
                Some(target) => format!("../../target/{target}").into(),
                None => "no-archive-for-this-target".into(),
            }
        });
    Path::new(&package).join(directory)
}

/// The target as `make lib` names it. Rust's x86-64 targets without an operating
/// system have neither red zone nor SSE.
fn target() -> Option<&'static str> {
    let of = |what| env::var(format!("CARGO_CFG_TARGET_{what}")).unwrap_or_default();
    if of("ENDIAN") != "little" || of("POINTER_WIDTH") != "64" {
        return None;
    }
    match (of("ARCH").as_str(), of("OS").as_str()) {
        ("x86_64", "none") => Some("x86_64-kernel"),
        ("x86_64", _) => Some("x86_64"),
        ("aarch64", _) => Some("aarch64"),
        ("riscv64", _) => Some("riscv64"),
        _ => None,
    }
}
