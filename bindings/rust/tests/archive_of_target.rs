//! Which archive the build script links, for each target of cargo.

use std::path::Path;
use std::process::Command;

/// The build script as a program of this name.
fn build_script(name: &str) -> String {
    let program = Path::new(env!("CARGO_TARGET_TMPDIR")).join(name);
    let built = Command::new(std::env::var_os("RUSTC").unwrap_or_else(|| "rustc".into()))
        .args(["--edition", "2021", concat!(env!("CARGO_MANIFEST_DIR"), "/build.rs"), "-o"])
        .arg(&program)
        .status()
        .expect("rustc runs");
    assert!(built.success());
    program.display().to_string()
}

/// What the build script tells cargo for a target.
fn told(script: &str, [arch, os, endian, width]: [&str; 4]) -> String {
    let output = Command::new(script)
        .env_remove("KAJURNAT_LIB_DIR")
        .env("CARGO_MANIFEST_DIR", "/package")
        .env("CARGO_CFG_TARGET_ARCH", arch)
        .env("CARGO_CFG_TARGET_OS", os)
        .env("CARGO_CFG_TARGET_ENDIAN", endian)
        .env("CARGO_CFG_TARGET_POINTER_WIDTH", width)
        .output()
        .expect("the build script runs");
    assert!(output.status.success());
    String::from_utf8(output.stdout).expect("text")
}

#[test]
fn the_archive_is_that_of_the_target() {
    let script = build_script("build_script_of_targets");
    for (target, folder) in [
        (["x86_64", "linux", "little", "64"], "staticlib"),
        (["x86_64", "none", "little", "64"], "x86_64-kernel"),
        (["aarch64", "linux", "little", "64"], "aarch64"),
        (["aarch64", "none", "little", "64"], "aarch64"),
        (["riscv64", "linux", "little", "64"], "riscv64"),
    ] {
        let told = told(&script, target);
        let search = format!("cargo::rustc-link-search=native=/package/../../target/{folder}\n");
        assert!(told.contains(&search), "{target:?}: {told}");
    }
}

#[test]
fn there_is_none_for_other_targets() {
    let script = build_script("build_script_of_others");
    for target in [
        ["aarch64", "linux", "big", "64"],
        ["aarch64", "linux", "little", "32"],
        ["arm", "linux", "little", "32"],
        ["powerpc64", "linux", "big", "64"],
    ] {
        let told = told(&script, target);
        assert!(told.contains("warning=") && !told.contains("make lib"), "{target:?}: {told}");
    }
}
