//! What figures were measured on, in one line.

use std::fs;
use std::process::Command;

/// Processor, compiler and load, as far as the system tells.
pub fn line() -> String {
    let processor = fs::read_to_string("/proc/cpuinfo").unwrap_or_default();
    let cores = processor.lines().filter(|line| line.starts_with("processor")).count();
    let load = fs::read_to_string("/proc/loadavg").unwrap_or_default();
    format!(
        "{}, family {}, model {}, {cores} cores; {}; load average {}",
        field(&processor, "model name"),
        field(&processor, "cpu family"),
        field(&processor, "model"),
        compiler(),
        load.split(' ').next().unwrap_or_default(),
    )
}

/// The value of the first line with this name.
fn field<'a>(lines: &'a str, name: &str) -> &'a str {
    let mut pairs = lines.lines().filter_map(|line| line.split_once(':'));
    pairs.find(|(key, _)| key.trim() == name).map_or("unknown", |(_, value)| value.trim())
}

/// The compiler on the path: name and version.
fn compiler() -> String {
    let told = Command::new("rustc").arg("--version").output();
    let text = told.map(|told| String::from_utf8_lossy(&told.stdout).into_owned());
    let text = text.unwrap_or_default();
    text.split(' ').take(2).collect::<Vec<_>>().join(" ")
}

#[cfg(test)]
mod tests {
    use super::*;

    #[test]
    fn a_field_is_found_by_its_whole_name() {
        let lines = "processor\t: 0\nmodel\t\t: 17\nmodel name\t: AMD EPYC\nmodel\t: 18";
        assert_eq!(field(lines, "model"), "17");
        assert_eq!(field(lines, "model name"), "AMD EPYC");
        assert_eq!(field(lines, "name"), "unknown");
    }
}
