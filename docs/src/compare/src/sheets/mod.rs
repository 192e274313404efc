//! The yearly sheet: streams of captures, and the program that reads them.

mod faults;

use std::fs::{self, File};
use std::io;
use std::path::{Path, PathBuf};
use std::process::{Command, Stdio};

use plain_card::figures;
use plain_card::setups;
use plain_card::Setup;

use crate::draw::{End, Stream};
pub use faults::{Wrong, FAULTS};

/// A stream and what it is.
pub struct Sample {
    /// What it is.
    pub name: String,
    /// Its bytes.
    pub bytes: Vec<u8>,
}

/// A stream of so many captures.
pub fn made(seed: u64, captures: u64, end: End) -> Vec<u8> {
    let (mut stream, mut bytes) = Stream::new(seed);
    (0..captures).for_each(|_| bytes.extend(stream.next_capture()));
    bytes.extend(stream.end(end));
    bytes
}

/// The streams that are compared: of other setups, cut at every place around
/// their first captures, made of each end, and large ones.
pub fn samples() -> impl Iterator<Item = Sample> {
    let ends = [End::Whole, End::InLength, End::InCapture];
    let small = made(7, 12, End::Whole);
    let cut = (0..600).map(move |length| Sample {
        name: format!("the first {length} bytes"),
        bytes: small[..length].to_vec(),
    });
    let sizes = (1..=40).map(|seed| (seed, seed * seed / 4)).chain([(41, 10_000)]);
    let of_ends = sizes.flat_map(move |(seed, captures)| {
        ends.map(|end| Sample {
            name: format!("seed {seed}, {captures} captures, {end:?}"),
            bytes: made(seed, captures, end),
        })
    });
    other_setups().into_iter().chain(cut).chain(of_ends)
}

/// Captures behind setups of version 2, of another version, with padding that is
/// not zero or a number out of range.
fn other_setups() -> Vec<Sample> {
    let captures = made(9, 20, End::Whole).split_off(19);
    let unlike = setups::write(&Setup::new(2, &[1, 2], 1, 1, [0; 16]).expect("it is in range"));
    let zeros = |head: &[u8]| [head, &[0; 16]].concat();
    let heads = [
        unlike,
        zeros(&[0x21, 0x04, 0x40, 0x00]),
        zeros(&[0x31, 0x04, 0x40]),
        zeros(&[0x11, 0x24, 0x40]),
        zeros(&[0x11, 0x04, 0x41]),
    ];
    heads
        .map(|setup| Sample {
            name: format!("setup {:02x?}", &setup[..4]),
            bytes: [&setup[..], &captures].concat(),
        })
        .into()
}

/// What the plain functions print.
pub fn plain(stream: &[u8]) -> String {
    figures::sheet(&mut &stream[..]).expect("bytes can be read")
}

/// The program, and a file for its standard input.
pub struct Program {
    path: PathBuf,
    input: PathBuf,
}

impl Program {
    /// The program at a path.
    pub fn at(path: &Path) -> Program {
        let input = format!("kajurnat-stream-{}", std::process::id());
        Program { path: path.into(), input: std::env::temp_dir().join(input) }
    }

    /// What it prints of a stream. That it says something else is an error.
    pub fn sheet(&self, stream: &[u8]) -> io::Result<String> {
        fs::write(&self.input, stream)?;
        let output = Command::new(&self.path)
            .stdin(File::open(&self.input)?)
            .stderr(Stdio::piped())
            .output()?;
        if !output.status.success() || !output.stderr.is_empty() {
            return Err(io::Error::other(String::from_utf8_lossy(&output.stderr)));
        }
        String::from_utf8(output.stdout).map_err(io::Error::other)
    }
}

impl Drop for Program {
    fn drop(&mut self) {
        // It is a temporary file, and may never have been made.
        let _ = fs::remove_file(&self.input);
    }
}
