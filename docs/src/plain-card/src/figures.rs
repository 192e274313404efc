//! A year of captures in figures (request 11 of document 02): a stream of
//! captures is read, and exact counts are printed.

use std::fmt;
use std::io::{self, Read};

use crate::frame::u32_at;
use crate::list::{take_part, LONGEST};
use crate::part::Wrong;
use crate::setup::Setup;
use crate::setups;

/// The length of a version 1 setup.
const SETUP: usize = 19;
/// The length of the number ahead of a capture.
const LENGTH: usize = 4;
/// After so many captures it stops.
const MOST: u64 = 4_294_967_295;

/// Why a capture is refused: the first cause in this order that occurs anywhere
/// in it.
#[derive(Clone, Copy, Debug, PartialEq, Eq, PartialOrd, Ord)]
pub enum Cause {
    /// A header or a value runs past the end.
    Cut,
    /// A part that the member has not got, and that is not skipped.
    Unknown,
    /// A known part of a wrong length.
    Length,
    /// A queue size that no ring has.
    Size,
    /// Other device features than the setup's.
    Features,
    /// A known part named twice.
    Twice,
    /// Over 4,064 bytes: it is not looked into.
    Long,
}

impl From<Wrong> for Cause {
    fn from(wrong: Wrong) -> Cause {
        match wrong {
            Wrong::Length => Cause::Length,
            Wrong::QueueSize => Cause::Size,
            Wrong::Features => Cause::Features,
        }
    }
}

/// The names of the causes in the sheet.
const CAUSES: [&str; 7] = ["cut", "unknown", "length", "size", "features", "twice", "long"];

/// The first part type that is counted.
const FIRST_TYPE: u16 = 0x100;
/// The number of part types.
const TYPES: usize = 6;

/// The sheet's numbers.
#[derive(Clone, Debug, Default, PartialEq, Eq)]
pub struct Figures {
    /// Captures read.
    pub read: u64,
    /// Captures that step 10 passes.
    pub accepted: u64,
    /// Captures refused, by cause.
    pub causes: [u64; CAUSES.len()],
    /// Parts of the inventory in accepted captures, by type from 0x100.
    pub parts: [u64; TYPES],
    /// Bytes of accepted captures, without the lengths.
    pub bytes: u64,
    /// Whether the stream ends inside a capture or its length, or is not read to
    /// its end.
    pub torn: bool,
}

/// The parts of a capture by type, or why it is refused.
pub fn judge(list: &[u8], features: &[u8; 16], queues: u8) -> Result<[u64; TYPES], Cause> {
    let mut parts = [0; TYPES];
    let mut first: Option<Cause> = None;
    let mut named = vec![];
    let mut rest = list;
    while !rest.is_empty() {
        let (header, value) = take_part(&mut rest).map_err(|_| Cause::Cut)?;
        let causes = if let Some(part) = header.part(queues) {
            let twice = named.contains(&part).then_some(Cause::Twice);
            named.push(part);
            parts[usize::from(part.part_type() - FIRST_TYPE)] += 1;
            [part.wrong(value, features).map(Cause::from), twice]
        } else {
            [(!header.is_skipped()).then_some(Cause::Unknown), None]
        };
        first = causes.into_iter().flatten().chain(first).min();
    }
    first.map_or(Ok(parts), Err)
}

/// The figures of a stream: a version 1 setup, and captures up to the end. None
/// if the setup is refused.
pub fn figures(stream: &mut impl Read) -> io::Result<Option<Figures>> {
    figures_of(stream, MOST)
}

/// The same, where it stops after `most` captures.
pub fn figures_of(stream: &mut impl Read, most: u64) -> io::Result<Option<Figures>> {
    let mut bytes = [0; SETUP];
    if fill(stream, &mut bytes)? < SETUP {
        return Ok(None);
    }
    let Ok(setup) = setups::read_v1(&bytes) else { return Ok(None) };
    let mut figures = Figures::default();
    while figures.read < most {
        let mut length = [0; LENGTH];
        match fill(stream, &mut length)? {
            0 => return Ok(Some(figures)),
            LENGTH => {}
            _ => break,
        }
        if !figures.add(stream, u32_at(&length, 0) as usize, &setup)? {
            break;
        }
    }
    Ok(Some(Figures { torn: true, ..figures }))
}

impl Figures {
    /// Reads and counts one capture. Tells whether the stream has it whole.
    fn add(&mut self, stream: &mut impl Read, length: usize, setup: &Setup) -> io::Result<bool> {
        let mut buffer = [0; LONGEST];
        let Some(capture) = buffer.get_mut(..length) else {
            if io::copy(&mut stream.take(length as u64), &mut io::sink())? < length as u64 {
                return Ok(false);
            }
            self.refuse(Cause::Long);
            return Ok(true);
        };
        if fill(stream, capture)? < length {
            return Ok(false);
        }
        match judge(capture, &setup.common.features, setup.queues[0]) {
            Ok(parts) => self.accept(parts, length),
            Err(cause) => self.refuse(cause),
        }
        Ok(true)
    }

    fn accept(&mut self, parts: [u64; TYPES], length: usize) {
        self.read += 1;
        self.accepted += 1;
        self.parts.iter_mut().zip(parts).for_each(|(all, count)| *all += count);
        self.bytes += length as u64;
    }

    fn refuse(&mut self, cause: Cause) {
        self.read += 1;
        self.causes[cause as usize] += 1;
    }
}

/// Reads up to the end of the buffer or of the stream; tells how much.
fn fill(stream: &mut impl Read, buffer: &mut [u8]) -> io::Result<usize> {
    let mut filled = 0;
    while filled < buffer.len() {
        match stream.read(&mut buffer[filled..]) {
            Ok(0) => break,
            Ok(count) => filled += count,
            Err(error) if error.kind() == io::ErrorKind::Interrupted => {}
            Err(error) => return Err(error),
        }
    }
    Ok(filled)
}

impl fmt::Display for Figures {
    /// The sheet.
    fn fmt(&self, f: &mut fmt::Formatter) -> fmt::Result {
        writeln!(f, "read {}\naccepted {}", self.read, self.accepted)?;
        for (name, count) in CAUSES.iter().zip(self.causes) {
            writeln!(f, "{name} {count}")?;
        }
        for (part_type, count) in (FIRST_TYPE..).zip(self.parts) {
            writeln!(f, "{part_type:#x} {count}")?;
        }
        writeln!(f, "bytes {}", self.bytes)?;
        writeln!(f, "end {}", if self.torn { "torn" } else { "whole" })
    }
}

/// The sheet of a stream, or that its setup is refused.
pub fn sheet(stream: &mut impl Read) -> io::Result<String> {
    let figures = figures(stream)?;
    Ok(figures.map_or_else(|| "setup refused\n".into(), |figures| figures.to_string()))
}
