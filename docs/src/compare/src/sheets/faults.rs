//! Planted faults: the yearly sheet with something done wrong.
//!
//! The plain functions have no hooks. The stream is taken apart again here, and
//! each capture is judged by them.

use plain_card::figures::{judge, Cause, Figures};
use plain_card::frame::u32_at;
use plain_card::list::{take_part, Header, LONGEST};
use plain_card::{setups, Setup};

/// The length of a version 1 setup.
const SETUP: usize = 19;
/// The length of the number ahead of a capture.
const LENGTH: usize = 4;
/// How much the program reads at once.
const CHUNK: usize = 65_536;

/// What is done wrong.
#[derive(Clone, Copy, Debug, PartialEq, Eq)]
pub enum Wrong {
    Version2,
    Padding,
    ShortSetup,
    InLength,
    TornCounted,
    TornAsCut,
    LongFrom,
    LongTo,
    LongNotRead,
    EmptyNotRead,
    FirstPart,
    SizeLast,
    SkippedCounted,
    RefusedCounted,
    FourQueues,
    BytesOfLengths,
    BytesOfRefused,
    Bytes16,
    ChunkEnd,
    LastLine,
    #[cfg(test)]
    Nothing,
}

/// The faults, each with its name.
pub const FAULTS: &[(&str, Wrong)] = &[
    ("version 2 with equal counts taken", Wrong::Version2),
    ("padding of the setup not looked at", Wrong::Padding),
    ("under 19 bytes are a torn stream", Wrong::ShortSetup),
    ("whole where it ends in a length", Wrong::InLength),
    ("a torn capture counted as read", Wrong::TornCounted),
    ("a torn capture counted as cut", Wrong::TornAsCut),
    ("4,064 bytes are long", Wrong::LongFrom),
    ("4,065 bytes are looked into", Wrong::LongTo),
    ("a long capture not counted as read", Wrong::LongNotRead),
    ("an empty capture not counted", Wrong::EmptyNotRead),
    ("the first bad part decides the cause", Wrong::FirstPart),
    ("size after features", Wrong::SizeLast),
    ("skipped parts counted", Wrong::SkippedCounted),
    ("parts of refused captures counted", Wrong::RefusedCounted),
    ("four queues whatever the setup says", Wrong::FourQueues),
    ("bytes with the lengths", Wrong::BytesOfLengths),
    ("bytes of refused captures", Wrong::BytesOfRefused),
    ("bytes in 16 bits", Wrong::Bytes16),
    ("a capture across the end of a chunk is cut", Wrong::ChunkEnd),
    ("no line feed at the end", Wrong::LastLine),
];

impl Wrong {
    /// The sheet of a stream, with this done wrong.
    pub fn sheet(self, stream: &[u8]) -> String {
        let Some(setup) = self.setup(stream) else {
            let torn = Figures { torn: true, ..Figures::default() };
            let short = self == Wrong::ShortSetup && stream.len() < SETUP;
            return if short { torn.to_string() } else { "setup refused\n".into() };
        };
        let text = self.figures(&setup, stream).to_string();
        if self == Wrong::LastLine {
            text.trim_end().into()
        } else {
            text
        }
    }

    fn setup(self, stream: &[u8]) -> Option<Setup> {
        let mut bytes = stream.get(..SETUP)?.to_vec();
        match self {
            Wrong::Padding => bytes[2] &= 0xc0,
            Wrong::Version2 if bytes[0] >> 4 == 2 && bytes[3] == 0 => {
                return setups::read(&stream[..=SETUP]).ok();
            }
            _ => {}
        }
        setups::read_v1(&bytes).ok()
    }

    fn figures(self, setup: &Setup, stream: &[u8]) -> Figures {
        let mut all = Figures::default();
        let mut at = SETUP;
        while at < stream.len() && !all.torn {
            let Some(length) = stream.get(at..at + LENGTH) else {
                all.torn = self != Wrong::InLength;
                break;
            };
            at += LENGTH;
            let end = at + u32_at(length, 0) as usize;
            match stream.get(at..end) {
                Some(_) if self == Wrong::ChunkEnd && at / CHUNK != (end - 1) / CHUNK => {
                    refuse(&mut all, Cause::Cut);
                }
                Some(capture) => self.count(&mut all, setup, capture),
                None => self.tear(&mut all),
            }
            at = end;
        }
        all
    }

    /// The stream ends in a capture.
    fn tear(self, all: &mut Figures) {
        all.torn = true;
        match self {
            Wrong::TornCounted => all.read += 1,
            Wrong::TornAsCut => refuse(all, Cause::Cut),
            _ => {}
        }
    }

    fn count(self, all: &mut Figures, setup: &Setup, capture: &[u8]) {
        if capture.is_empty() && self == Wrong::EmptyNotRead {
            return;
        }
        let longest = match self {
            Wrong::LongFrom => LONGEST - 1,
            Wrong::LongTo => LONGEST + 1,
            _ => LONGEST,
        };
        if capture.len() > longest {
            refuse(all, Cause::Long);
            all.read -= u64::from(self == Wrong::LongNotRead);
            return;
        }
        let queues = if self == Wrong::FourQueues { 4 } else { setup.queues[0] };
        let features = &setup.common.features;
        match judge(capture, features, queues) {
            Ok(parts) => self.accept(all, capture, queues, parts),
            Err(cause) => {
                refuse(all, self.other_cause(cause, capture, features, queues));
                self.add_refused(all, capture, queues);
            }
        }
    }

    fn accept(self, all: &mut Figures, capture: &[u8], queues: u8, parts: [u64; 6]) {
        all.read += 1;
        all.accepted += 1;
        add(&mut all.parts, parts);
        if self == Wrong::SkippedCounted {
            add(&mut all.parts, of_types(capture, |header| header.part(queues).is_none()));
        }
        all.bytes += capture.len() as u64;
        all.bytes += if self == Wrong::BytesOfLengths { LENGTH as u64 } else { 0 };
        all.bytes %= if self == Wrong::Bytes16 { 1 << 16 } else { u64::MAX };
    }

    fn add_refused(self, all: &mut Figures, capture: &[u8], queues: u8) {
        match self {
            Wrong::RefusedCounted => {
                add(&mut all.parts, of_types(capture, |header| header.part(queues).is_some()));
            }
            Wrong::BytesOfRefused => all.bytes += capture.len() as u64,
            _ => {}
        }
    }

    fn other_cause(self, cause: Cause, list: &[u8], features: &[u8; 16], queues: u8) -> Cause {
        let judged = |list: &[u8]| judge(list, features, queues).err();
        match self {
            Wrong::FirstPart => {
                ends(list).iter().find_map(|end| judged(&list[..*end])).unwrap_or(cause)
            }
            Wrong::SizeLast if cause == Cause::Size => {
                let starts = [&[0], &ends(list)[..]].concat();
                let each = starts.windows(2).map(|part| judged(&list[part[0]..part[1]]));
                if each.flatten().any(|it| it == Cause::Features) {
                    Cause::Features
                } else {
                    cause
                }
            }
            _ => cause,
        }
    }
}

fn refuse(all: &mut Figures, cause: Cause) {
    all.read += 1;
    all.causes[cause as usize] += 1;
}

fn add(sums: &mut [u64; 6], numbers: [u64; 6]) {
    sums.iter_mut().zip(numbers).for_each(|(sum, number)| *sum += number);
}

/// Where the parts of a list end, up to the first that is cut.
fn ends(list: &[u8]) -> Vec<usize> {
    let mut rest = list;
    std::iter::from_fn(|| take_part(&mut rest).ok().map(|_| list.len() - rest.len())).collect()
}

/// The parts by type of which something holds, up to the first that is cut.
fn of_types(list: &[u8], holds: impl Fn(&Header) -> bool) -> [u64; 6] {
    let mut counts = [0; 6];
    let mut rest = list;
    while let Ok((header, _)) = take_part(&mut rest) {
        if (0x100..=0x105).contains(&header.part_type) && holds(&header) {
            counts[usize::from(header.part_type - 0x100)] += 1;
        }
    }
    counts
}

#[cfg(test)]
mod tests {
    use super::*;
    use crate::sheets::{plain, samples};

    /// What is taken apart here is taken apart rightly.
    #[test]
    fn nothing_done_wrong_is_the_plain_sheet() {
        for sample in samples().filter(|sample| sample.bytes.len() < 1_000_000) {
            assert_eq!(
                Wrong::Nothing.sheet(&sample.bytes),
                plain(&sample.bytes),
                "{}",
                sample.name
            );
        }
    }
}
