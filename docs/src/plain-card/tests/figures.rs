//! A year of captures in figures (request 11 of document 02).

mod common;

use common::{flagged, header, part, queue};
use plain_card::figures::{figures_of, judge, sheet, Cause, Figures};
use plain_card::list;
use plain_card::part::inventory;
use plain_card::setups;
use plain_card::Setup;
use std::io::{self, Read};

const FEATURES: [u8; 16] = [7; 16];

/// The setup of the worked examples.
fn bench() -> Vec<u8> {
    let setup = setups::write(&Setup::alike(2, 1, 1, 1, [0; 16]).unwrap());
    assert_eq!(setup[..3], [0x11, 0x04, 0x40]);
    setup
}

/// A setup with two queues and these captures.
fn stream(captures: &[Vec<u8>]) -> Vec<u8> {
    let mut stream = setups::write(&Setup::alike(2, 2, 1, 1, FEATURES).unwrap());
    for capture in captures {
        stream.extend((capture.len() as u32).to_le_bytes());
        stream.extend(capture);
    }
    stream
}

fn figures(stream: &[u8]) -> Figures {
    figures_of(&mut &stream[..], 1_000).unwrap().unwrap()
}

fn full() -> Vec<u8> {
    let value = |length| vec![0; length as usize];
    let parts = inventory(2).skip(1).map(|it| [&it.header(), &value(it.length())[..]].concat());
    [part(0x100, 0, &FEATURES), parts.collect::<Vec<_>>().concat()].concat()
}

#[test]
fn nothing_after_the_bench_setup_is_sixteen_zeros_and_whole() {
    let names = "read accepted cut unknown length size features twice long \
                 0x100 0x101 0x102 0x103 0x104 0x105 bytes";
    let lines: String = names.split_whitespace().map(|name| format!("{name} 0\n")).collect();
    assert_eq!(sheet(&mut &bench()[..]).unwrap(), lines + "end whole\n");
}

#[test]
fn a_bad_setup_prints_only_that() {
    let version_2 = setups::write(&Setup::new(2, &[1, 2], 1, 1, [0; 16]).unwrap());
    let equal = [&[0x21, 0x04, 0x40, 0][..], &[0; 16]].concat();
    assert!(setups::read(&equal).is_ok());
    for bad in [vec![], bench()[..18].to_vec(), version_2, equal, vec![0x11; 19]] {
        assert_eq!(sheet(&mut &bad[..]).unwrap(), "setup refused\n");
    }
}

#[test]
fn parts_and_bytes_are_those_of_accepted_captures() {
    let skipped = [
        flagged(1, part(0x102, 4, &[0; 4])),
        flagged(1, part(0x104, 2, &queue(100, 1))),
        flagged(3, part(0x5ff, 0, &[1; 9])),
    ];
    let status = [part(0x103, 0, &[1]), skipped.concat()].concat();
    let refused = [full(), vec![0]].concat();
    let told = figures(&stream(&[full(), vec![], status.clone(), refused]));
    assert_eq!((told.read, told.accepted, told.causes), (4, 3, [1, 0, 0, 0, 0, 0, 0]));
    assert_eq!(told.parts, [1, 1, 4, 2, 2, 2]);
    assert_eq!(told.bytes, (full().len() + status.len()) as u64);
    assert!(!told.torn);
}

#[test]
fn each_cause_occurs() {
    let captures = [
        (header(0x103, 0, 1), Cause::Cut),
        (vec![0; 15], Cause::Cut),
        (part(0x104, 2, &queue(1, 0)), Cause::Unknown),
        (flagged(1, part(0x600, 0, &[])), Cause::Unknown),
        (part(0x103, 0, &[]), Cause::Length),
        (part(0x104, 1, &queue(100, 0)), Cause::Size),
        (part(0x100, 0, &[8; 16]), Cause::Features),
        ([full(), part(0x103, 9, &[1])].concat(), Cause::Twice),
    ];
    for (capture, cause) in captures {
        assert_eq!(judge(&capture, &FEATURES, 2), Err(cause));
        let mut expected = [0; 7];
        expected[cause as usize] = 1;
        assert_eq!(figures(&stream(&[capture])).causes, expected);
    }
}

#[test]
fn a_capture_counts_under_the_first_cause_that_occurs_anywhere() {
    // From the last cause to the first, each ahead of the ones before.
    let causes = [
        ([part(0x103, 0, &[1]), part(0x103, 0, &[1])].concat(), Cause::Twice),
        (part(0x100, 0, &[8; 16]), Cause::Features),
        (part(0x104, 0, &queue(0, 1)), Cause::Size),
        (part(0x101, 0, &[0; 17]), Cause::Length),
        (part(0x106, 0, &[]), Cause::Unknown),
        (vec![1, 1], Cause::Cut),
    ];
    let mut capture = vec![];
    for (bad, cause) in causes {
        capture.extend(bad);
        assert_eq!(judge(&capture, &FEATURES, 2), Err(cause));
        assert!(list::known(&capture, &FEATURES, 2).is_err());
    }
}

#[test]
fn a_long_capture_is_skipped_and_never_looked_into() {
    let longest = flagged(1, part(0x200, 0, &[0; 4_048]));
    let longer = flagged(1, part(0x200, 0, &[0; 4_049]));
    let told = figures(&stream(&[longest, longer, vec![0xff; 70_000], full()]));
    assert_eq!((told.read, told.accepted, told.causes[6]), (4, 2, 2));
    assert_eq!(told.bytes, 4_064 + full().len() as u64);
}

#[test]
fn a_stream_cut_inside_a_capture_or_its_length_is_torn() {
    let captures = [full(), vec![], vec![0; 5_000], full()];
    let whole = stream(&captures);
    let mut ends = vec![19];
    for capture in &captures {
        ends.push(ends[ends.len() - 1] + 4 + capture.len());
    }
    for length in 19..=whole.len() {
        let told = figures(&whole[..length]);
        assert_eq!(told.torn, !ends.contains(&length), "{length}");
        let read = ends.iter().filter(|end| **end <= length).count() as u64 - 1;
        assert_eq!(told.read, read);
        assert_eq!(told.read, told.accepted + told.causes.iter().sum::<u64>());
    }
}

#[test]
fn after_the_most_captures_it_stops_and_is_torn_whatever_follows() {
    for captures in [3, 4] {
        let stream = stream(&vec![vec![]; captures]);
        let told = figures_of(&mut &stream[..], 3).unwrap().unwrap();
        assert_eq!((told.read, told.accepted, told.torn), (3, 3, true));
    }
    let whole = stream(&vec![vec![]; 2]);
    assert!(!figures_of(&mut &whole[..], 3).unwrap().unwrap().torn);
}

/// Bytes that come a few at a time, with interrupts between, and then an error.
struct Slow<'a>(&'a [u8], usize, bool);

impl Read for Slow<'_> {
    fn read(&mut self, buffer: &mut [u8]) -> io::Result<usize> {
        self.1 += 1;
        match self.1 % 3 {
            0 => Err(io::ErrorKind::Interrupted.into()),
            _ if self.0.is_empty() && self.2 => Err(io::ErrorKind::BrokenPipe.into()),
            few => self.0.take(few as u64).read(buffer).inspect(|count| self.0 = &self.0[*count..]),
        }
    }
}

#[test]
fn it_does_not_matter_how_the_bytes_come() {
    let captures = stream(&[full(), vec![0; 5_000], part(0x103, 0, &[]), full()]);
    for length in [18, 19, 21, 100, captures.len()] {
        let mut slow = Slow(&captures[..length], 0, false);
        assert_eq!(sheet(&mut slow).unwrap(), sheet(&mut &captures[..length]).unwrap());
    }
    assert!(sheet(&mut Slow(&captures, 0, true)).is_err());
}
