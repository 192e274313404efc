//! Random streams of captures, for the yearly sheet.

use plain_card::part::{inventory, Part, OPTIONAL};
use plain_card::setup::Setup;
use plain_card::{setups, Card};

use super::card::setup_numbers;
use super::difference::{card, full};
use super::list::{self, unknown_part};
use super::value;
use crate::part_bytes::{any_part, part};
use crate::random::Random;

/// How a stream ends.
#[derive(Clone, Copy, Debug, PartialEq, Eq)]
pub enum End {
    /// Behind its last capture.
    Whole,
    /// Inside a length.
    InLength,
    /// Inside a capture, with its length there.
    InCapture,
}

/// A stream of captures that is made piece by piece.
pub struct Stream {
    random: Random,
    card: Card,
    queues: u8,
}

impl Stream {
    /// A stream under a seed, and the bytes of its setup.
    pub fn new(seed: u64) -> (Stream, Vec<u8>) {
        let mut random = Random::new(seed, 0);
        let queues = 1 + random.below(4) as u8;
        Stream::draw(random, queues)
    }

    /// The same with this queue count.
    pub fn with_queues(seed: u64, queues: u8) -> (Stream, Vec<u8>) {
        Stream::draw(Random::new(seed, 0), queues)
    }

    fn draw(mut random: Random, queues: u8) -> (Stream, Vec<u8>) {
        let [members, gets, sets] = setup_numbers(&mut random);
        let features = std::array::from_fn(|_| random.byte());
        let setup = Setup::alike(members, queues, gets, sets, features).expect("it is in range");
        let card = card(&mut random, &setup);
        (Stream { random, card, queues }, setups::write(&setup))
    }

    /// The next capture, with its length.
    pub fn next_capture(&mut self) -> Vec<u8> {
        with_length(&self.capture())
    }

    /// The next capture as a card writes it, with its length.
    pub fn next_full(&mut self) -> Vec<u8> {
        let from = self.random.below(self.card.members.len());
        let values = &self.card.members[from].values;
        let parts = inventory(self.queues).map(|name| part(name, values.get(name)));
        with_length(&parts.collect::<Vec<_>>().concat())
    }

    /// What stands at the end of the stream.
    pub fn end(&mut self, end: End) -> Vec<u8> {
        let mut capture = loop {
            let capture = self.next_capture();
            if capture.len() > 4 {
                break capture;
            }
        };
        match end {
            End::Whole => capture.clear(),
            End::InLength => capture.truncate(1 + self.random.below(3)),
            End::InCapture => capture.truncate(4 + self.random.below(capture.len() - 4)),
        }
        capture
    }

    /// A capture: whole, of some parts, empty, long, or bad in some ways.
    fn capture(&mut self) -> Vec<u8> {
        let Stream { random, card, queues } = self;
        match random.weighted(&[45, 15, 3, 4, 33]) {
            0 => full(random, card, *queues),
            1 => list::given(random, card, *queues),
            2 => vec![],
            3 => long(random),
            _ => {
                let mut capture = full(random, card, *queues);
                for _ in 0..1 + random.below(3) {
                    make_bad(random, *queues, &mut capture);
                }
                capture
            }
        }
    }
}

fn with_length(capture: &[u8]) -> Vec<u8> {
    [&(capture.len() as u32).to_le_bytes(), capture].concat()
}

/// A capture around the longest length that is looked into, or far longer.
fn long(random: &mut Random) -> Vec<u8> {
    let length = random.pick(&[4_063, 4_064, 4_064, 4_065, 4_065, 4_096, 65_537, 70_000]);
    any_part(0x5ff, OPTIONAL, 0, &vec![0; length - 16])
}

/// Puts something of one cause at an end of a list.
fn make_bad(random: &mut Random, queues: u8, list: &mut Vec<u8>) {
    let parts: Vec<Part> = inventory(queues).collect();
    let name = random.pick(&parts);
    let bad = match random.below(6) {
        0 => return list.extend(vec![0; 1 + random.below(15)]),
        1 => unknown_part(random, queues, 0),
        2 => {
            let length = random.below(40);
            any_part(name.part_type(), 0, selector(name), &random.bytes(length))
        }
        3 => part(Part::Queue(random.below(queues.into()) as u8), &value::bad_queue(random)),
        4 => part(Part::DeviceFeatures, &random.bytes(16)),
        _ => part(name, &value::good(random, name)),
    };
    let at = if random.chance(50) { 0 } else { list.len() };
    list.splice(at..at, bad);
}

fn selector(part: Part) -> u64 {
    u64::from_le_bytes(part.selector())
}

#[cfg(test)]
mod tests {
    use super::*;
    use plain_card::figures::figures;

    /// Captures of every kind are drawn, and both ends.
    #[test]
    fn every_cause_and_end_is_drawn() {
        for (seed, end) in [(1, End::Whole), (2, End::InLength), (3, End::InCapture)] {
            let (mut stream, mut bytes) = Stream::new(seed);
            (0..3_000).for_each(|_| bytes.extend(stream.next_capture()));
            bytes.extend(stream.end(end));
            let told = figures(&mut &bytes[..]).unwrap().unwrap();
            assert_eq!((told.read, told.torn), (3_000, end != End::Whole));
            assert!(told.accepted > 600, "{told}");
            assert!(told.causes.iter().all(|count| *count > 10), "{told}");
            assert!(told.parts.iter().all(|count| *count > 100), "{told}");
        }
    }
}
