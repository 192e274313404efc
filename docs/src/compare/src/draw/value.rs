//! Random values of parts. A queue part has a size that a ring can have, or
//! mostly so.

use plain_card::part::{Part, HEADER};
use plain_card::queue::LARGEST;

use crate::random::Random;

/// A value that the part may have.
pub fn good(random: &mut Random, part: Part) -> Vec<u8> {
    let mut value = vec![0; part.length() as usize];
    fill(random, part, &mut value);
    value
}

/// Puts a value that the part may have in its place.
pub fn fill(random: &mut Random, part: Part, value: &mut [u8]) {
    random.fill(value);
    if let Part::Queue(_) = part {
        let (size, enabled) = match random.below(17) {
            16 => (0, 0),
            power => (1 << power, enabled(random)),
        };
        put(value, size, enabled);
    }
}

/// The part with a value that it may have.
pub fn good_part(random: &mut Random, name: Part) -> Vec<u8> {
    let mut part = vec![0; name.size()];
    let (header, value) = part.split_at_mut(HEADER);
    header.copy_from_slice(&name.header());
    fill(random, name, value);
    part
}

/// A value of the part's length, mostly one that it may have.
pub fn any(random: &mut Random, part: Part) -> Vec<u8> {
    let mut value = good(random, part);
    if matches!(part, Part::Queue(_)) && random.chance(25) {
        let (size, enabled) = (any_size(random), enabled(random));
        put(&mut value, size, enabled);
    }
    value
}

/// A value of a queue part that it may not have.
pub fn bad_queue(random: &mut Random) -> Vec<u8> {
    let queue = Part::Queue(0);
    loop {
        let mut value = random.bytes(queue.length() as usize);
        let (size, enabled) = (any_size(random), enabled(random));
        put(&mut value, size, enabled);
        if !queue.allows(&value) {
            return value;
        }
    }
}

/// What is missing of a value of which the start has come, so that the part may
/// have the whole, if a few draws give it.
pub fn rest(random: &mut Random, part: Part, start: &[u8]) -> Vec<u8> {
    let mut draws = 20;
    loop {
        let rest = good(random, part)[start.len()..].to_vec();
        if draws == 0 || part.allows(&[start, &rest].concat()) {
            return rest;
        }
        draws -= 1;
    }
}

/// A queue size: a power of two or beside one, 0, with two bits, or any.
fn any_size(random: &mut Random) -> u16 {
    let (one, two) = (1 << random.below(16), 1 << random.below(16));
    let any = random.bits() as u16;
    let beside = random.pick(&[one + 1, one - 1]);
    random.pick(&[one, beside, beside, one | two, 0, 0, 100, LARGEST, u16::MAX, any])
}

/// An enabled field: 0, or with bits of its first or its second byte.
fn enabled(random: &mut Random) -> u16 {
    let any = random.bits() as u16;
    random.pick(&[0, 1, 0x0100, any])
}

/// Puts size and enabled field in the value of a queue part.
fn put(value: &mut [u8], size: u16, enabled: u16) {
    value[..2].copy_from_slice(&size.to_le_bytes());
    value[4..6].copy_from_slice(&enabled.to_le_bytes());
}

#[cfg(test)]
mod tests {
    use super::*;
    use plain_card::frame::u16_at;
    use std::collections::BTreeSet;

    const QUEUE: Part = Part::Queue(0);

    #[test]
    fn good_values_have_every_size() {
        let mut random = Random::new(1, 0);
        let values: Vec<Vec<u8>> = (0..2_000).map(|_| good(&mut random, QUEUE)).collect();
        assert!(values.iter().all(|value| QUEUE.allows(value)));
        let sizes: BTreeSet<u16> = values.iter().map(|value| u16_at(value, 0)).collect();
        assert_eq!(sizes.len(), 17);
    }

    #[test]
    fn every_way_to_be_bad_is_drawn() {
        let mut random = Random::new(1, 0);
        let bad: BTreeSet<(u16, u16)> = (0..4_000)
            .map(|_| bad_queue(&mut random))
            .map(|value| (u16_at(&value, 0), u16_at(&value, 4)))
            .collect();
        for size in [3, 100, LARGEST - 1, LARGEST + 1, u16::MAX] {
            assert!(bad.contains(&(size, 0)) && bad.contains(&(size, 1)), "{size}");
        }
        assert!(bad.contains(&(0, 1)) && bad.contains(&(0, 0x0100)));
    }

    #[test]
    fn a_value_cut_anywhere_is_completed() {
        let mut random = Random::new(1, 0);
        for index in 0..2_000 {
            let value = good(&mut random, QUEUE);
            let start = &value[..index % 32];
            let whole = [start, &rest(&mut random, QUEUE, start)].concat();
            assert!(QUEUE.allows(&whole), "{whole:?}");
        }
    }
}
