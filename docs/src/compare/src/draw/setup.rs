//! Random setups: cards made of them, and their bytes written and read.

use plain_card::bytes::{HEADER, RECORD};
use plain_card::exported::card_bytes;
use plain_card::setups;

use super::card::{any_setup, queue_counts, setup_numbers};
use super::{length, place, placed};
use crate::call::Call;
use crate::memory::Room;
use crate::random::Random;

/// Makes a card, of numbers or of bytes, in range or not.
pub fn make(random: &mut Random) -> Call {
    if random.chance(40) {
        return from_bytes(random);
    }
    let Given { numbers, queues, features, mut length } = given(random);
    if random.chance(8) {
        length = other_length(random, length);
    }
    let (queues, features) = (placed(random, queues), placed(random, features));
    Call::Setup { numbers, queues, features, card: Room { length, place: place(random) } }
}

/// Makes a card of the bytes of a setup.
fn from_bytes(random: &mut Random) -> Call {
    let setup = any_setup(random);
    let mut length = card_bytes(setup.common.members.into());
    if random.chance(8) {
        length = other_length(random, length);
    }
    let bytes = packed(random, setups::write(&setup), 25);
    let card = Room { length, place: place(random) };
    Call::SetupFrom { setup: placed(random, bytes), card }
}

/// Writes the bytes of a setup, or reads some.
pub fn pack(random: &mut Random) -> Call {
    if random.chance(40) {
        return write(random);
    }
    let written = setups::write(&any_setup(random));
    let bytes = packed(random, written, 50);
    let mut lengths = [16; 2];
    if random.chance(10) {
        lengths[random.below(2)] = random.pick(&[0, 15, 17, 32, 272]);
    }
    let setup = placed(random, bytes);
    Call::ReadSetup { first: random.chance(50), setup, lengths, place: place(random) }
}

/// Writes the bytes of a setup in a buffer of any length around theirs.
fn write(random: &mut Random) -> Call {
    let Given { numbers, queues, features, .. } = given(random);
    let length = match random.weighted(&[40, 50, 10]) {
        0 => 23 + random.below(4),
        1 => 17 + random.below(7),
        _ => random.below(17),
    };
    let (queues, features) = (placed(random, queues), placed(random, features));
    Call::WriteSetup { numbers, queues, features, room: Room { length, place: place(random) } }
}

/// The numbers of a setup, in range or not, and the length of its card.
struct Given {
    numbers: [u64; 3],
    queues: Vec<u8>,
    features: Vec<u8>,
    length: usize,
}

fn given(random: &mut Random) -> Given {
    let mut numbers = setup_numbers(random);
    let mut queues = queue_counts(random, numbers[0]);
    let mut features = random.bytes(16);
    let length = card_bytes(numbers[0]);
    if random.chance(25) {
        let at = random.below(3);
        match random.below(9) {
            0 => features.truncate(random.below(16)),
            1 => features.push(0),
            2 => features.resize(length::wrong(random, 16), 0),
            3 => numbers[at] |= 1 << (8 + random.below(56)),
            4 => numbers[at] = any_count(random),
            5 => queues.truncate(random.below(queues.len())),
            6 => queues.push(random.pick(&[0, 1, 4])),
            7 => queues.resize(length::wrong(random, queues.len()), 1),
            _ => {
                let member = random.below(queues.len());
                queues[member] = random.pick(&[0, 5, 8, 129, 255]);
            }
        }
    }
    Given { numbers, queues, features, length }
}

/// A number for a setup, in range or not.
pub fn any_count(random: &mut Random) -> u64 {
    match random.below(3) {
        0 => random.below(20) as u64,
        1 => random.pick(&[255, 256, 257, u64::MAX]),
        _ => random.below(20) as u64 | 1 << (8 + random.below(56)),
    }
}

/// Another length for a card.
fn other_length(random: &mut Random, length: usize) -> usize {
    match random.chance(50) {
        true => random.pick(&[0, HEADER, length - 1, length + 1, length + RECORD]),
        false => length::wrong(random, length),
    }
}

/// The bytes of a setup as they are written; as version 2 though all members are
/// alike; or, so often of a hundred, damaged.
pub fn packed(random: &mut Random, mut bytes: Vec<u8>, damaged: usize) -> Vec<u8> {
    if bytes[0] >> 4 == 1 && random.chance(30) {
        bytes = as_version_2(&bytes);
    }
    if random.chance(damaged) {
        damage(random, &mut bytes);
    }
    bytes
}

/// Version 1 written as version 2.
fn as_version_2(bytes: &[u8]) -> Vec<u8> {
    let (members, count) = (usize::from(bytes[0] & 0xf) + 1, bytes[1] >> 6);
    let mut counts = vec![0; members.div_ceil(4)];
    for member in 0..members {
        counts[member / 4] |= count << (6 - 2 * (member % 4));
    }
    [&[0x20 | bytes[0] & 0xf, bytes[1] & 0x3f, bytes[2]], &counts[..], &bytes[3..]].concat()
}

/// Changes bits ahead of the features, the version, a number, or the length.
fn damage(random: &mut Random, bytes: &mut Vec<u8>) {
    let ahead = bytes.len() - 16;
    match random.below(8) {
        0 => bytes[0] ^= (1 + random.below(15) as u8) << 4,
        1 => bytes[0] ^= 1 + random.below(15) as u8,
        2 => bytes[2] ^= 1 << random.below(6),
        3 => bytes[1 + random.below(ahead - 1)] ^= 1 << random.below(8),
        4 => {
            let number = 9 + random.below(7) as u8;
            bytes[1] = bytes[1] & 0xc3 | number << 2;
        }
        5 => bytes.truncate(random.below(bytes.len())),
        6 => {
            let more = 1 + random.below(6);
            bytes.extend(random.bytes(more));
        }
        _ => {
            let length = random.below(40);
            let wrong = if random.chance(50) { length::wrong(random, bytes.len()) } else { length };
            bytes.resize(wrong, 0x20);
        }
    }
}

#[cfg(test)]
mod tests {
    use super::*;
    use std::collections::BTreeSet;

    #[test]
    fn both_versions_are_read_and_refused_by_both_readers() {
        let mut random = Random::new(1, 0);
        let mut drawn = BTreeSet::new();
        for _ in 0..10_000 {
            if let Call::ReadSetup { first, setup, .. } = pack(&mut random) {
                let version = setup.first().map(|byte| byte >> 4).filter(|it| [1, 2].contains(it));
                drawn.insert((version, first, setups::read(&setup).is_ok()));
            }
        }
        // Other versions are only refused.
        assert_eq!(drawn.len(), 2 * 4 + 2);
    }

    #[test]
    fn version_2_with_equal_counts_is_the_same_setup() {
        let mut random = Random::new(1, 0);
        for _ in 0..1_000 {
            let setup = any_setup(&mut random);
            let bytes = setups::write(&setup);
            if bytes[0] >> 4 == 1 {
                assert_eq!(setups::read(&as_version_2(&bytes)), Ok(setup));
            }
        }
    }
}
