//! Random lists of parts, asked and given.

use plain_card::frame::{DATA, LONGEST};
use plain_card::part::{inventory, Part, HEADER, OPTIONAL};
use plain_card::Card;

use super::value;
use crate::part_bytes::{any_part, part, unread_selector};
use crate::random::Random;

/// How many parts a long list has; the longest request takes 254 without
/// values, or 253 headers.
const LONG: [usize; 15] = [15, 16, 17, 18, 32, 33, 41, 64, 65, 127, 128, 129, 200, 253, 254];

/// Where the list of a parts set starts.
const SET_LIST: usize = DATA + 8;

/// The headers of a parts get, for a member with `queues` queues.
pub fn asked(random: &mut Random, queues: u8) -> Vec<u8> {
    let mut headers: Vec<Vec<u8>> =
        some_parts(random, queues).into_iter().map(|part| part.header().to_vec()).collect();
    if random.chance(25) {
        headers.iter_mut().for_each(|header| add_noise(random, header));
        headers.iter_mut().for_each(|header| header[12..16].fill(0xff));
    }
    if random.chance(25) {
        let bad = match random.below(2) {
            0 if !headers.is_empty() => repeated(random, &headers),
            _ => unknown_part(random, queues, OPTIONAL)[..16].to_vec(),
        };
        insert(random, &mut headers, bad);
    }
    if random.chance(4) {
        headers = many_headers(random, queues);
    }
    headers.concat()
}

/// Many headers: one for each part and then some that make the list bad.
fn many_headers(random: &mut Random, queues: u8) -> Vec<Vec<u8>> {
    let mut headers: Vec<Vec<u8>> = inventory(queues).map(|part| part.header().to_vec()).collect();
    random.shuffle(&mut headers);
    let known = headers.clone();
    for _ in headers.len()..random.pick(&LONG) {
        headers.push(match random.chance(70) {
            true => repeated(random, &known),
            false => unknown_part(random, queues, OPTIONAL)[..HEADER].to_vec(),
        });
    }
    headers
}

/// The parts of a parts set, for a member with `queues` queues: with values of a
/// member, or random ones.
pub fn given(random: &mut Random, card: &Card, queues: u8) -> Vec<u8> {
    let from = random.below(card.members.len().max(1));
    let captured = random.chance(40);
    let mut parts: Vec<Vec<u8>> = some_parts(random, queues)
        .into_iter()
        .map(|name| match card.members.get(from) {
            Some(record) if captured || name == Part::DeviceFeatures => {
                part(name, record.values.get(name))
            }
            _ => value::good_part(random, name),
        })
        .collect();
    if random.chance(25) {
        parts.iter_mut().for_each(|part| add_noise(random, part));
    }
    while random.chance(30) {
        let skipped = unknown_part(random, queues, OPTIONAL);
        insert(random, &mut parts, skipped.clone());
        if random.chance(30) {
            insert(random, &mut parts, skipped);
        }
    }
    if random.chance(5) {
        make_long(random, queues, &mut parts);
    }
    if random.chance(40) {
        make_bad(random, card, queues, &mut parts);
    }
    if random.chance(3) {
        fill_up(random, &mut parts);
    }
    parts.concat()
}

/// Some or all parts that a member has, in any order.
fn some_parts(random: &mut Random, queues: u8) -> Vec<Part> {
    let mut parts: Vec<Part> = inventory(queues).collect();
    if random.chance(25) {
        return parts;
    }
    random.shuffle(&mut parts);
    let length = match random.chance(70) {
        true => random.below(parts.len().min(4) + 1),
        false => random.below(parts.len() + 1),
    };
    parts.truncate(length);
    parts
}

/// Fills what is not read of a known part: flags, reserved, unread selector.
pub fn add_noise(random: &mut Random, part: &mut [u8]) {
    part[2] = random.byte();
    part[3] = random.byte();
    let part_type = u16::from_le_bytes([part[0], part[1]]);
    let (noise, noisy) = (random.bits().to_le_bytes(), random.byte());
    for at in unread_selector(part_type).filter(|at| noisy >> at & 1 == 1) {
        part[4 + at] = noise[at];
    }
}

/// A part that a member with `queues` queues has not got.
pub fn unknown_part(random: &mut Random, queues: u8, flags: u8) -> Vec<u8> {
    let queues = u64::from(queues);
    let (part_type, selector) = match random.below(7) {
        0 => (0x104 + random.below(2) as u16, queues + random.below(3) as u64),
        1 => (0x104 + random.below(2) as u16, random.below(4) as u64 | 1 << (8 + random.below(8))),
        2 => (0x102, random.pick(&[1, 4, 12, 18, 20, 23, 8 | 1 << 16, 16 | 1 << 31])),
        3 => (random.pick(&[0, 0xff, 0x106, 0x1ff, 0x200, 0x5ff]), 0),
        // The low byte is that of a part.
        4 => (random.pick(&[0, 0x200, 0x500]) + random.below(6) as u16, 0),
        _ => (random.below(0x100) as u16, random.bits()),
    };
    let length = random.pick(&[0, 1, 4, 8, 16, 32]);
    any_part(part_type, flags, selector, &random.bytes(length))
}

/// One of the parts again, of a known type if there is one, perhaps under other
/// unread selector bytes.
fn repeated(random: &mut Random, parts: &[Vec<u8>]) -> Vec<u8> {
    let known: Vec<&Vec<u8>> =
        parts.iter().filter(|part| matches!(part[..2], [0..=5, 1])).collect();
    let mut again = match known.is_empty() {
        true => parts[random.below(parts.len())].clone(),
        false => random.pick(&known).clone(),
    };
    if random.chance(40) {
        add_noise(random, &mut again);
    }
    again
}

/// Makes a given list bad in one way.
pub fn make_bad(random: &mut Random, card: &Card, queues: u8, parts: &mut Vec<Vec<u8>>) {
    if parts.is_empty() || random.chance(15) {
        let flags = random.pick(&[0, 0, 2, 0xfe]);
        let mandatory = unknown_part(random, queues, flags);
        return insert(random, parts, mandatory);
    }
    let at = random.below(parts.len());
    let value = parts[at].len() - 16;
    match random.below(10) {
        0 => {
            let again = repeated(random, parts);
            insert(random, parts, again);
        }
        1 => {
            // Another length, with as many value bytes.
            let cut = value + 256 * (1 + random.below(4));
            let given = random.pick(&[0, value.saturating_sub(1), value + 1, 16, 40, cut, cut]);
            parts[at].resize(16 + given, 0);
            parts[at][12..16].copy_from_slice(&(given as u32).to_le_bytes());
        }
        2 => parts[at][12 + random.below(4)] ^= 1 << random.below(8),
        3 => {
            let part_type = random.pick(&[0x600, 0x601, 0x700, 0xffff]);
            let reserved = any_part(part_type, OPTIONAL, 0, &[]);
            insert(random, parts, reserved);
        }
        4 => {
            let mut features = card.setup.features;
            features[random.below(16)] ^= 1 << random.below(8);
            insert(random, parts, part(Part::DeviceFeatures, &features));
        }
        5 => parts.push(vec![0; 1 + random.below(15)]),
        6 | 7 => {
            let queue = Part::Queue(random.below(queues.into()) as u8);
            let value = value::bad_queue(random);
            insert(random, parts, part(queue, &value));
        }
        8 => {
            let last = parts.len() - 1;
            let cut = random.below(parts[last].len());
            parts[last].truncate(cut);
        }
        _ => {
            // A length whose sum with the position passes 16 or 32 bits.
            let mut skipped = any_part(0x200, OPTIONAL, 0, &[]);
            let back = random.below(100) as u32;
            let length = random.pick(&[u32::MAX - back, 0x1_0000, 0x8000_0000]);
            skipped[12..16].copy_from_slice(&length.to_le_bytes());
            insert(random, parts, skipped);
        }
    }
}

/// Brings a given list to many parts by some that are skipped. Parts that leave
/// no room for them go.
fn make_long(random: &mut Random, queues: u8, parts: &mut Vec<Vec<u8>>) {
    let count = random.pick(&LONG);
    let room = LONGEST - SET_LIST;
    let fits = |parts: &[Vec<u8>]| {
        let skipped = HEADER * count.saturating_sub(parts.len());
        skipped + parts.iter().map(Vec::len).sum::<usize>() <= room
    };
    while !fits(parts) {
        parts.pop();
    }
    while parts.len() < count {
        let mut skipped = unknown_part(random, queues, OPTIONAL);
        skipped.truncate(HEADER);
        skipped[12..].fill(0);
        insert(random, parts, skipped);
    }
}

/// Brings the request to the longest length, or one byte beyond.
fn fill_up(random: &mut Random, parts: &mut Vec<Vec<u8>>) {
    let length = SET_LIST + parts.iter().map(Vec::len).sum::<usize>();
    let target = random.pick(&[4095, 4096, 4097]);
    if length + 16 <= target {
        parts.push(any_part(0x5ff, OPTIONAL, 0, &vec![0; target - length - 16]));
    }
}

/// Puts a part anywhere among the others.
pub fn insert(random: &mut Random, parts: &mut Vec<Vec<u8>>, part: Vec<u8>) {
    let at = random.below(parts.len() + 1);
    parts.insert(at, part);
}

#[cfg(test)]
mod tests {
    use super::*;
    use crate::draw::sound_card;
    use plain_card::list;
    use plain_card::member::Member;

    #[test]
    fn long_lists_of_every_length_are_drawn_and_some_are_good() {
        let mut random = Random::new(1, 0);
        let mut good = [false; LONG.len()];
        for _ in 0..20_000 {
            let Member { values, queues, .. } = sound_card(&mut random).members[0].clone();
            let mut parts = vec![];
            make_long(&mut random, queues, &mut parts);
            assert!(list::given(&parts.concat(), &values, queues).is_ok());
            good[LONG.iter().position(|count| *count == parts.len()).unwrap()] = true;
            if good == [true; LONG.len()] {
                return;
            }
        }
        panic!("not drawn: {good:?}");
    }

    #[test]
    fn long_lists_hold_known_parts_behind_many_others() {
        let mut random = Random::new(1, 0);
        let status = part(Part::DeviceStatus, &[7]);
        let behind_128 = (0..1_000).any(|_| {
            let mut parts = vec![status.clone()];
            make_long(&mut random, 2, &mut parts);
            parts.iter().position(|part| *part == status).is_some_and(|at| at > 128)
        });
        assert!(behind_128);
    }

    #[test]
    fn many_headers_start_with_every_part() {
        let mut random = Random::new(1, 0);
        for _ in 0..200 {
            let queues = 1 + random.below(4) as u8;
            let headers = many_headers(&mut random, queues);
            let count = inventory(queues).count();
            assert!(list::asked(&headers[..count].concat(), queues).is_ok());
            assert_eq!(list::asked(&headers.concat(), queues).is_ok(), headers.len() == count);
        }
    }
}
