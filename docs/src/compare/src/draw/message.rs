//! Random messages.

use plain_card::configuration::LENGTH;
use plain_card::message::{FIELDS, GET_CONFIG, HEADER, SET_CONFIG};
use plain_card::Card;

use super::{length, member, place, placed, Favoured};
use crate::call::Call;
use crate::memory::Room;
use crate::random::Random;

/// The longest response.
const LONGEST: usize = HEADER + FIELDS + LENGTH;

/// A message: a whole request, or one that is damaged at one place.
pub fn message(random: &mut Random, card: &Card, favoured: Favoured) -> Call {
    let mut message = request(random, card, favoured);
    if random.chance(25) {
        damage(random, card, &mut message);
    }
    let need = plain_card::message(&mut card.clone(), &message, &mut [0; LONGEST]);
    let length = match random.weighted(&[40, 20, 20, 20]) {
        0 => LONGEST + random.below(3),
        1 => need,
        2 => need.saturating_sub(1),
        _ => random.below(31),
    };
    let message = placed(random, message);
    Call::Message { message, room: Room { length, place: place(random) } }
}

/// A whole request for a device that the card has.
fn request(random: &mut Random, card: &Card, favoured: Favoured) -> Vec<u8> {
    let member = member(random, card, favoured);
    let (offset, mut length) = range(random);
    let mut payload = vec![];
    let id = random.pick(&[GET_CONFIG, SET_CONFIG, SET_CONFIG]);
    if id == SET_CONFIG {
        length = match random.chance(98) {
            true => length.min(20),
            false => random.pick(&[4096, 65_514, 65_515]),
        };
        payload.extend(sent_generation(random, card, member).to_le_bytes());
    }
    payload.extend(offset.to_le_bytes());
    payload.extend(length.to_le_bytes());
    if id == SET_CONFIG {
        payload.extend(data(random, card, member, offset, length as usize));
    }
    let reserved = if random.chance(20) { random.byte() & 0xfc } else { 0 };
    let mut message = vec![reserved, id];
    message.extend((member as u16 - 1).to_le_bytes());
    message.extend(random.bytes(2));
    message.extend(((HEADER + payload.len()) as u16).to_le_bytes());
    message.extend(payload);
    message
}

/// The data of a write: any, or what is there.
fn data(random: &mut Random, card: &Card, member: u64, offset: u32, length: usize) -> Vec<u8> {
    let now = card.members.get(member as usize - 1).map(|record| &record.configuration);
    match now.map_or(&[][..], |now| now.read(offset, length as u32)) {
        same @ [_, ..] if random.chance(15) => same.to_vec(),
        _ => random.bytes(length),
    }
}

/// Offset and length: mostly inside the configuration, or at its end, or with a
/// sum past 16 or 32 bits.
fn range(random: &mut Random) -> (u32, u32) {
    let end = LENGTH as u32;
    match random.weighted(&[65, 15, 10, 10]) {
        0 => {
            let offset = random.below(LENGTH) as u32;
            (offset, random.below((end - offset) as usize + 1) as u32)
        }
        1 => (random.below(LENGTH + 3) as u32, random.below(LENGTH + 3) as u32),
        2 => {
            let length = random.below(LENGTH + 1) as u32;
            let power = random.pick(&[1 << 8, 1 << 16, 0u32]);
            (power.wrapping_sub(length), length)
        }
        _ => {
            let any = random.bits() as u32;
            let offset = random.pick(&[0, 1, 12, 0xffff, u32::MAX, any]);
            (offset, random.pick(&[1, 2, 0xffff, 1 << 16, u32::MAX, any]))
        }
    }
}

/// The generation of a write: mostly the member's, or one beside it, or with
/// one bit changed, or any.
fn sent_generation(random: &mut Random, card: &Card, member: u64) -> u32 {
    let now = card.members.get(member as usize - 1);
    let now = now.map_or(0, |record| record.configuration.generation);
    match random.weighted(&[75, 10, 10, 5]) {
        0 => now,
        1 => random.pick(&[now.wrapping_add(1), now.wrapping_sub(1)]),
        2 => now ^ 1 << random.below(32),
        _ => generation(random),
    }
}

/// A generation, more often near 0 or near the last one.
pub fn generation(random: &mut Random) -> u32 {
    let few = random.below(3) as u32;
    match random.below(3) {
        0 => few,
        1 => u32::MAX - few,
        _ => random.bits() as u32,
    }
}

/// Changes one field or the length of a whole request.
fn damage(random: &mut Random, card: &Card, message: &mut Vec<u8>) {
    let size = message.len();
    match random.below(9) {
        0 => message[0] ^= random.pick(&[1, 2, 3]),
        1 => message[1] ^= random.pick(&[1, 2, 3, 0x10, 0x40, 0x80]),
        2 => {
            let members = u16::from(card.setup.members);
            let low = u16::from(message[2]);
            let device = random.pick(&[members, members - 1, low | 0x100, 0xff, 0x8000, u16::MAX]);
            message[2..4].copy_from_slice(&device.to_le_bytes());
        }
        3 => {
            let near = random.pick(&[size + 1, size - 1, size | 0x100, 0, 8, 16, 20]);
            message[6..8].copy_from_slice(&(near as u16).to_le_bytes());
        }
        4 => message.truncate(random.below(size)),
        5 => {
            let more = 1 + random.below(20);
            message.extend(random.bytes(more));
        }
        6 => {
            // The same with the size of what is then there.
            message.resize(random.pick(&[size + 1, size + 4, size - 1, 8, 15, 17, 19]), 0);
            let size = message.len() as u16;
            message[6..8].copy_from_slice(&size.to_le_bytes());
        }
        7 => message.resize(length::wrong(random, size.min(4096)), 0),
        _ => {
            // The length field of a write, its bytes and those behind it.
            let at = 16 + random.below(4);
            if let Some(byte) = message.get_mut(at) {
                *byte ^= 1 << random.below(8);
            }
        }
    }
}

#[cfg(test)]
mod tests {
    use super::*;
    use crate::draw::sound_card;
    use plain_card::message::{Asked, Message};

    /// What becomes of a message: 0 no whole request, 1 the bus outcome, 2 a
    /// response without data, 3 one with data.
    fn outcome(card: &Card, message: &[u8], room: usize) -> usize {
        let mut reply = vec![0; room];
        match plain_card::message(&mut card.clone(), message, &mut reply) {
            0 => usize::from(Message::read(message).is_some()),
            20 => 2,
            _ => 3,
        }
    }

    #[test]
    fn reads_and_writes_have_every_outcome() {
        let mut random = Random::new(1, 0);
        let mut drawn = [[0; 4]; 2];
        for _ in 0..20_000 {
            let card = sound_card(&mut random);
            let favoured = Favoured::draw(&mut random);
            let call = super::message(&mut random, &card, favoured);
            let Call::Message { message, room } = call else { unreachable!() };
            let kind = usize::from(message.get(1) == Some(&SET_CONFIG));
            drawn[kind][outcome(&card, &message, room.length)] += 1;
        }
        assert!(drawn.iter().flatten().all(|count| *count > 500), "{drawn:?}");
    }

    #[test]
    fn every_range_of_the_configuration_is_written() {
        let mut random = Random::new(1, 0);
        let mut written = [[false; LENGTH + 1]; LENGTH + 1];
        for _ in 0..40_000 {
            let card = sound_card(&mut random);
            let favoured = Favoured::draw(&mut random);
            let request = request(&mut random, &card, favoured);
            if let Some(Asked::Write(_, offset, data)) = Message::read(&request).map(|it| it.asked)
            {
                if let Some(seen) = written.get_mut(offset as usize) {
                    seen.iter_mut().skip(data.len()).take(1).for_each(|seen| *seen = true);
                }
            }
        }
        assert!((0..LENGTH).all(|offset| written[offset][..=LENGTH - offset].iter().all(|it| *it)));
    }
}
