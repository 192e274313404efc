//! Lengths of the data of a request, and lengths that a card with too short a
//! number for them would take for others.

use plain_card::frame::{DATA, LONGEST};
use plain_card::opcode::FIXED_MAX;

use crate::random::Random;

/// Lengths are drawn at these and around them.
const POWERS: [usize; 4] = [1 << 8, 1 << 9, 1 << 12, 1 << 16];

/// A wrong length: at a power of two or beside it, or a multiple of it and the
/// valid length, which is what is left if the length is cut.
pub fn wrong(random: &mut Random, valid: usize) -> usize {
    let power = power(random);
    let near = around(random, power);
    if random.chance(30) && near != valid {
        near
    } else {
        multiple(random, power) + valid
    }
}

/// A length for a reply buffer: at a power of two or beside it, or a multiple
/// of it and a few bytes, which are too few if the length is cut.
pub fn long_room(random: &mut Random, need: usize) -> usize {
    let power = power(random);
    match random.below(4) {
        0 => around(random, power),
        1 => 70_000 - random.below(70_000 - power),
        _ => {
            let few = random.pick(&[0, 7, 8, need.saturating_sub(1), need]);
            multiple(random, power).min(1 << 16) + few
        }
    }
}

/// Cuts the data of a request anywhere, more often in its fixed fields, or puts
/// bytes behind it: zeros, any bytes, or zeros and one bit.
pub fn other_data(random: &mut Random, request: &mut Vec<u8>) {
    let data = request.len().saturating_sub(DATA);
    if data > 0 && random.chance(55) {
        let among = if random.chance(70) { data.min(FIXED_MAX) } else { data };
        return request.truncate(DATA + random.below(among));
    }
    let room = LONGEST.saturating_sub(request.len());
    let count = match random.weighted(&[40, 55, 5]) {
        0 => random.pick(&[1, 7, 8, 15, 16, 17]).min(room),
        1 => random.below(40).min(room),
        _ => room,
    };
    let mut more = if random.chance(40) { random.bytes(count) } else { vec![0; count] };
    if count > 0 && random.chance(30) {
        more[random.below(count)] = 1 << random.below(8);
    }
    request.extend(more);
}

/// One of the powers, less often the last.
fn power(random: &mut Random) -> usize {
    POWERS[random.weighted(&[3, 3, 3, 1])]
}

fn around(random: &mut Random, power: usize) -> usize {
    random.pick(&[power - 1, power, power + 1])
}

/// A multiple of the power; low ones are more likely than all others.
fn multiple(random: &mut Random, power: usize) -> usize {
    let most = (2 << 16) / power;
    let times = if random.chance(80) { 1 + random.below(2) } else { 1 + random.below(most) };
    power * times
}

#[cfg(test)]
mod tests {
    use super::*;
    use crate::memory;

    #[test]
    fn data_of_every_length_is_drawn_up_to_past_the_fixed_fields() {
        let mut random = Random::new(1, 0);
        for fixed in [0, 1, 8, 16, 24] {
            let mut drawn = [false; 64];
            for _ in 0..20_000 {
                let mut request = vec![7; DATA + fixed];
                other_data(&mut random, &mut request);
                assert!(request.len() <= LONGEST);
                drawn.iter_mut().skip(request.len() - DATA).take(1).for_each(|seen| *seen = true);
            }
            assert!(drawn[..fixed + 40].iter().all(|seen| *seen), "{fixed}: {drawn:?}");
        }
    }

    #[test]
    fn lengths_can_be_lent_and_differ_from_the_valid_one() {
        let mut random = Random::new(1, 0);
        for _ in 0..10_000 {
            let valid = random.below(4096);
            let length = wrong(&mut random, valid);
            assert_ne!(length, valid);
            assert!(length <= memory::LONGEST);
            assert!(long_room(&mut random, 453) <= 70_000);
        }
    }

    #[test]
    fn cuts_to_8_9_12_and_16_bits_are_drawn() {
        let mut random = Random::new(1, 0);
        let lengths: Vec<usize> = (0..2_000).map(|_| wrong(&mut random, 40)).collect();
        let rooms: Vec<usize> = (0..2_000).map(|_| long_room(&mut random, 453)).collect();
        for bits in [8, 9, 12, 16] {
            let mask = (1 << bits) - 1;
            assert!(lengths.iter().any(|length| *length > mask && length & mask == 40));
            for few in [0, 7, 8] {
                assert!(rooms.iter().any(|room| *room > mask && room & mask == few));
            }
        }
    }
}
