//! Random damaged captures to salvage, under a setup.

use plain_card::list::LONGEST;
use plain_card::part::{inventory, Part};
use plain_card::Card;

use super::card::any_setup;
use super::difference::{any_member, card, full, packed, room};
use super::{list, placed, value};
use crate::lists::{Asked, OnLists};
use crate::part_bytes::{part, put_in};
use crate::random::Random;

/// A damaged capture to salvage.
pub fn call(random: &mut Random) -> OnLists {
    let setup = any_setup(random);
    let member = any_member(random, &setup);
    let queues = setup.queues_of(member).unwrap_or(1);
    let card = card(random, &setup);
    let mut damaged = match random.chance(80) {
        true => full(random, &card, queues),
        false => list::given(random, &card, queues),
    };
    damaged.truncate(LONGEST);
    while random.chance(60) {
        damage(random, &card, queues, &mut damaged);
    }
    if random.chance(6) {
        let length = random.pick(&[LONGEST - 1, LONGEST, LONGEST + 1, 4_096, 66_000]);
        damaged.resize(length, 0);
    }
    let parts = 7 + 2 * usize::from(queues);
    let mut report = [parts, 4];
    if random.chance(15) {
        let more = 1 + random.below(8);
        report = random.pick(&[[parts + more, 4], [parts, 4 + more], [parts - 1, 4], [parts, 3]]);
    }
    let room = room(random, 157 + 72 * usize::from(queues));
    let damaged = placed(random, damaged);
    OnLists {
        setup: packed(random, &setup),
        member,
        asked: Asked::Salvage { damaged, room, report },
    }
}

/// Damages a list in one way: bytes flipped, the end or a piece cut off, a piece
/// doubled, bytes or parts of another list put in.
fn damage(random: &mut Random, card: &Card, queues: u8, list: &mut Vec<u8>) {
    let at = random.below(list.len() + 1);
    let piece = at..(at + random.below(60)).min(list.len());
    match random.below(9) {
        0 | 1 => {
            if let Some(byte) = list.get_mut(at) {
                *byte ^= 1 << random.below(8);
            }
        }
        2 => list.truncate(at),
        3 => drop(list.drain(piece)),
        4 => {
            let double = list[piece].to_vec();
            put_in(list, at, &double);
        }
        5 => {
            let count = 1 + random.below(20);
            let noise = random.bytes(count);
            put_in(list, at, &noise);
        }
        6 => {
            let again = full(random, card, queues);
            list.extend(&again[..random.below(again.len() + 1)]);
        }
        7 => put_in(list, 0, &full(random, card, queues)),
        _ => {
            let parts: Vec<Part> = inventory(queues).collect();
            let part = another(random, &parts);
            let at = if random.chance(50) { 0 } else { list.len() };
            put_in(list, at, &part);
        }
    }
}

/// A part of these with a value that is good, bad or of another length.
fn another(random: &mut Random, parts: &[Part]) -> Vec<u8> {
    let name = random.pick(parts);
    let mut value = value::good(random, name);
    match random.below(3) {
        0 => value.truncate(random.below(value.len())),
        1 if matches!(name, Part::Queue(_)) => value = value::bad_queue(random),
        _ => {}
    }
    let mut part = part(name, &value);
    part[12..16].copy_from_slice(&(value.len() as u32).to_le_bytes());
    part
}

#[cfg(test)]
mod tests {
    use super::*;
    use plain_card::salvage::salvage;
    use plain_card::setups;

    #[test]
    fn every_cause_is_drawn_and_torn_ends_and_whole_lists() {
        let mut random = Random::new(1, 0);
        let mut causes = [0; 4];
        let (mut torn, mut whole, mut refused) = (0, 0, 0);
        for _ in 0..2_000 {
            let OnLists { setup, member, asked } = call(&mut random);
            let Asked::Salvage { damaged, .. } = asked else { unreachable!("it is to salvage") };
            let setup = setups::read(&setup).ok();
            let Some(told) = setup.and_then(|setup| salvage(&setup, member, &damaged)) else {
                refused += 1;
                continue;
            };
            causes.iter_mut().zip(told.dropped).for_each(|(all, count)| *all += count);
            torn += usize::from(told.left > 0);
            whole += usize::from(told.left == 0 && told.dropped == [0; 4]);
        }
        assert!(causes.iter().all(|count| *count > 50), "{causes:?}");
        assert!(torn > 200 && whole > 100 && refused > 50, "{torn} {whole} {refused}");
    }
}
