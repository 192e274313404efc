//! Random pairs of a full capture and a later list, under a setup.

use plain_card::part::{inventory, Part, MAX_QUEUES, OPTIONAL};
use plain_card::{setups, Card, Setup};

use super::card::any_setup;
use super::list::{add_noise, insert, make_bad, unknown_part};
use super::{list, noisy_name, place, placed, setup, spoil_name, value};
use crate::lists::{Asked, OnLists};
use crate::memory::{Buffer, Room};
use crate::part_bytes::{any_part, part, put_in};
use crate::random::Random;

/// A part looked up in a pair, or one list made of it.
pub fn call(random: &mut Random) -> OnLists {
    let setup = any_setup(random);
    let member = any_member(random, &setup);
    let queues = setup.queues_of(member).unwrap_or(1);
    let lists = pair(random, &setup, queues);
    let asked = match random.chance(50) {
        true => find(random, queues, lists),
        false => Asked::Merge { lists, room: room(random, 157 + 72 * usize::from(queues)) },
    };
    OnLists { setup: packed(random, &setup), member, asked }
}

/// The bytes of a setup, seldom damaged.
pub fn packed(random: &mut Random, setup: &Setup) -> Buffer {
    let bytes = setup::packed(random, setups::write(setup), 6);
    placed(random, bytes)
}

/// A member of the setup, or now and then a number beside its ends or with
/// higher bits set.
pub fn any_member(random: &mut Random, setup: &Setup) -> u64 {
    let members = u64::from(setup.common.members);
    let good = 1 + random.below(members as usize) as u64;
    match random.below(40) {
        0 => 0,
        1 => members + 1,
        2 => good | 1 << (8 + random.below(56)),
        3 => random.pick(&[(1 << 32) + 1, u64::MAX]),
        _ => good,
    }
}

/// A buffer of the length that is needed, or of one around it.
pub fn room(random: &mut Random, need: usize) -> Room {
    let length = match random.weighted(&[40, 30, 20, 10]) {
        0 => need,
        1 => need + 1 + random.below(200),
        2 => need - 1 - random.below(8),
        _ => random.below(need),
    };
    Room { length, place: place(random) }
}

/// A card of the setup with any values.
pub fn card(random: &mut Random, setup: &Setup) -> Card {
    let mut card = Card::new(setup);
    for record in &mut card.members {
        for part in inventory(MAX_QUEUES).filter(|part| *part != Part::DeviceFeatures) {
            value::fill(random, part, record.values.get_mut(part));
        }
    }
    card
}

/// A full capture and a later list, mostly good.
fn pair(random: &mut Random, setup: &Setup, queues: u8) -> [Buffer; 2] {
    let card = card(random, setup);
    let full = full(random, &card, queues);
    let mut later = list::given(random, &card, queues);
    if random.chance(3) {
        make_longer(random, &mut later);
    }
    [placed(random, full), placed(random, later)]
}

/// A capture of all parts, in any order and among parts that are skipped; or one
/// of a member with other queues, one that lacks a part, or a bad one.
pub fn full(random: &mut Random, card: &Card, queues: u8) -> Vec<u8> {
    let count = if random.chance(6) { 1 + random.below(4) as u8 } else { queues };
    let from = random.below(card.members.len());
    let values = &card.members[from].values;
    let mut parts: Vec<Vec<u8>> =
        inventory(count).map(|name| part(name, values.get(name))).collect();
    if random.chance(30) {
        random.shuffle(&mut parts);
    }
    if random.chance(30) {
        parts.iter_mut().for_each(|part| add_noise(random, part));
    }
    if random.chance(12) {
        let lacking = random.below(parts.len());
        parts.remove(lacking);
    }
    while random.chance(20) {
        let skipped = unknown_part(random, queues, OPTIONAL);
        insert(random, &mut parts, skipped);
    }
    if random.chance(10) {
        make_bad(random, card, queues, &mut parts);
    }
    let mut list = parts.concat();
    if random.chance(3) {
        make_longer(random, &mut list);
    }
    list
}

/// Brings a list to over 4,064 or 65,536 bytes by a part that is skipped.
fn make_longer(random: &mut Random, list: &mut Vec<u8>) {
    let over = if random.chance(80) { [4_049, 5_000] } else { [65_520, 70_000] };
    let length = random.pick(&over);
    let skipped = any_part(0x5ff, OPTIONAL, 0, &vec![0; length]);
    let at = if random.chance(50) { 0 } else { list.len() };
    put_in(list, at, &skipped);
}

/// A part looked up: of the inventory, or now and then outside it.
fn find(random: &mut Random, queues: u8, lists: [Buffer; 2]) -> Asked {
    let part = super::any_part_of(random, queues);
    let (mut part_type, mut selector) = noisy_name(random, part);
    if random.chance(15) {
        spoil_name(random, &mut part_type, &mut selector);
    }
    Asked::Find { lists, part_type, selector: u64::from_le_bytes(selector) }
}

#[cfg(test)]
mod tests {
    use super::*;
    use crate::call::Call;
    use crate::device::Plain;
    use std::collections::BTreeSet;

    /// Every answer of both calls is drawn, and values of both lists are found.
    #[test]
    fn every_refusal_is_drawn() {
        let mut random = Random::new(1, 0);
        let mut drawn = BTreeSet::new();
        for _ in 0..4_000 {
            let call = call(&mut random);
            let found = matches!(call.asked, Asked::Find { .. });
            let mut reply = vec![0; call.room().length];
            let answer = Plain::default().hear(&Call::Lists(call), &mut reply) % 256;
            drawn.insert((found, answer, found && reply[0] == 1));
        }
        assert_eq!(drawn.len(), 7 + 6, "{drawn:?}");
    }
}
