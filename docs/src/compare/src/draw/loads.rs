//! Random calls that only read the card, mostly such that are answered with 0.

use plain_card::configuration::LENGTH;
use plain_card::Card;

use super::{any_member, any_part_of, length, noisy_name, place, queues_of, spoil_name, Favoured};
use crate::loads::Load;
use crate::memory::Room;
use crate::random::Random;

/// A part, a member, its configuration, or the setup.
pub fn load(random: &mut Random, card: &Card, favoured: Favoured) -> Load {
    match random.weighted(&[60, 15, 15, 10]) {
        0 => part(random, card, favoured),
        1 => Load::Member(any_member(random, card, favoured)),
        2 => {
            let member = any_member(random, card, favoured);
            Load::Configuration { member, room: room(random, LENGTH) }
        }
        _ => {
            let length = random.pick(&[18, 19, 20, 21, 22, 23, 23, 23, 64]);
            Load::Setup(Room { length, place: place(random) })
        }
    }
}

/// A part that the member has, or now and then another.
fn part(random: &mut Random, card: &Card, favoured: Favoured) -> Load {
    let member = any_member(random, card, favoured);
    let part = any_part_of(random, queues_of(card, member));
    let (mut part_type, mut selector) = noisy_name(random, part);
    if random.chance(15) {
        spoil_name(random, &mut part_type, &mut selector);
    }
    let room = room(random, part.length() as usize);
    Load::Part { member, part_type, selector: u64::from_le_bytes(selector), room }
}

/// A buffer of this length, or now and then of another.
fn room(random: &mut Random, right: usize) -> Room {
    let length = if random.chance(15) { length::wrong(random, right) } else { right };
    Room { length, place: place(random) }
}
