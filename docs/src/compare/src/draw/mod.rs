//! Random calls, drawn with the card at hand so that they reach deep states.

mod card;
mod command;
mod difference;
mod host;
mod length;
mod list;
mod loads;
mod message;
mod restore;
mod salvage;
mod setup;
mod spoil;
mod stream;
mod value;

pub use card::{any_bytes, other_record, record, sound_card};
pub use list::{asked, given};
pub use message::generation;
pub use restore::{list_to_restore, set_id};
pub use salvage::call as salvage;
pub use stream::{End, Stream};
pub use value::good as good_value;

use plain_card::opcode::Opcode;
use plain_card::part::{inventory, Part, MAX_QUEUES};
use plain_card::Card;

use crate::call::Call;
use crate::memory::{Buffer, Place};
use crate::random::Random;

/// Members that the calls of a sequence name more often than others, as
/// numbers from 0 that are taken modulo the number of members.
#[derive(Clone, Copy, Debug)]
pub struct Favoured([u64; 2]);

impl Favoured {
    /// Any two, which may be the same.
    pub fn draw(random: &mut Random) -> Favoured {
        Favoured([(); 2].map(|()| random.bits() >> 1))
    }

    /// These two.
    pub fn members(first: u64, second: u64) -> Favoured {
        Favoured([first - 1, second - 1])
    }

    /// One of the two, on a card.
    fn pick(self, random: &mut Random, card: &Card) -> u64 {
        1 + random.pick(&self.0) % u64::from(card.setup.members).max(1)
    }

    /// Whether the member is one of the two, on a card.
    fn has(self, member: u64, card: &Card) -> bool {
        let members = u64::from(card.setup.members).max(1);
        self.0.iter().any(|favoured| 1 + favoured % members == member)
    }
}

/// Where a buffer lies: at any offset, or beside a guard page.
fn place(random: &mut Random) -> Place {
    match random.weighted(&[40, 20, 40]) {
        0 => Place::Offset(random.below(16)),
        1 => Place::AfterPage,
        _ => Place::BeforePage,
    }
}

/// The bytes at a random place.
fn placed(random: &mut Random, bytes: Vec<u8>) -> Buffer {
    Buffer { bytes, place: place(random) }
}

/// The first call of a sequence: a setup, or bytes that are a sound card, or
/// bytes that mostly are not.
pub fn first(random: &mut Random) -> Call {
    match random.weighted(&[35, 45, 20]) {
        0 => setup::make(random),
        1 => {
            let card = plain_card::bytes::write(&sound_card(random));
            Call::Card(placed(random, card))
        }
        _ => {
            let bytes = any_bytes(random);
            Call::Card(placed(random, bytes))
        }
    }
}

/// The next call; `card` is what the bytes say, if they say a card. A sequence
/// does not stay long with a card that is not sound.
pub fn next(random: &mut Random, card: Option<&Card>, sound: bool, favoured: Favoured) -> Call {
    if random.chance(if sound { 1 } else { 30 }) {
        return first(random);
    }
    if random.chance(1) {
        return Call::CardBytes(setup::any_count(random));
    }
    let drawn;
    let card = match card {
        Some(card) => card,
        None => {
            drawn = sound_card(random);
            &drawn
        }
    };
    match random.weighted(&[10, 5, 5, 5, 8, 67]) {
        0 => host::call(random, card, favoured),
        1 => setup::pack(random),
        2 => Call::Lists(difference::call(random)),
        3 => Call::Lists(salvage::call(random)),
        4 => Call::Load(loads::load(random, card, favoured)),
        _ => on_card(random, card, favoured),
    }
}

/// The next command, message, card event or call of a restore on a card.
pub fn on_card(random: &mut Random, card: &Card, favoured: Favoured) -> Call {
    // Without list use nothing but a reset changes the list again.
    let locked = card.in_use & Opcode::ListUse.bit() == 0;
    match random.weighted(&[80, 12, 30, 16, 3, 7, if locked { 20 } else { 1 }]) {
        0 => command::command(random, card, favoured),
        1 => store(random, card, favoured),
        2 => restore::restore(random, card, favoured),
        3 => message::message(random, card, favoured),
        4 => Call::HandBack(any_member(random, card, favoured)),
        5 => {
            let member = member_to_wipe(random, card, favoured);
            Call::Wipe { member, generation: generation(random) }
        }
        _ => Call::ResetCard(generation(random)),
    }
}

/// A card store, mostly one that is done.
fn store(random: &mut Random, card: &Card, favoured: Favoured) -> Call {
    let mut member = member(random, card, favoured);
    let part = any_part_of(random, queues_of(card, member));
    let (mut part_type, mut selector) = noisy_name(random, part);
    let mut value = value::any(random, part);
    if random.chance(30) {
        match random.below(7) {
            0 => member = any_member(random, card, favoured),
            1..=3 => spoil_name(random, &mut part_type, &mut selector),
            4 => value.push(0),
            5 => value.resize(length::wrong(random, value.len()), 0),
            _ => value.truncate(random.below(value.len())),
        }
    }
    let value = placed(random, value);
    Call::Store { member, part_type, selector: u64::from_le_bytes(selector), value }
}

/// Type and selector of a part, now and then with bytes that the type does not
/// use.
fn noisy_name(random: &mut Random, part: Part) -> (u16, [u8; 8]) {
    let mut selector = part.selector();
    if random.chance(20) {
        for byte in crate::part_bytes::unread_selector(part.part_type()) {
            selector[byte] = random.byte();
        }
    }
    (part.part_type(), selector)
}

/// Another type or selector.
fn spoil_name(random: &mut Random, part_type: &mut u16, selector: &mut [u8; 8]) {
    match random.below(3) {
        0 => *part_type = random.pick(&[0x100, 0x106, 0xff, 0x600, 0x101, 0x104]),
        1 => *part_type ^= random.pick(&[0x100, 0x300, 0x400, 0x8000]),
        _ => selector[random.below(8)] = random.byte(),
    }
}

/// The queue count of a member, or one that may be.
fn queues_of(card: &Card, member: u64) -> u8 {
    let record = card.members.get((member as usize).wrapping_sub(1));
    record.map_or(1, |record| record.queues.clamp(1, MAX_QUEUES))
}

/// A part that a member with so many queues has, or now and then one of queues
/// beyond.
fn any_part_of(random: &mut Random, queues: u8) -> Part {
    let queues = if random.chance(5) { MAX_QUEUES } else { queues };
    let parts: Vec<Part> = inventory(queues).collect();
    random.pick(&parts)
}

/// A member of the card, more often a favoured one.
fn member(random: &mut Random, card: &Card, favoured: Favoured) -> u64 {
    if random.chance(60) {
        return favoured.pick(random, card);
    }
    1 + random.below(usize::from(card.setup.members).max(1)) as u64
}

/// A member to wipe: mostly one that is handed back, if there is one.
fn member_to_wipe(random: &mut Random, card: &Card, favoured: Favoured) -> u64 {
    let marked = |member: &u64| card.members[*member as usize - 1].marked;
    let marked: Vec<u64> = (1..).take(card.members.len()).filter(marked).collect();
    match marked.is_empty() || random.chance(20) {
        true => any_member(random, card, favoured),
        false => random.pick(&marked),
    }
}

/// A member field: of the card, beside its ends, or with higher bits set.
fn any_member(random: &mut Random, card: &Card, favoured: Favoured) -> u64 {
    let good = member(random, card, favoured);
    match random.below(12) {
        0 => 0,
        1 => u64::from(card.setup.members) + 1,
        2 => good | 1 << (8 + random.below(56)),
        3 => random.bits(),
        _ => good,
    }
}
