//! Random setups and cards.

use plain_card::bytes::{
    self, FEATURES, HEADER, HELD, HOLDING, IN_USE, MARK, MODE, OBJECTS, QUEUES, RECORD, VALUES,
};
use plain_card::holding::ROOM;
use plain_card::member::{Member, Mode};
use plain_card::object::{Kind, IDS};
use plain_card::opcode::SUPPORTED;
use plain_card::part::{inventory, Part, MAX_QUEUES};
use plain_card::setup::Common;
use plain_card::{Card, Setup};

use super::restore::{self, Target};
use super::{generation, length, value};
use crate::random::Random;

/// Where the queues stand among the values of a record.
const FIRST_QUEUE: usize = 45;

/// The numbers N, G and S of a setup in range, more often at an end of it.
pub fn setup_numbers(random: &mut Random) -> [u64; 3] {
    let members = match random.weighted(&[92, 2, 6]) {
        0 => random.pick(&[1, 1, 2, 2, 2, 3]),
        1 => 16,
        _ => 1 + random.below(16) as u64,
    };
    let objects = [0, 1, 1, 2, 3, 5, 8];
    [members, random.pick(&objects), random.pick(&objects)]
}

/// A queue count for each member: the same for all, or for all but one, or
/// any.
pub fn queue_counts(random: &mut Random, members: u64) -> Vec<u8> {
    let mut counts = vec![1 + random.below(4) as u8; members as usize];
    match random.below(3) {
        0 => {}
        1 => counts[random.below(members as usize)] = 1 + random.below(4) as u8,
        _ => counts.iter_mut().for_each(|count| *count = 1 + random.below(4) as u8),
    }
    counts
}

/// A setup in range.
pub fn any_setup(random: &mut Random) -> Setup {
    let [members, gets, sets] = setup_numbers(random);
    let queues = queue_counts(random, members);
    let features = random.bytes(16).try_into().expect("there are 16 bytes");
    Setup::new(members, &queues, gets, sets, features).expect("it is in range")
}

/// A sound card in any state.
pub fn sound_card(random: &mut Random) -> Card {
    let mut card = Card::new(&any_setup(random));
    card.in_use = match random.weighted(&[70, 15, 10, 5]) {
        0 => SUPPORTED,
        1 => random.bits() & SUPPORTED | 0b11,
        2 => random.bits() & SUPPORTED,
        _ => 0,
    };
    for member in 0..card.members.len() {
        card.members[member] = other_record(random, &card.setup, card.members[member].queues);
    }
    card
}

/// A record with so many queues that may stand in a sound card of this setup.
pub fn other_record(random: &mut Random, setup: &Common, queues: u8) -> Member {
    let marked = random.chance(12);
    record(random, setup, queues, marked)
}

/// The same with this mark.
pub fn record(random: &mut Random, setup: &Common, queues: u8, marked: bool) -> Member {
    let mut member = Member::fresh(setup, queues, 0);
    if random.chance(50) {
        member.mode = Mode::Stopped;
    }
    let mut ids: Vec<u32> = (0..u32::from(setup.gets) + u32::from(setup.sets)).collect();
    random.shuffle(&mut ids);
    let room = [(Kind::Get, usize::from(setup.gets)), (Kind::Set, usize::from(setup.sets))];
    for (kind, limit) in room {
        let count = if random.chance(40) { limit } else { random.below(limit + 1) };
        for id in ids.drain(..count) {
            member.objects.put(id, kind);
        }
    }
    if random.chance(30) {
        member.holding = restore::holding(random, Target { queues, features: &setup.features });
    }
    if marked {
        // What stands in the room of no holding place is not looked at.
        let room = member.holding.room;
        member.hand_back();
        member.holding.room = if random.chance(30) { room } else { [0; ROOM] };
    }
    if random.chance(70) {
        random.fill(&mut member.configuration.bytes);
        member.configuration.generation = generation(random);
    }
    for part in inventory(MAX_QUEUES).filter(|part| *part != Part::DeviceFeatures) {
        if random.chance(50) {
            let value = member.values.get_mut(part);
            match part {
                // No part of the member: soundness does not look at it.
                Part::Queue(index) if index >= queues => {
                    value.copy_from_slice(&value::any(random, part));
                }
                _ => value::fill(random, part, value),
            }
        }
    }
    member
}

/// Bytes as a card: a sound card with one rule of soundness broken or a few
/// bytes changed, one of a wrong length or number of members, or random bytes.
pub fn any_bytes(random: &mut Random) -> Vec<u8> {
    let mut card = bytes::write(&sound_card(random));
    match random.weighted(&[50, 15, 15, 12, 8]) {
        0 => break_rule(random, &mut card),
        1 => {
            for _ in 0..1 + random.below(3) {
                let at = any_place(random, card.len());
                card[at] = random.byte();
            }
        }
        2 => change_length(random, &mut card),
        3 => card = fresh_bytes(random.below(20)),
        _ => {
            let members = random.below(4);
            card = random.bytes(HEADER + RECORD * members);
            card[0] = members as u8;
        }
    }
    card
}

/// A byte of a card, more often one of the header and the fields of a record
/// than one of the bytes of a holding place.
fn any_place(random: &mut Random, length: usize) -> usize {
    let at = random.below(length);
    match at.checked_sub(HEADER) {
        Some(at) if random.chance(80) => HEADER + at / RECORD * RECORD + at % RECORD % HOLDING,
        _ => at,
    }
}

/// Breaks one rule of soundness, if the setup leaves room for it; of a record
/// more often in the last one.
fn break_rule(random: &mut Random, card: &mut [u8]) {
    let last = (card.len() - HEADER) / RECORD - 1;
    let member = if random.chance(40) { last } else { random.below(last + 1) };
    let record = HEADER + RECORD * member;
    let [mode, mark, count, objects, held, features] =
        [MODE, MARK, QUEUES, OBJECTS, HELD, VALUES].map(|at| record + at);
    let queues = usize::from(card[count]);
    let valid = usize::from(card[1] + card[2]);
    match random.below(16) {
        0 => card[count] = random.pick(&[0, 5, 255]),
        1 => card[1 + random.below(2)] = random.pick(&[9, 16, 255]),
        2 => card[FEATURES + random.below(16)] ^= 1 << random.below(8),
        3 => card[IN_USE + random.below(8)] |= 1 << random.below(8),
        4 => card[mode] = random.pick(&[2, 3, 128, 255]),
        5 => card[objects + random.below(IDS)] = random.pick(&[3, 4, 128, 255]),
        6 => card[objects + valid.min(IDS - 1)..held].fill(1 + random.byte() % 2),
        7 => card[objects..objects + valid].fill(1 + random.byte() % 2),
        8 => {
            let number: u16 = random.pick(&[1026, 1027, 1280, 2049, 0x8000, 0xffff]);
            card[held..held + 2].copy_from_slice(&number.to_le_bytes());
        }
        9 => card[features + random.below(16)] ^= 1 << random.below(8),
        10 => card[mark] = random.pick(&[2, 3, 128, 255]),
        11..=13 => {
            // Marked, and not let go in one way.
            card[mode] = 1;
            card[mark] = 1;
            card[objects..features].fill(0);
            match random.below(3) {
                0 => card[mode] = 0,
                1 if valid > 0 => card[objects + random.below(valid)] = 1 + random.byte() % 2,
                _ => card[held] = random.pick(&[1, 1, 2, 200]),
            }
        }
        _ => {
            let queue = features + FIRST_QUEUE + 32 * random.below(queues);
            card[queue..queue + 32].copy_from_slice(&value::bad_queue(random));
        }
    }
}

fn change_length(random: &mut Random, card: &mut Vec<u8>) {
    let length = card.len();
    let lengths = [0, 4, HEADER - 1, HEADER, length - 1, length + 1];
    let wrong = match random.below(4) {
        0 => length - RECORD,
        1 => length + RECORD,
        2 => length::wrong(random, length),
        _ => random.pick(&lengths),
    };
    card.resize(wrong, 0);
}

/// Any number of fresh members; they are a sound card from 1 to 16.
fn fresh_bytes(members: usize) -> Vec<u8> {
    let setup = Setup::alike(1, 1, 1, 1, [0; 16]).expect("it is in range");
    let card = bytes::write(&Card::new(&setup));
    let (header, record) = card.split_at(HEADER);
    [&[members as u8], &header[1..], &record.repeat(members)].concat()
}
