//! Cards that are not sound, taken for sound ones.

use plain_card::bytes::{
    FEATURES, HEADER, HELD, HOLDING, IN_USE, MODE, OBJECTS, QUEUES, RECORD, VALUES,
};
use plain_card::frame::u16_at;
use plain_card::holding::ROOM;
use plain_card::opcode::SUPPORTED;
use plain_card::queue;

use super::{fault, Fault, Plant};

/// The number of an open place that is full.
const MOST: u16 = ROOM as u16 + 1;

pub const FAULTS: &[Fault] = &[
    fault("sound: list bits not looked at", Plant::Repair(list_bits)),
    fault("sound: mode byte over 1 is stopped", Plant::Repair(mode_byte)),
    fault("sound: object byte over 2 is free", Plant::Repair(object_byte)),
    fault("sound: ids from G + S not looked at", Plant::Repair(ids)),
    fault("sound: get objects not counted", Plant::Repair(gets)),
    fault("sound: queue count not looked at", Plant::Repair(queues)),
    fault("is sound: a queue count of 0", Plant::IsSound(no_queues)),
    fault("is sound: count of the last member unread", Plant::IsSound(last_count)),
    fault("sound: member's features not compared", Plant::Repair(features)),
    fault("sound: length held not looked at", Plant::Repair(held)),
    fault("sound: queue sizes not looked at", Plant::Repair(queue_sizes)),
    fault("sound: size of the first queue alone", Plant::Repair(first_queue)),
    fault("sound: bytes behind the last record", Plant::Repair(length)),
    fault("is sound: yes whenever the setup is", Plant::IsSound(setup_alone)),
    fault("is sound: list bits not looked at", Plant::IsSound(list_bits)),
    fault("is sound: mode byte not looked at", Plant::IsSound(mode_byte)),
    fault("is sound: set objects not counted", Plant::IsSound(sets)),
    fault("is sound: length held not looked at", Plant::IsSound(held)),
    fault("is sound: 1,025 bytes held", Plant::IsSound(held_1025)),
    fault("is sound: the bytes held looked at", Plant::IsSound(bytes_held)),
    fault("is sound: queue sizes not looked at", Plant::IsSound(queue_sizes)),
    fault("is sound: size of the first queue alone", Plant::IsSound(first_queue)),
    fault("is sound: queue sizes of member 1 alone", Plant::IsSound(first_member)),
    fault("is sound: queue sizes beyond Q looked at", Plant::IsSound(queues_beyond)),
    fault("is sound: features of member 16 skipped", Plant::IsSound(last_features)),
    fault("is sound: members past the 8th skipped", Plant::IsSound(past_8)),
    fault("is sound: a stopped last member is not", Plant::IsSound(stopped_last)),
];

fn list_bits(card: &mut Vec<u8>) {
    if let Some(list) = card.get_mut(IN_USE..IN_USE + 8) {
        for (byte, supported) in list.iter_mut().zip(SUPPORTED.to_le_bytes()) {
            *byte &= supported;
        }
    }
}

/// The records of a card.
pub fn records(card: &mut [u8]) -> impl Iterator<Item = &mut [u8]> {
    card.get_mut(HEADER..).unwrap_or_default().chunks_exact_mut(RECORD)
}

fn mode_byte(card: &mut Vec<u8>) {
    records(card).for_each(|record| record[MODE] = record[MODE].min(1));
}

fn object_byte(card: &mut Vec<u8>) {
    for record in records(card) {
        for object in record[OBJECTS..HELD].iter_mut().filter(|object| **object > 2) {
            *object = 0;
        }
    }
}

fn ids(card: &mut Vec<u8>) {
    if let [_, gets @ 0..=8, sets @ 0..=8, ..] = card[..] {
        let valid = usize::from(gets + sets);
        records(card).for_each(|record| record[OBJECTS + valid..HELD].fill(0));
    }
}

fn gets(card: &mut Vec<u8>) {
    let limit = usize::from(card.get(1).copied().unwrap_or(0));
    for record in records(card) {
        record[OBJECTS..HELD]
            .iter_mut()
            .filter(|object| **object == 1)
            .skip(limit)
            .for_each(|o| *o = 0);
    }
}

fn sets(card: &mut Vec<u8>) {
    let limit = usize::from(card.get(2).copied().unwrap_or(0));
    for record in records(card) {
        record[OBJECTS..HELD]
            .iter_mut()
            .filter(|object| **object == 2)
            .skip(limit)
            .for_each(|o| *o = 0);
    }
}

/// All of a record but its queue count becomes zero.
fn clear(record: &mut [u8]) {
    let queues = record[QUEUES];
    record.fill(0);
    record[QUEUES] = queues.clamp(1, 4);
}

/// Every record becomes a fresh one.
fn setup_alone(card: &mut Vec<u8>) {
    records(card).for_each(clear);
    features(card);
    list_bits(card);
}

fn last_features(card: &mut Vec<u8>) {
    let Some(features) = card.get(FEATURES..FEATURES + 16).map(<[u8]>::to_vec) else { return };
    if let Some(record) = records(card).nth(15) {
        record[VALUES..VALUES + 16].copy_from_slice(&features);
    }
}

fn past_8(card: &mut Vec<u8>) {
    let Some(features) = card.get(FEATURES..FEATURES + 16).map(<[u8]>::to_vec) else { return };
    for record in records(card).skip(8) {
        clear(record);
        record[VALUES..VALUES + 16].copy_from_slice(&features);
    }
}

fn stopped_last(card: &mut Vec<u8>) {
    if let Some(record) = records(card).last().filter(|record| record[MODE] == 1) {
        record[MODE] = 2;
    }
}

fn held(card: &mut Vec<u8>) {
    for record in records(card).filter(|record| u16_at(record, HELD) > MOST) {
        record[HELD..HELD + 2].copy_from_slice(&MOST.to_le_bytes());
    }
}

fn held_1025(card: &mut Vec<u8>) {
    for record in records(card).filter(|record| u16_at(record, HELD) == MOST + 1) {
        record[HELD..HELD + 2].copy_from_slice(&MOST.to_le_bytes());
    }
}

/// A card with other bytes than zero behind those held counts as not sound.
fn bytes_held(card: &mut Vec<u8>) {
    for record in records(card) {
        let held = usize::from(u16_at(record, HELD)).saturating_sub(1);
        let behind = record.get(HOLDING + held..).unwrap_or_default();
        if behind.iter().any(|byte| *byte != 0) {
            record[MODE] = 2;
        }
    }
}

/// The queues of a record, those beyond Q too.
fn queues_of(record: &mut [u8]) -> impl Iterator<Item = &mut [u8]> {
    record[VALUES + 45..VALUES + 173].chunks_exact_mut(32)
}

/// A queue gets a value that it may have.
fn allow(queue: &mut [u8]) {
    if !queue::allowed(queue) {
        queue.fill(0);
    }
}

fn queue_sizes(card: &mut Vec<u8>) {
    records(card).flat_map(queues_of).for_each(allow);
}

fn first_queue(card: &mut Vec<u8>) {
    records(card).flat_map(|record| queues_of(record).skip(1)).for_each(allow);
}

fn first_member(card: &mut Vec<u8>) {
    records(card).skip(1).flat_map(queues_of).for_each(allow);
}

/// A card with such a size in a queue that no member has counts as not sound.
fn queues_beyond(card: &mut Vec<u8>) {
    for record in records(card) {
        if !queues_of(record).all(|queue| queue::allowed(queue)) {
            record[MODE] = 2;
        }
    }
}

fn queues(card: &mut Vec<u8>) {
    records(card).for_each(|record| record[QUEUES] = record[QUEUES].clamp(1, 4));
}

/// Zero queues count as one.
fn no_queues(card: &mut Vec<u8>) {
    records(card).for_each(|record| record[QUEUES] = record[QUEUES].max(1));
}

/// The queue count of the last member is that of the first.
fn last_count(card: &mut Vec<u8>) {
    let Some(count) = card.get(HEADER + QUEUES).copied() else { return };
    if let Some(record) = records(card).last() {
        record[QUEUES] = count;
    }
}

fn features(card: &mut Vec<u8>) {
    if let Some(features) = card.get(FEATURES..FEATURES + 16).map(<[u8]>::to_vec) {
        records(card).for_each(|record| record[VALUES..VALUES + 16].copy_from_slice(&features));
    }
}

fn length(card: &mut Vec<u8>) {
    if let Some(members) = card.first() {
        card.truncate(HEADER + RECORD * usize::from(*members));
    }
}
