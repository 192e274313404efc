//! The card as bytes: a header, then one record for each member.
//!
//! | header | bytes | record | bytes |
//! |---|---|---|---|
//! | N, G, S | 1 each | mode: 0 running, 1 stopped | 1 |
//! | device features | 16 | mark: 0 none, 1 handed back | 1 |
//! | list in use, little-endian | 8 | Q | 1 |
//! | | | objects: 0 free, 1 get, 2 set | 16 |
//! | | | holding place, little-endian: 0 none, k + 1 open with k bytes | 2 |
//! | | | values of the parts for Q = 4, in order | 205 |
//! | | | configuration | 12 |
//! | | | generation, little-endian | 4 |
//! | | | holding place: its bytes | 1,024 |

use crate::card::Card;
use crate::configuration::{self, Configuration};
use crate::frame::{array_at, u16_at, u32_at, u64_at};
use crate::holding::{Holding, ROOM};
use crate::member::{Member, Mode};
use crate::object::{Kind, Objects, IDS};
use crate::part::{inventory, MAX_QUEUES};
use crate::setup::Common;
use crate::values::Values;

/// The length of the header.
pub const HEADER: usize = 27;
/// Where the device features stand in the header.
pub const FEATURES: usize = 3;
/// Where the list in use stands in the header.
pub const IN_USE: usize = FEATURES + 16;
/// The length of a member's record.
pub const RECORD: usize = HOLDING + ROOM;
/// Where the mode stands in a record.
pub const MODE: usize = 0;
/// Where the mark stands in a record.
pub const MARK: usize = MODE + 1;
/// Where the queue count stands in a record.
pub const QUEUES: usize = MARK + 1;
/// Where the objects stand in a record.
pub const OBJECTS: usize = QUEUES + 1;
/// Where it stands in a record whether a holding place is open.
pub const HELD: usize = OBJECTS + IDS;
/// Where the values stand in a record.
pub const VALUES: usize = HELD + 2;
/// Where the configuration stands in a record.
pub const CONFIGURATION: usize = VALUES + 205;
/// Where the generation stands in a record.
pub const GENERATION: usize = CONFIGURATION + configuration::LENGTH;
/// Where the bytes of the holding place stand in a record.
pub const HOLDING: usize = GENERATION + 4;

/// The card that the bytes say, sound or not. Bytes of another length than the
/// header's N asks for, a mode byte or a mark over 1 and an object byte over 2 say
/// none.
pub fn read(bytes: &[u8]) -> Option<Card> {
    let (header, records) = bytes.split_at_checked(HEADER)?;
    let [members, gets, sets] = array_at(header, 0);
    let setup = Common { members, gets, sets, features: array_at(header, FEATURES) };
    if records.len() != RECORD * usize::from(setup.members) {
        return None;
    }
    let members = records.chunks_exact(RECORD).map(read_record).collect::<Option<_>>()?;
    Some(Card { setup, in_use: u64_at(header, IN_USE), members })
}

/// The member that a record says; a byte out of range says none.
pub fn read_record(record: &[u8]) -> Option<Member> {
    Some(Member {
        mode: if read_bit(record[MODE])? { Mode::Stopped } else { Mode::Running },
        marked: read_bit(record[MARK])?,
        queues: record[QUEUES],
        objects: read_objects(&record[OBJECTS..HELD])?,
        values: read_values(&record[VALUES..CONFIGURATION]),
        configuration: Configuration {
            bytes: array_at(record, CONFIGURATION),
            generation: u32_at(record, GENERATION),
        },
        holding: Holding {
            held: u16_at(record, HELD).checked_sub(1),
            room: array_at(record, HOLDING),
        },
    })
}

fn read_bit(byte: u8) -> Option<bool> {
    (byte <= 1).then_some(byte == 1)
}

fn read_objects(bytes: &[u8]) -> Option<Objects> {
    let mut objects = Objects::default();
    for (object, byte) in objects.0.iter_mut().zip(bytes) {
        *object = match byte {
            0 => None,
            1 => Some(Kind::Get),
            2 => Some(Kind::Set),
            _ => return None,
        };
    }
    Some(objects)
}

fn read_values(mut bytes: &[u8]) -> Values {
    let mut values = Values::default();
    for part in inventory(MAX_QUEUES) {
        let (value, rest) = bytes.split_at(part.length() as usize);
        values.get_mut(part).copy_from_slice(value);
        bytes = rest;
    }
    values
}

/// The bytes of a card: what [`read`] turns into the same card.
pub fn write(card: &Card) -> Vec<u8> {
    let mut bytes = vec![];
    write_to(card, &mut bytes);
    bytes
}

/// Writes the bytes of a card behind others.
pub fn write_to(card: &Card, bytes: &mut Vec<u8>) {
    bytes.reserve(HEADER + RECORD * card.members.len());
    let Common { members, gets, sets, features } = &card.setup;
    bytes.extend([members, gets, sets]);
    bytes.extend(features);
    bytes.extend(card.in_use.to_le_bytes());
    for member in &card.members {
        write_record(bytes, member);
    }
}

/// Writes the record of a member behind other bytes.
pub fn write_record(bytes: &mut Vec<u8>, member: &Member) {
    bytes.push((member.mode == Mode::Stopped).into());
    bytes.push(member.marked.into());
    bytes.push(member.queues);
    bytes.extend(member.objects.0.iter().map(|object| match object {
        None => 0,
        Some(Kind::Get) => 1,
        Some(Kind::Set) => 2,
    }));
    let Holding { held, room } = &member.holding;
    bytes.extend(held.map_or(0, |held| held + 1).to_le_bytes());
    for part in inventory(MAX_QUEUES) {
        bytes.extend(member.values.get(part));
    }
    bytes.extend(member.configuration.bytes);
    bytes.extend(member.configuration.generation.to_le_bytes());
    bytes.extend(room);
}
