//! Requests, lists and cards for the tests.

#![allow(dead_code)]

use plain_card::{command, Card, Setup};

pub const LIST_QUERY: u16 = 0x00;
pub const LIST_USE: u16 = 0x01;
pub const CREATE: u16 = 0x0a;
pub const MODIFY: u16 = 0x0b;
pub const QUERY: u16 = 0x0c;
pub const DESTROY: u16 = 0x0d;
pub const METADATA: u16 = 0x0e;
pub const PARTS_GET: u16 = 0x0f;
pub const PARTS_SET: u16 = 0x10;
pub const MODE_SET: u16 = 0x11;

pub const ALL: u64 = 0x3FC03;
pub const GET: u8 = 0;
pub const SET: u8 = 1;
pub const OK: (u16, u16) = (0, 0);

/// What a reply buffer holds before the call.
pub const PATTERN: u8 = 0xa5;

/// The card of the worked examples: N=2, Q=1, G=1, S=1, features all zero.
pub fn fresh() -> Card {
    card(2, 1, 1, 1)
}

pub fn card(members: u64, queues: u8, gets: u64, sets: u64) -> Card {
    Card::new(&Setup::alike(members, queues, gets, sets, [0; 16]).unwrap())
}

/// A card with all commands in use.
pub fn all_used(mut card: Card) -> Card {
    assert_eq!(status(&mut card, &request(LIST_USE, 0, &ALL.to_le_bytes())), OK);
    card
}

/// All used, with get object 0 and set object 1 live on member 1.
pub fn with_objects(card: Card) -> Card {
    let mut card = all_used(card);
    assert_eq!(status(&mut card, &create(0, GET)), OK);
    assert_eq!(status(&mut card, &create(1, SET)), OK);
    card
}

/// As [`with_objects`], with member 1 stopped.
pub fn stopped(card: Card) -> Card {
    let mut card = with_objects(card);
    assert_eq!(status(&mut card, &request(MODE_SET, 1, &[1])), OK);
    card
}

pub fn request(opcode: u16, member: u64, data: &[u8]) -> Vec<u8> {
    request_of_group(1, opcode, member, data)
}

pub fn request_of_group(group: u16, opcode: u16, member: u64, data: &[u8]) -> Vec<u8> {
    let mut request = Vec::new();
    request.extend(opcode.to_le_bytes());
    request.extend(group.to_le_bytes());
    request.extend([0; 12]);
    request.extend(member.to_le_bytes());
    request.extend(data);
    request
}

/// The object header: type 0, reserved, id.
pub fn object(id: u32) -> Vec<u8> {
    [vec![0; 4], id.to_le_bytes().to_vec()].concat()
}

/// The data of create and modify.
pub fn object_of_kind(id: u32, kind: u8) -> Vec<u8> {
    [object(id), vec![0; 8], vec![kind], vec![0; 7]].concat()
}

/// The data of query.
pub fn object_and_flags(id: u32) -> Vec<u8> {
    [object(id), vec![0; 8]].concat()
}

/// The data of metadata and of parts get without headers.
pub fn object_and_type(id: u32, type_byte: u8) -> Vec<u8> {
    [object(id), vec![type_byte], vec![0; 7]].concat()
}

pub fn create(id: u32, kind: u8) -> Vec<u8> {
    request(CREATE, 1, &object_of_kind(id, kind))
}

pub fn modify(id: u32, kind: u8) -> Vec<u8> {
    request(MODIFY, 1, &object_of_kind(id, kind))
}

pub fn destroy(id: u32) -> Vec<u8> {
    request(DESTROY, 1, &object(id))
}

pub fn metadata(type_byte: u8) -> Vec<u8> {
    request(METADATA, 1, &object_and_type(0, type_byte))
}

pub fn get_all() -> Vec<u8> {
    request(PARTS_GET, 1, &object_and_type(0, 1))
}

/// Parts get of selected headers, through object 0.
pub fn get(headers: &[Vec<u8>]) -> Vec<u8> {
    request(PARTS_GET, 1, &[object_and_type(0, 0), headers.concat()].concat())
}

/// Parts set through object 1.
pub fn set(parts: &[Vec<u8>]) -> Vec<u8> {
    request(PARTS_SET, 1, &[object(1), parts.concat()].concat())
}

/// A part's header with flags 0.
pub fn header(part_type: u16, selector: u64, length: u32) -> Vec<u8> {
    let mut header = Vec::new();
    header.extend(part_type.to_le_bytes());
    header.extend([0, 0]);
    header.extend(selector.to_le_bytes());
    header.extend(length.to_le_bytes());
    header
}

/// A part with flags 0.
pub fn part(part_type: u16, selector: u64, value: &[u8]) -> Vec<u8> {
    [header(part_type, selector, value.len() as u32), value.to_vec()].concat()
}

/// The value of a queue part: a size, and all other bytes the same.
pub fn queue(size: u16, other: u8) -> [u8; 32] {
    let mut value = [other; 32];
    value[..2].copy_from_slice(&size.to_le_bytes());
    value
}

/// The same part with these flags.
pub fn flagged(flags: u8, mut part: Vec<u8>) -> Vec<u8> {
    part[2] = flags;
    part
}

/// The bytes written to a buffer of `room` bytes; the rest has to stand.
pub fn reply_in(card: &mut Card, request: &[u8], room: usize) -> Vec<u8> {
    let before = card.clone();
    let mut reply = vec![PATTERN; room];
    let written = command(card, request, &mut reply);
    assert!(reply[written..].iter().all(|byte| *byte == PATTERN));
    let refused = written == 0 || reply[..4] != [0; 4];
    assert!(!refused || (written <= 8 && *card == before), "a refusal changes nothing");
    assert!(!before.is_sound() || card.is_sound(), "a sound card stays sound");
    reply.truncate(written);
    reply
}

/// The bytes written to a buffer that is long enough.
pub fn reply(card: &mut Card, request: &[u8]) -> Vec<u8> {
    reply_in(card, request, 1000)
}

/// Status and qualifier.
pub fn status(card: &mut Card, request: &[u8]) -> (u16, u16) {
    status_in(card, request, 1000)
}

pub fn status_in(card: &mut Card, request: &[u8], room: usize) -> (u16, u16) {
    let reply = reply_in(card, request, room);
    let number = |at| u16::from_le_bytes([reply[at], reply[at + 1]]);
    assert_eq!(reply[4..8], [0; 4]);
    (number(0), number(2))
}
