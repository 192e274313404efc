//! Lengths and other numbers held in too few bits, and limits that document 01
//! has not.

use plain_card::frame::DATA;
use plain_card::opcode::Opcode;
use plain_card::operation::Operation;
use plain_card::part::HEADER;
use plain_card::status::Refusal;
use plain_card::Card;

use super::tools::{each_part, framed, given, list_start, named, operation, parts, queues};
use super::{fault, Fault, Plant};
use crate::call::Call;

/// The headers of a get beyond these make no difference: a member has at most
/// 15 parts, so a list of 16 headers is bad already.
const HEADERS_READ: usize = 15;

pub const FAULTS: &[Fault] = &[
    fault("length: request cut to 12 bits", Plant::Replace(|call| cut_request(call, 12))),
    fault("length: request cut to 16 bits", Plant::Replace(|call| cut_request(call, 16))),
    fault("length: reply buffer cut to 8 bits", Plant::Replace(|call| cut_reply(call, 8))),
    fault("length: reply buffer cut to 9 bits", Plant::Replace(|call| cut_reply(call, 9))),
    fault("length: reply buffer cut to 16 bits", Plant::Replace(|call| cut_reply(call, 16))),
    fault("length: stored value cut to 8 bits", Plant::Replace(|call| cut_value(call, 8))),
    fault("length: stored value cut to 16 bits", Plant::Replace(|call| cut_value(call, 16))),
    fault("length: features cut to 8 bits", Plant::Replace(|call| cut_features(call, 8))),
    fault("length: features cut to 16 bits", Plant::Replace(|call| cut_features(call, 16))),
    fault("length: card is sound, cut to 12 bits", Plant::IsSound(|card| cut(card, 12))),
    fault("length: card is sound, cut to 16 bits", Plant::IsSound(|card| cut(card, 16))),
    fault("length: set of over 40 parts refused", Plant::Refuse(over_40_parts)),
    fault("length: set of over 4,000 bytes refused", Plant::Refuse(over_4000_bytes)),
    fault("length: parts past the 128th not set", Plant::Mishear(past_128)),
    fault("length: repeats past the 32nd missed", Plant::Mishear(repeats_past_32)),
    fault("length: asked headers past the 15th unread", Plant::Mishear(headers_unread)),
    fault("numbers: part length compared in 8 bits", Plant::Mishear(part_cut)),
    fault("numbers: type of a part cut to 8 bits", Plant::Mishear(type_cut)),
    fault("numbers: type of a store cut to 8 bits", Plant::Replace(stored_type_cut)),
    fault("numbers: mask of list use cut to 32 bits", Plant::Mishear(mask_cut)),
    fault("numbers: flags of an object cut to 32 bits", Plant::Mishear(flags_cut)),
];

/// The bytes that are left of a length in so many bits.
fn cut(bytes: &mut Vec<u8>, bits: u32) {
    bytes.truncate(bytes.len() % (1 << bits));
}

fn cut_request(call: &mut Call, bits: u32) {
    if let Call::Command { request, .. } = call {
        // The longest request stays: that it is refused is a fault of its own.
        if request.len() > 4096 {
            cut(&mut request.bytes, bits);
        }
    }
}

fn cut_reply(call: &mut Call, bits: u32) {
    if let Call::Command { room, .. } = call {
        room.length %= 1 << bits;
    }
}

fn cut_value(call: &mut Call, bits: u32) {
    if let Call::Store { value, .. } = call {
        cut(&mut value.bytes, bits);
    }
}

fn cut_features(call: &mut Call, bits: u32) {
    if let Call::Setup { features, .. } = call {
        cut(&mut features.bytes, bits);
    }
}

/// Whether the request is a parts set.
fn sets(card: &Card, request: &[u8]) -> bool {
    matches!(operation(card, request), Some((_, Operation::PartsSet(..))))
}

fn over_40_parts(card: &Card, request: &[u8], _: usize) -> Option<Refusal> {
    (given(card, request)?.len() > 40).then_some(Refusal::BadList)
}

fn over_4000_bytes(card: &Card, request: &[u8], _: usize) -> Option<Refusal> {
    given(card, request)?;
    (request.len() > 4000).then_some(Refusal::BadList)
}

/// Parts behind the 128th are taken for unknown ones that are skipped.
fn past_128(card: &Card, request: &mut Vec<u8>) {
    if sets(card, request) {
        for range in parts(card, request).into_iter().skip(128) {
            make_skipped(&mut request[range]);
        }
    }
}

/// A known part that is named again is found only among the first 32.
fn repeats_past_32(card: &Card, request: &mut Vec<u8>) {
    if !sets(card, request) {
        return;
    }
    let mut known = vec![];
    let count = queues(card, request);
    for (index, range) in parts(card, request).into_iter().enumerate() {
        let Some(name) = named(count, &request[range.clone()]) else { continue };
        if index >= 32 && known.contains(&name) {
            make_skipped(&mut request[range]);
        }
        known.push(name);
    }
}

/// Makes a part one that is skipped.
fn make_skipped(part: &mut [u8]) {
    part[..3].copy_from_slice(&[0xff, 0x05, 1]);
}

fn headers_unread(card: &Card, request: &mut Vec<u8>) {
    if let Some((_, operation @ Operation::GetSelected(..))) = operation(card, request) {
        let read = list_start(operation).unwrap_or_default() + HEADER * HEADERS_READ;
        request.truncate(read);
    }
}

/// A known part that is longer by a multiple of 256 has its length in the
/// table; what follows the table's length is skipped.
fn part_cut(card: &Card, request: &mut Vec<u8>) {
    if !sets(card, request) {
        return;
    }
    let count = queues(card, request);
    for range in parts(card, request).into_iter().rev() {
        let Some(name) = named(count, &request[range.clone()]) else { continue };
        let (length, wanted) = (range.len() - HEADER, name.length() as usize);
        if length > wanted && (length - wanted) % 256 == 0 {
            request[range.start + 12..range.start + 16]
                .copy_from_slice(&name.length().to_le_bytes());
            request.drain(range.start + HEADER + wanted..range.end);
        }
    }
}

/// The high byte of a type is taken for that of the parts.
fn type_cut(card: &Card, request: &mut Vec<u8>) {
    each_part(card, request, |part| part[1] = 1);
}

fn stored_type_cut(call: &mut Call) {
    if let Call::Store { part_type, .. } = call {
        *part_type = *part_type & 0xff | 0x100;
    }
}

/// Clears those of four bytes that are there of the data of a request that
/// steps 2 to 5 let pass.
fn clear(card: &Card, request: &mut [u8], of: &[Opcode], at: usize) {
    if framed(card, request).is_some_and(|(_, opcode)| of.contains(&opcode)) {
        request.iter_mut().skip(DATA + at).take(4).for_each(|byte| *byte = 0);
    }
}

fn mask_cut(card: &Card, request: &mut Vec<u8>) {
    clear(card, request, &[Opcode::ListUse], 4);
}

fn flags_cut(card: &Card, request: &mut Vec<u8>) {
    clear(card, request, &[Opcode::Create, Opcode::Modify, Opcode::Query], 12);
}
